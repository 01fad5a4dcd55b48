#!/usr/bin/env bash
# Plays the accidents, and shows beside each story what the simulation prints of it.
set -eu
cd "$(dirname "$0")/.."
for story in sleep late crash twice; do
  script=crates/hall_cases/data/$story.txt
  echo "== $story"
  # the story is the comments at the head of the script
  sed -n '/^#/!q; s/^# \{0,1\}/   /p' "$script"
  bin/words script < "$script" | bin/hall | tools/brief.sh
  echo
done
