#!/usr/bin/env bash
# Proves programs and what they are made of, and puts them into bin/: those that people use, or the crates that are named.
set -eu
cd "$(dirname "$0")/.."
[ $# -gt 0 ] || set -- house box_ hall_script words storm
mkdir -p bin
for crate; do
  # a crate can't be called box, which is a keyword; hall_script is the hall that reads a script
  case $crate in
    box_) program=box ;;
    hall_script) program=hall ;;
    *) program=$crate ;;
  esac
  built=crates/$crate/out/$crate
  rm -f "$built" "$built.stamp"
  # rt builds a program when it runs it; how the run ends is no matter here
  echo "tools/build.sh: proves and builds $crate" >&2
  mkdir -p "crates/$crate/out"
  (cd "crates/$crate" && rt run -- --help < /dev/null > out/build.log 2>&1) || true
  [ -x "$built" ] || { cat "crates/$crate/out/build.log"; echo "tools/build.sh: $crate was not built" >&2; exit 1; }
  rm -f "crates/$crate/out/build.log"
  cp "$built" "bin/$program"
  echo "bin/$program"
done
