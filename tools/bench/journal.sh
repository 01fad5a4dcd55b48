#!/usr/bin/env bash
# Builds the proved journal and its twin in plain Rust, runs both, and prints the time of a recovery, appends a second, and the ratios.
set -euo pipefail
cd "$(dirname "$0")/../.."
mkdir -p bin/bench
tools/build.sh journal_bench > /dev/null
rustc --edition 2021 -O -o bin/bench/journal tools/bench/journal.rs

# in turn, so that a busy machine disturbs both alike
for turn in 1 2 3; do
  bin/journal_bench time | sed 's/^/proved /'
  bin/bench/journal | sed 's/^/twin /'
done | awk '
  { sums[$1] = $3; for (i = 4; i < NF; i += 2) if (!(($1, $i) in best) || $(i + 1) < best[$1, $i]) best[$1, $i] = $(i + 1) }
  function appends(kind, words) {
    printf "append, %-8s proved %6.2f M/s  twin %6.2f M/s  ratio %.2f\n", words, 1000000 / best["proved", kind], 1000000 / best["twin", kind], best["twin", kind] / best["proved", kind]
  }
  END {
    if (sums["proved"] != sums["twin"]) { print "the sums differ"; exit 1 }
    printf "recovery         proved %6.0f us   twin %6.0f us   ratio %.2f\n", best["proved", "open"] / 50, best["twin", "open"] / 50, best["twin", "open"] / best["proved", "open"]
    appends("live", "all live")
    appends("few", "few live")
  }'
