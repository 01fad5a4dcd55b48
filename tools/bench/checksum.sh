#!/usr/bin/env bash
# Builds the proved checksum and its twin in plain Rust, runs both, and prints megabytes a second and the ratio.
set -euo pipefail
cd "$(dirname "$0")/../.."
mkdir -p bin/bench
tools/build.sh checksum_bench > /dev/null
rustc -O -o bin/bench/checksum tools/bench/checksum.rs

# in turn, so that a busy machine disturbs both alike
for turn in 1 2 3; do
  bin/checksum_bench time | sed 's/^/proved /'
  bin/bench/checksum | sed 's/^/twin /'
done | awk '
  { sums[$1] = $3; for (i = 4; i < NF; i += 2) if (!(($1, $i) in best) || $(i + 1) < best[$1, $i]) best[$1, $i] = $(i + 1) }
  function line(kind, mebibytes) {
    printf "%-8s proved %7.1f MB/s  twin %7.1f MB/s  ratio %.2f\n", kind, mebibytes * 1048576 / best["proved", kind], mebibytes * 1048576 / best["twin", kind], best["twin", kind] / best["proved", kind]
  }
  END {
    if (sums["proved"] != sums["twin"]) { print "the sums differ"; exit 1 }
    line("whole", 64)
    line("records", 64)
  }'
