#!/usr/bin/env bash
# Builds the proved server and its twin in plain Rust, runs both, and prints requests a second and the ratios;
# then the program house end to end, with its device in memory and on disk.
set -euo pipefail
cd "$(dirname "$0")/../.."
mkdir -p bin/bench
tools/build.sh server_bench house > /dev/null
rustc --edition 2021 -O -o bin/bench/server tools/bench/server.rs
cmp <(bin/server_bench) <(bin/bench/server) || { echo "the answers differ"; exit 1; }

# in turn, so that a busy machine disturbs both alike
for turn in 1 2 3 4 5; do
  bin/server_bench time | sed 's/^/proved /'
  bin/bench/server time | sed 's/^/twin /'
done | awk '
  { for (i = 2; i < NF; i += 2) if (!(($1, $i) in best) || $(i + 1) < best[$1, $i]) best[$1, $i] = $(i + 1) }
  function requests(kind, count, words) {
    printf "%-16s proved %6.2f M/s  twin %6.2f M/s  ratio %.2f\n", words, count / best["proved", kind], count / best["twin", kind], best["twin", kind] / best["proved", kind]
  }
  END {
    requests("renewals", 201024, "renewals")
    requests("first", 102400, "first requests")
  }'

python3 - <<'END'
import os, subprocess, sys, tempfile, time
sys.path.insert(0, "tools")
from programs import DEVICE_BYTES, request, settings

def requests(count):
    return settings(1024, 86400, 0) + b"".join(request(k * 7919 % 1024, k, 1024) for k in range(count))

def best(folder, count, rounds):
    with tempfile.TemporaryDirectory(dir=folder) as d:
        path, data = os.path.join(d, "device"), os.path.join(d, "input")
        with open(data, "wb") as f:
            f.write(requests(count))
        times = []
        for _ in range(rounds):
            with open(path, "wb") as f:
                f.write(bytes(DEVICE_BYTES))
            with open(data, "rb") as given:
                start = time.monotonic()
                subprocess.run(["bin/house", path], stdin=given, stdout=subprocess.DEVNULL, check=True)
                times.append(time.monotonic() - start)
        return count / min(times)

print(f"house, device in memory {best('/dev/shm', 100_000, 5):9.0f} /s")
print(f"house, device on disk   {best('bin/bench', 2_000, 3):9.0f} /s")
END
