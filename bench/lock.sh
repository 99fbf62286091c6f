#!/usr/bin/env bash
# Times 8 threads of 1,000 turns each at one lock with `lock_bench`, and prints the wall time of each of the rounds, in seconds.
# Usage: bench/lock.sh [ROUNDS]
set -eu
rounds=${1:-5}
cd "$(dirname "$0")/../crates/lock_bench"
rt run -- 1 1 > /dev/null
grep -m 1 'model name' /proc/cpuinfo
nproc
uptime
TIMEFORMAT=%R
for _ in $(seq "$rounds"); do
    time out/lock_bench 8 1000 > /dev/null
done
