#!/usr/bin/env bash
# Times CBC of `cipher_bench` beside OpenSSL's without AES-NI, one after the other in the same run, and prints the rates and their ratio.
# Usage: bench/ciphers.sh [MEBIBYTES [ROUNDS]]
# A rate is in megabytes (1,000,000 octets) a second of processor time on extents of 4,096 octets: the best of the rounds of each.
set -eu
mebibytes=${1:-256}
rounds=${2:-5}
cd "$(dirname "$0")/../crates/cipher_bench"
rt run -- decrypt 1 > /dev/null
program=out/cipher_bench

# the processor seconds of one run
seconds() {
    local TIMEFORMAT=%U
    { time "$program" "$1" "$2" > /dev/null; } 2>&1
}

# what the mebibytes take, without the start and the hash
ours() {
    local whole start
    whole=$(seconds "$1" "$mebibytes")
    start=$(seconds "$1" 0)
    awk -v n="$mebibytes" -v t="$whole" -v s="$start" 'BEGIN { printf "%.1f\n", n * 1.048576 / (t - s) }'
}

openssl_without_aes_ni() {
    OPENSSL_ia32cap="~0x200000200000000" openssl speed -mr -seconds 1 -bytes 4096 -evp aes-128-cbc "$@" 2> /dev/null |
        awk -F: '/^\+F/ { printf "%.1f\n", $NF / 1000000 }'
}

best() {
    sort -n | tail -n 1
}

grep -m 1 'model name' /proc/cpuinfo
uptime
for direction in encrypt decrypt; do
    words=()
    if [ "$direction" = decrypt ]; then words=(-decrypt); fi
    mine=() theirs=()
    for _ in $(seq "$rounds"); do
        mine+=("$(ours "$direction")")
        theirs+=("$(openssl_without_aes_ni ${words[@]+"${words[@]}"})")
    done
    a=$(printf '%s\n' "${mine[@]}" | best)
    b=$(printf '%s\n' "${theirs[@]}" | best)
    awk -v d="$direction" -v a="$a" -v b="$b" 'BEGIN { printf "%s: %.0f MB/s, OpenSSL %.0f MB/s, ratio %.2f\n", d, a, b, a / b }'
done
