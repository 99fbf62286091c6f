#!/usr/bin/env bash
# Times `derive` and an extent's IV beside the same work by Python's hashlib, on one core, in one run.
set -eu
cd "$(dirname "$0")/../crates/key_bench"
echo "kelpspade:"
rt run 2>&1 >/dev/null | grep -E '^(derive|extent_iv): '
echo "hashlib:"
python3 - <<'PYTHON'
from hashlib import md5, sha512
from time import thread_time_ns

GOES, EXTENTS = 10, 100_000

def derive():
    digest = sha512(bytes.fromhex("0011223344556677") + b"test").digest()
    for _ in range(65_535):
        digest = sha512(digest).digest()
    return digest, sha512(digest).digest()[:8]

def extent_ivs():
    iv = md5(bytes(16)).digest()
    for extent in range(EXTENTS):
        iv = md5((iv + str(extent).encode()).ljust(32, b"\0")).digest()
    return iv

def least(work):
    times = []
    for _ in range(GOES):
        start = thread_time_ns()
        work()
        times.append(thread_time_ns() - start)
    return min(times)

print(f"derive: {least(derive) // 1000} us")
print(f"extent_iv: {least(extent_ivs) // EXTENTS} ns")
PYTHON
