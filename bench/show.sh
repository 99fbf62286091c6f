#!/usr/bin/env bash
# Times `show` on 300 encrypted files of 40 MB beside the same work by OpenSSL without AES-NI, and compares what the two write.
# Usage: bench/show.sh [PROGRAM]        PROGRAM is the built program, by default crates/mount_prog/out/mount_prog
# A time is processor time, the least of five runs; the runs of the two take turns.
set -eu
here=$(cd "$(dirname "$0")" && pwd)
program=$(realpath -m -- "${1:-$here/../crates/mount_prog/out/mount_prog}")
if [ ! -x "$program" ]; then
    echo "show.sh: there is no program $program" >&2
    exit 1
fi
work=$(mktemp -d)
trap 'rm -rf "$work"' EXIT
"$here/make_show_job.py" > "$work/job"
if ! "${CC:-cc}" -O2 -o "$work/show_reference" "$here/show_reference.c" -lcrypto 2> "$work/why"; then
    echo "no OpenSSL to build the reference with: $(grep -m 1 error "$work/why" || head -n 1 "$work/why")"
    rm -f "$work/show_reference"
fi
grep -m 1 'model name' /proc/cpuinfo
uptime
OPENSSL_ia32cap="~0x200000200000000" python3 - "$program" "$work" <<'PYTHON'
import filecmp
import os
import subprocess
import sys

RUNS, MEBIBYTE = 5, 1 << 20
program, work = sys.argv[1:]
reference = f"{work}/show_reference"
size = lambda name: os.path.getsize(f"{work}/{name}")


def run(command, name):
    """The processor seconds and the most memory of one run."""
    with open(f"{work}/job", "rb") as job, open(f"{work}/{name}", "wb") as out:
        process = subprocess.Popen([command, "show"], stdin=job, stdout=out)
        _, status, usage = os.wait4(process.pid, 0)
    if status:
        sys.exit(f"{command} ended with status {os.waitstatus_to_exitcode(status)}")
    return usage.ru_utime + usage.ru_stime, usage.ru_maxrss * 1024


has_reference = os.path.exists(reference)
ours, theirs = [], []
for _ in range(RUNS):
    ours.append(run(program, "ours"))
    if has_reference:
        theirs.append(run(reference, "theirs"))

mine, peak = min(time for time, _ in ours), max(memory for _, memory in ours)
print(f"job {size('job')} octets, show text {size('ours')} octets")
print(f"show: {mine:.2f} s")
if has_reference:
    other = min(time for time, _ in theirs)
    print(f"OpenSSL without AES-NI: {other:.2f} s")
    print(f"ratio {mine / other:.2f}")
print(f"most memory {peak / MEBIBYTE:.0f} MiB")
if has_reference:
    same = filecmp.cmp(f"{work}/ours", f"{work}/theirs", shallow=False)
    print("both write the same" if same else "THE TWO WRITE DIFFERENT TEXTS")
    sys.exit(0 if same else 1)
PYTHON
