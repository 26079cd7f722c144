#!/bin/sh
# Fills a volume of 4,096 blocks, takes 255 snapshots of it, and tells the time and the most memory that
# the program had: less than 1 GiB is wanted. Not run by the gate.
top=$(CDPATH='' cd -- "$(dirname -- "$0")/.." && pwd) || exit 1
room=$(mktemp -d) || exit 1
trap 'rm -rf -- "$room"' EXIT
trap 'exit 1' HUP INT TERM

awk 'BEGIN {
    print "volume create -path s:a -disk 1 -type rw -blocks 4096 -physical 16384"
    for (block = 0; block < 4096; block++) printf "client write -path s:a -block %d -fill %d\n", block, block % 256
    for (number = 1; number <= 255; number++) {
        printf "snapshot create -path s:a -snapshot s%d\n", number
        # a block is written anew between two of them, so that they differ
        printf "client write -path s:a -block %d -fill %d\n", number, (number + 1) % 256
    }
}' >"$room/script"
# The first run builds the program, where that is needed.
"$top/lab" run </dev/null >/dev/null || exit 1
python3 - "$top/lab" "$room/script" "$room/output" <<'END' || exit 1
import resource
import subprocess
import sys
import time

program, script, output = sys.argv[1:]
start = time.monotonic()
with open(script, "rb") as given, open(output, "wb") as taken:
    status = subprocess.run([program, "run"], stdin=given, stdout=taken).returncode
seconds = time.monotonic() - start
# of the largest process that was waited for, in KiB
peak = resource.getrusage(resource.RUSAGE_CHILDREN).ru_maxrss
print(f"status {status}, {seconds:.1f} s, at most {peak / 1024:.0f} MiB (less than 1024 is wanted)")
sys.exit(status != 0 or peak >= 1024 * 1024)
END
grep -c '^snapshot ' "$room/output" | sed 's/$/ snapshots in the report/'
