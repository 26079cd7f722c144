#!/bin/sh
# Times what opening a node computes: the decoding of a catalogue's record of 16 and of 64 relationships with 256
# legs each, and the tests of a world of 8 and of 32 volumes with 255 full snapshots of 4,096 blocks each. It tells
# the user time of one call without what making the record or the world takes, and how often the larger one's is the
# smaller one's: four times as many bytes are to take about four times as long. The larger world takes 135 MB.
# It takes about half a minute; the gate does not run it.
top=$(CDPATH='' cd -- "$(dirname -- "$0")/.." && pwd) || exit 1
program=$top/crates/bench_opening/out/bench_opening

if [ ! -x "$program" ]; then
    command -v rt >/dev/null 2>&1 || {
        echo 'the program has to be built, and rt, the command of the kit that proves and builds it, is not in PATH' >&2
        exit 127
    }
    echo 'proving and building the program, which takes minutes the first time' >&2
    (cd -- "$top/crates/bench_opening" && rt run) </dev/null >/dev/null || exit 1
fi
exec python3 - "$program" <<'END'
import resource
import subprocess
import sys

program = sys.argv[1]
RUNS = 5


# The user time of a run, in milliseconds: the least of some, since others may use the machine.
def user_time(*words):
    times = []
    for _ in range(RUNS):
        start = resource.getrusage(resource.RUSAGE_CHILDREN).ru_utime
        subprocess.run([program, *map(str, words)], stdout=subprocess.DEVNULL, check=True)
        times.append(resource.getrusage(resource.RUSAGE_CHILDREN).ru_utime - start)
    return 1e3 * min(times)


def each(deed, outer, inner, calls):
    return (user_time(deed, outer, inner, calls) - user_time(deed, outer, inner, 0)) / calls


small, large = each("decode", 16, 256, 16000), each("decode", 64, 256, 4000)
print(f"decoding 16 and 64 relationships of 256 legs: {small:.3f} and {large:.3f} ms, {large / small:.2f} times")
small, large = each("test", 8, 255, 40), each("test", 32, 255, 10)
print(f"testing 8 and 32 volumes of 255 full snapshots: {small:.1f} and {large:.1f} ms, {large / small:.2f} times")
small, large = each("test", 32, 60, 40), each("test", 32, 240, 10)
print(f"testing 32 volumes of 60 and of 240 full snapshots: {small:.1f} and {large:.1f} ms, {large / small:.2f} times")
END
