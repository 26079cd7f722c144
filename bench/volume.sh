#!/bin/sh
# Times the calls of a volume of 4,096 blocks over a disk in memory, at 0, 1, 24 and 255 snapshots: a client's
# write, a consistency point, a snapshot with its removal, a removal (where the snapshots differ from the
# stable image at few blocks, and where they differ from it everywhere), and what encoding the same root
# takes; an opening, and what decoding its root takes. It tells the user time of one call without what making
# the volume takes, how often that is the encoding's, or the decoding's, and the most memory. At most 2.00 is
# wanted, and of an opening 1.50. It takes about six minutes; the gate does not run it.
top=$(CDPATH='' cd -- "$(dirname -- "$0")/.." && pwd) || exit 1
program=$top/crates/bench_volume/out/bench_volume

if [ ! -x "$program" ]; then
    command -v rt >/dev/null 2>&1 || {
        echo 'the program has to be built, and rt, the command of the kit that proves and builds it, is not in PATH' >&2
        exit 127
    }
    echo 'proving and building the program, which takes minutes the first time' >&2
    (cd -- "$top/crates/bench_volume" && rt run) </dev/null >/dev/null || exit 1
fi
exec python3 - "$program" <<'END'
import resource
import subprocess
import sys

program = sys.argv[1]
RUNS = 8


# The user time of a run, in microseconds: the least of some, since others may use the machine.
def user_time(deed, snapshots, calls):
    times = []
    for _ in range(RUNS):
        start = resource.getrusage(resource.RUSAGE_CHILDREN).ru_utime
        subprocess.run([program, deed, str(snapshots), str(calls)], stdout=subprocess.DEVNULL, check=True)
        times.append(resource.getrusage(resource.RUSAGE_CHILDREN).ru_utime - start)
    return 1e6 * min(times)


def each(deed, snapshots, calls):
    return (user_time(deed, snapshots, calls) - user_time(deed, snapshots, 0)) / calls


# The most memory of a run, in KiB.
def peak(*words):
    code = "import resource, subprocess, sys; subprocess.run(sys.argv[1:], stdout=subprocess.DEVNULL); print(resource.getrusage(resource.RUSAGE_CHILDREN).ru_maxrss)"
    return int(subprocess.run([sys.executable, "-c", code, program, *words], stdout=subprocess.PIPE, check=True).stdout)


def tell(what, time, base, name="encoding"):
    print(f"    {what:<26} {time:10.1f} us   {time / base:5.2f} of the {name}")


for snapshots, calls in (0, 3000), (1, 3000), (24, 400), (255, 200):
    write = each("write", snapshots, 10000)
    encoding = each("encode", snapshots, 5 * calls)
    print(f"{snapshots} snapshots: a write {write:.2f} us, the encoding {encoding:.1f} us")
    # Four writes come before each consistency point.
    tell("consistency point", each("commit", snapshots, calls) - 4 * write, encoding)
    tell("removal", each("remove", snapshots, calls), encoding)
    if snapshots > 0:
        tell("removal, all rewritten", each("rewritten", snapshots, calls), encoding)
        # The snapshot is the last one of so many, and its removal writes a shorter record.
        shorter = each("encode", snapshots - 1, 5 * calls)
        tell("snapshot and its removal", each("snapshot", snapshots - 1, calls), encoding + shorter)
    tell("of it the disk alone", each("disk", snapshots, calls), encoding)
    # Making so many snapshots takes long, so that few openings would be lost in its noise.
    tell("opening", each("open", snapshots, 3 * calls), each("decode", snapshots, 3 * calls), "decoding")

# What the disk keeps of each record that was written is no memory of the volume's.
for snapshots in 1, 255:
    whole, disk = peak("commit", str(snapshots), "0"), peak("disk", str(snapshots), "0")
    maps = 4 * 4096 * (snapshots + 2) / 1024
    print(f"{snapshots} snapshots: at most {whole / 1024:.1f} MiB, of which the bare disk {disk / 1024:.1f} MiB; the maps are {maps / 1024:.1f} MiB")
END
