#!/bin/sh
# Times the program on scripts of 1 MiB and of 16 MiB of lines of mixed forms, and compares the two: at sixteen
# times the length at most twenty times the time is wanted. Not run by the gate.
top=$(CDPATH='' cd -- "$(dirname -- "$0")/.." && pwd) || exit 1
room=$(mktemp -d) || exit 1
trap 'rm -rf -- "$room"' EXIT
trap 'exit 1' HUP INT TERM

# A script of at most this many bytes: writes in three spellings, reads, tables, consistency points, comments and
# lines without a word, over and over.
make_script() {
    awk -v room="$1" 'BEGIN {
        put("volume create -path s:a -disk 1 -type rw -blocks 4096 -physical 16384")
        put("snapshot create -path s:a -snapshot first")
        for (i = 0; room > 0; i++) {
            block = i % 4096
            put("client write -path s:a -block " block " -fill " i % 256)
            put("client  write\t-fill " (i + 1) % 256 " -block " block " -path s:a")
            put("client write -block " block " -count 1 -fill 7 -path s:a")
            put("# the block is read back, and as the snapshot has it")
            put("lab read -path s:a -block " block)
            put("lab read -block " block " -snapshot first -path s:a")
            put("")
            if (i % 16 == 0) put("lab cp -path s:a")
            if (i % 64 == 0) put("snapshot show -path s:a")
        }
    }
    function put(line) {
        room -= length(line) + 1
        if (room >= 0) print line
    }'
}

now() {
    date +%s.%N
}

time_of() {
    start=$(now)
    "$top/lab" run <"$room/$1.script" >"$room/$1.output" || {
        echo "the run of $1 failed" >&2
        exit 1
    }
    end=$(now)
    awk -v start="$start" -v end="$end" 'BEGIN { printf "%.3f\n", end - start }'
}

make_script 1048576 >"$room/small.script"
make_script 16777216 >"$room/large.script"
# The first run builds the program, where that is needed.
"$top/lab" run </dev/null >/dev/null || exit 1
small=$(time_of small) || exit 1
large=$(time_of large) || exit 1
for it in small large; do
    printf '%s: %s bytes, %s lines, %s lines of output\n' "$it" "$(wc -c <"$room/$it.script" | tr -d ' ')" \
        "$(wc -l <"$room/$it.script" | tr -d ' ')" "$(wc -l <"$room/$it.output" | tr -d ' ')"
done
awk -v small="$small" -v large="$large" 'BEGIN {
    ratio = large / small
    printf "1 MiB: %s s, 16 MiB: %s s, ratio %.1f (at most 20 is wanted)\n", small, large, ratio
    exit ratio > 20
}'
