#!/bin/sh
# Runs two scripts over the same files, and then a report: what the first run left is there for the second.
# The folder of the files may be given; else it is a new one. Files that are there already are gone on from.
top=$(CDPATH='' cd -- "$(dirname -- "$0")/.." && pwd) || exit 1
folder=${1:-$(mktemp -d)}
cd -- "$folder" || exit 1
# The record of the node, and a volume that may use 8 blocks: 25726976 + 8 * 4096 bytes.
truncate -s 8916992 disk00 &&
    truncate -s 25759744 disk01 &&
    "$top/lab" run <"$top/examples/first.lab" &&
    "$top/lab" run <"$top/examples/second.lab" &&
    "$top/lab" report
