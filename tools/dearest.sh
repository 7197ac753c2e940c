#!/usr/bin/env bash
# The ten dearest crates of a log of rt ci, and the ten whose edits may weigh most: rt says of no edit how long it took, but each is a
# check of its crate, in no more than the crate's own seconds. Crates and edits that are kept from an earlier run have no part in it.
# usage: tools/dearest.sh LOG     a log that tools/progress.sh wrote
set -euo pipefail

# The ten largest of lines `number text`, behind a heading.
ten() {
    echo "$1"
    sort -k1,1nr -k2 | awk 'NR <= 10 { number = $1; $1 = ""; printf "  %4d s %s\n", number, $0 }'
}

sed -nE 's/^seconds: ([^ ]+) ([0-9]+)$/\2 \1/p' "$1" | ten 'the dearest crates:'
awk '$1 == "seconds:" { seconds[$2] = $3 }
     /^rt: [^ ]+: trying its must-fail edits \([0-9]+\)$/ {
         name = $2; sub(/:$/, "", name); number = $NF; gsub(/[()]/, "", number)
         if (name in seconds) print number * seconds[name], name ", edits: " number }' "$1" | ten 'the dearest edits of a crate, at most:'
