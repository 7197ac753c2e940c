#!/usr/bin/env bash
# A player whose output fails ends, and reads no more: its input stays open here, and silent behind the first line.
# usage, from the root: tests/stopped.sh PLAYER
set -euo pipefail
input=build/silent_input
rm -f "$input"
mkfifo "$input"
exec 3<> "$input"
echo audit >&3
status=0
timeout 10 "$@" <&3 > /dev/full 2> build/stopped.txt || status=$?
rm -f "$input"
if [ "$status" -ne 0 ] || ! grep -q 'standard output' build/stopped.txt; then
    echo "stopped: the player reads on though its output failed (status $status)" >&2
    exit 1
fi
