#!/usr/bin/env bash
# Asks of a log of rt ci that it passed, and that no must-fail edit was bad: one that cannot be applied or read fails nothing in
# rt ci, and shows nothing of a contract.
# usage: tools/edits_are_good.sh LOG
set -euo pipefail
ok=$(grep -E '^rt: ok;' "$1") || { echo "$1: rt ci did not pass" >&2; exit 1; }
if grep -qE ', [0-9]+ bad\b' <<< "$ok"; then
    grep -F ': BAD EDIT: ' "$1" >&2 || true
    echo "bad must-fail edits: $ok" >&2
    exit 1
fi
