#!/usr/bin/env bash
# Runs a comparison with a bug planted in the model: it has to fail, and by saying what differs.
# usage: tests/planted.sh PLANT MESSAGE COMMAND..
set -euo pipefail
plant=$1
message=$2
shift 2
mkdir -p build
if "$@" > "build/plant_$plant.txt" 2>&1; then
    echo "planted bug not caught: $plant"
    exit 1
fi
grep -q "$message" "build/plant_$plant.txt" || { cat "build/plant_$plant.txt"; exit 1; }
echo "planted bug caught: $plant"
