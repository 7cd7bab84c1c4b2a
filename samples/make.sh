#!/usr/bin/env bash
# Makes every sample anew, out of the descriptions beside this script, in the folder given:
#
#     samples/make.sh FOLDER
#
# The second program must stand in target/second. Every file made is the same, byte for byte, as
# the one of its name beside this script.
set -euo pipefail

if [ $# -ne 1 ]; then
    echo "usage: samples/make.sh FOLDER" >&2
    exit 2
fi
folder=$1
here=$(dirname "$0")
second=$here/../target/second
mkdir -p "$folder"

for description in "$here"/*.txt; do
    sample=$folder/$(basename "$description" .txt)
    "$second" make <"$description" >"$sample.cab"
    "$second" plate <"$description" >"$sample.plate"
    if grep -q '^catalogue ' "$description"; then
        "$second" catalogue <"$description" >"$sample.catalogue"
    fi
done

# Name lists: 16-byte entries filled with spaces, one behind the other. The samples' name numbers
# count from 0 in the cabinet's list and from 64 in the house's.
names() {
    printf '%-16s' "$@"
}
names 'gate scan' 'output test' 'stop circuit' 'two-hand check' 'light curtain' 'valve watch' \
    'print mark' 'infeed drive' 'film feed' 'cutter drive' 'seal bar heat' 'reject gate' 'air pressure' \
    >"$folder/cabinet.names"
names 'drive talk' 'lamp driver' 'event log' 'watchdog' 'panel keys' >"$folder/house.names"
