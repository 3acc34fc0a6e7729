#!/usr/bin/env bash
# Draws the sample house and what its television knows: from its finished run, and from its table file cut to six bytes.
#   pictures.sh [FOLDER]     docs/images if none is named; ZAQ names another program to draw with
set -eu
cd "$(dirname "$0")/.."
. tools/host.sh
folder=${1:-docs/images}
work=$built/pictures
zaq=${ZAQ:-$built/bin/zaq}
mkdir -p "$folder" "$work"
if [ -z "${ZAQ:-}" ]; then bash tools/build.sh; fi
"$zaq" draw examples/house.txt 1 -o "$folder/house_whole.svg"
"$zaq" write examples/house.txt 1 -o "$work/whole"
head -c 6 "$work/whole" > "$work/cut"
"$zaq" draw examples/house.txt "$work/cut" -o "$folder/house_cut.svg"
printf '%s\n' "$folder/house_whole.svg" "$folder/house_cut.svg"
