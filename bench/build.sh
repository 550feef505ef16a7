#!/bin/sh
# Builds the programs of this folder with rustc alone: build.sh [FOLDER]. Without a folder they go to out beside it.
set -eu
here=$(dirname "$0")
out=${1:-"$here/out"}
mkdir -p "$out"
for program in plain_clear generate compare largest figures_check; do
    rustc -O --edition 2021 -o "$out/$program" "$here/$program.rs"
done
