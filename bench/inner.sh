#!/bin/sh
# Times the inner functions (phase step, wave, square root and sixteen of them, a step of the ring) beside the same Rust, in one run.
# The modules of filters and player are private, so a copy of the crates is built with them open, in a temporary folder.
set -eu
cd "$(dirname "$0")/.."
work=$(mktemp -d)
trap 'rm -rf "$work"' EXIT
mkdir "$work/.git" # the top of a repository
mkdir -p "$work/crates/probe/src"
for c in float wave_table filters voice player; do
    mkdir -p "$work/crates/$c"
    cp -r "crates/$c/src" "crates/$c/specs" "crates/$c/proofs" "$work/crates/$c/"
done
sed -i 's/^mod /pub mod /' "$work/crates/filters/src/lib.rt" "$work/crates/player/src/lib.rt"
cp bench/probe.rt.txt "$work/crates/probe/src/lib.rt"
{ grep -E '^(float|wave_table|filters|voice|player):' crates.txt; echo 'probe staticlib: player voice filters wave_table float'; } > "$work/crates.txt"
(cd "$work/crates/probe" && rt lib > "$work/build.log" 2>&1) || { tail -5 "$work/build.log"; exit 1; }
rustc -O --edition 2021 -o "$work/inner" bench/inner.rs -L "$work/crates/probe/out" -l static=probe
"$work/inner"
