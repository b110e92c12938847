#!/bin/sh
# Builds the comparison: build.sh ORACLE [OUT], from the repository's root. ORACLE is a folder with liboracle.rlib, the original
# svx.rs compiled unchanged as the module `svx` of a crate `oracle` (and, as `svx_open`, with its private decode_body made
# callable), and liboxideav_core.rlib beside it. Then: OUT/compare parse 5000000, and so on.
set -e
oracle=${1:?usage: build.sh ORACLE [OUT]}
out=${2:-target/compare}
mkdir -p "$out"
tools/archive.sh
rustc --edition 2021 -C opt-level=3 -C target-cpu=x86-64 -o "$out/compare" tools/compare/main.rs \
    -L "$oracle" --extern oracle="$oracle/liboracle.rlib" --extern oxideav_core="$oracle/liboxideav_core.rlib" \
    -L target/staticlib -l static=svx
