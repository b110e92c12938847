#!/bin/sh
# Proves the library and compiles it for C: target/staticlib/libsvx.a.
set -eu
cd "$(dirname "$0")/.."
(cd crates/svx && rt lib)
mkdir -p target/staticlib
cp crates/svx/out/libsvx.a target/staticlib/libsvx.a
