#!/bin/sh
# Holds the library against SoX, from the repository's root, once build.sh has run: a mono and a stereo file that SoX writes are read to
# the samples that SoX reports, and SoX reads them again from files that the library wrote.
set -e
compare=${1:-target/compare/compare}
dir=$(mktemp -d)
trap 'rm -r "$dir"' EXIT
sox -D -n -r 8363 -c 1 -b 8 -e signed-integer "$dir/mono.8svx" synth 0.21 sine 440 vol 0.7
sox -D -n -r 22050 -c 2 -b 8 -e signed-integer "$dir/stereo.8svx" synth 0.1371 sine 330 sine 550 vol 0.9
for name in mono stereo; do
    sox "$dir/$name.8svx" -t raw -e signed-integer -b 8 "$dir/sox.raw"
    "$compare" raw "$dir/$name.8svx" "$dir/library.raw"
    cmp "$dir/sox.raw" "$dir/library.raw"
    "$compare" rewrite "$dir/$name.8svx" "$dir/again.8svx"
    sox "$dir/again.8svx" -t raw -e signed-integer -b 8 "$dir/again.raw"
    cmp "$dir/sox.raw" "$dir/again.raw"
    echo "$name: $(wc -c < "$dir/sox.raw") samples, the same read by SoX and by the library, and again from the library's file"
done
