#!/bin/sh
# Holds the library's WAVE files against SoX and FFmpeg, from the repository's root, once build.sh has run: of octaves of mono and stereo
# voices, of odd and even lengths, both programs report the rate, the channels, the number of samples and every value.
set -e
compare=${1:-target/compare/compare}
dir=$(mktemp -d)
trap 'rm -r "$dir"' EXIT

# same WHAT FOUND EXPECTED
same() {
    [ "$2" = "$3" ] || { echo "$1: $2, not $3" >&2; exit 1; }
}

# The samples of a voice, interleaved, as SoX reads them. It knows no Fibonacci: there they are as the library reads them.
samples() {
    case $1 in
    */fibonacci.8svx) "$compare" raw "$1" "$dir/voice.raw" ;;
    *) sox "$1" -t raw -e signed-integer -b 8 "$dir/voice.raw" ;;
    esac
}

# octave FILE RATE CHANNELS HI K: the highest octave has HI samples in a side.
octave() {
    name="$(basename "$1" .8svx), octave $5"
    length=$(($4 << $5))
    data=$(($3 * length))
    samples "$1"
    tail -c +$(($3 * $4 * ((1 << $5) - 1) + 1)) "$dir/voice.raw" | head -c "$data" > "$dir/octave.raw"
    same "$name, samples read" "$(wc -c < "$dir/octave.raw")" "$data"
    "$compare" wave-file "$1" "$dir/octave.wav" "$5"
    same "$name, length of the file" "$(wc -c < "$dir/octave.wav")" $((44 + data + data % 2))
    found=$(for option in -r -c -s -b -e; do soxi $option "$dir/octave.wav"; done | tr '\n' ' ')
    same "$name, by SoX" "$found" "$2 $3 $length 8 Unsigned Integer PCM "
    found=$(ffprobe -v error -show_entries stream=codec_name,sample_rate,channels,duration_ts -of csv=p=0 "$dir/octave.wav")
    # FFmpeg has no number for the length of nothing
    [ "$length" != 0 ] || found=${found%N/A}0
    same "$name, by FFmpeg" "$found" "pcm_u8,$2,$3,$length"
    sox "$dir/octave.wav" -t raw -e signed-integer -b 8 "$dir/sox.raw" 2> "$dir/words"
    ffmpeg -v error -y -i "$dir/octave.wav" -f s8 "$dir/ffmpeg.raw" 2>> "$dir/words"
    same "$name, complaints" "$(cat "$dir/words")" ""
    cmp "$dir/octave.raw" "$dir/sox.raw"
    cmp "$dir/octave.raw" "$dir/ffmpeg.raw"
    echo "$name: $3 x $length samples at $2, the same read by SoX and by FFmpeg"
}

sox -D -r 8363 -n -c 1 -b 8 -e signed-integer "$dir/mono-even.8svx" synth 1756s sine 440 vol 0.7
sox -D -r 65535 -n -c 1 -b 8 -e signed-integer "$dir/mono-odd.8svx" synth 70001s sine 441 vol 0.9
sox -D -r 22050 -n -c 2 -b 8 -e signed-integer "$dir/stereo-even.8svx" synth 3022s sine 330 sine 550 vol 0.9
sox -D -r 1000 -n -c 2 -b 8 -e signed-integer "$dir/stereo-odd.8svx" synth 3023s sine 33 sine 55
octave "$dir/mono-even.8svx" 8363 1 1756 0
octave "$dir/mono-odd.8svx" 65535 1 70001 0
octave "$dir/stereo-even.8svx" 22050 2 3022 0
octave "$dir/stereo-odd.8svx" 1000 2 3023 0

# every value on both sides, by a header without lengths: up at the left, down at the right
{
    printf 'FORM\0\0\002\0648SVXVHDR\0\0\0\024\0\0\0\0\0\0\0\0\0\0\0\0\040\253\003\0\0\001\0\0CHAN\0\0\0\004\0\0\0\006BODY\0\0\002\0'
    i=0
    while [ $i -lt 512 ]; do
        printf "\\$(printf %03o $((i < 256 ? i : 511 - i)))"
        i=$((i + 1))
    done
} > "$dir/values.8svx"
octave "$dir/values.8svx" 8363 2 256 0

# no samples
printf 'FORM\0\0\0\0508SVXVHDR\0\0\0\024\0\0\0\0\0\0\0\0\0\0\0\0\040\253\001\0\0\001\0\0BODY\0\0\0\0' > "$dir/none.8svx"
octave "$dir/none.8svx" 8363 1 0 0

octave voices/click.8svx 8000 1 1 0
octave voices/sequence.8svx 8363 1 2048 0
octave voices/fibonacci.8svx 8363 1 8192 0
for k in 0 1 2; do octave voices/pad.8svx 8363 1 2048 $k; done
for k in 0 1; do octave voices/stereo.8svx 8363 2 1536 $k; done
