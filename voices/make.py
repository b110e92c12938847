#!/usr/bin/env python3
"""Makes the voices beside it, the damaged and the unplayable ones too, and prints their sizes.

It needs Python 3 alone and runs from anywhere; each run makes the same bytes. What each file is for stands in README.md. Chunks stand in
the order in which the library writes them, and texts end with a zero byte as it ends them, so that a voice which is read and written
again is the same file.
"""
import math
import struct
from functools import lru_cache
from pathlib import Path

HERE = Path(__file__).resolve().parent
FULL = 65536  # the full level, volume or share
RATE = 8363  # samples a second at which a cycle of 32 samples is middle C
AUTHOR = "The Falkhubed project"


# Chunks.

def chunk(name, payload):
    """A chunk, with its pad byte after an odd size."""
    return name.encode() + struct.pack(">I", len(payload)) + payload + b"\0" * (len(payload) % 2)


def form(*chunks, group="FORM", kind="8SVX"):
    """A whole file."""
    return chunk(group, kind.encode() + b"".join(chunks))


def header(one_shot=0, repeat=0, cycle=0, rate=RATE, octaves=1, compression=0, volume=FULL):
    return chunk("VHDR", struct.pack(">IIIHBBI", one_shot, repeat, cycle, rate, octaves, compression, volume))


def number(name, value):
    """CHAN, PAN or FADE."""
    return chunk(name, struct.pack(">I", value))


def points(*list_of_points):
    """What ATAK and RLSE hold: milliseconds and the level they lead to."""
    return b"".join(struct.pack(">Hi", *p) for p in list_of_points)


def sequence_of(*segments):
    return chunk("SEQN", b"".join(struct.pack(">II", *s) for s in segments))


def texts(name, comment=None):
    """NAME, and for a voice that is meant to be heard AUTH and ANNO."""
    pairs = [("NAME", name)] + ([("AUTH", AUTHOR), ("ANNO", comment)] if comment else [])
    return b"".join(chunk(key, words.encode() + b"\0") for key, words in pairs)


# Samples.

def sample(value):
    """A value as a sample. It is cut to six decimals first: the last bit of a sine differs between machines, the samples must not."""
    return round(round(value, 6))


def wave(shape, length):
    return [sample(shape(t)) for t in range(length)]


def octaves_of(shape, hi, count):
    """The same shape in each octave, highest first: each one is twice as long as the one before it, and so sounds an octave lower."""
    return [sample(shape(i / 2 ** k)) for k in range(count) for i in range(hi * 2 ** k)]


def turns(n):
    """The sine of so many whole turns: it is 0 at every whole number, so parts of whole turns join without a click."""
    return math.sin(2 * math.pi * n)


def raw(samples):
    return struct.pack(f"{len(samples)}b", *samples)


DELTAS = (-34, -21, -13, -8, -5, -3, -2, -1, 0, 1, 2, 3, 5, 8, 13, 21)


@lru_cache(maxsize=None)
def fibonacci_step(running, target):
    """The nibble that comes nearest to the target, by a sum in a signed byte, which wraps, and the sample that it leads to. Of nibbles as
    near as each other it is the one whose delta is nearest to 0, as the library writes it."""
    reached = [(running + delta + 128) % 256 - 128 for delta in DELTAS]
    nibble = min(range(16), key=lambda n: (abs(reached[n] - target), abs(DELTAS[n])))
    return nibble, reached[nibble]


def fibonacci(samples):
    """A channel's bytes. The distance is measured from what a reader will have by then, not from the sample that was meant."""
    running = samples[0]
    nibbles = []
    for target in samples[1:]:
        nibble, running = fibonacci_step(running, target)
        nibbles.append(nibble)
    if len(nibbles) % 2 == 1:
        nibbles.append(8)
    return struct.pack("Bb", 0, samples[0]) + bytes(16 * high + low for high, low in zip(nibbles[::2], nibbles[1::2]))


# Voices that read and play.

def click():
    """The specification's whole example file: nothing but a header and a sample."""
    return form(header(one_shot=1, rate=8000), chunk("BODY", raw([-2])))


def pad():
    one_shot, repeat, cycle = 512, 1536, 32

    def shape(t):
        s = t - one_shot  # phases count from the loop, whose two tones make 48 and 49 turns, so that it joins its own start
        bright = max(0.0, 1 - t / one_shot) ** 2
        return 50 * turns(s / cycle) + 40 * turns(49 * s / repeat) + 15 * turns(3 * s / cycle) + 20 * bright * turns(5 * s / cycle)

    return form(
        header(one_shot, repeat, cycle, octaves=3, volume=57344),
        number("PAN ", 40960),
        chunk("ATAK", points((400, FULL), (300, 49152))),
        chunk("RLSE", points((250, 20480), (650, 0))),
        texts("Slow pad", "Three octaves, looped, a little to the left"),
        chunk("BODY", raw(octaves_of(shape, one_shot + repeat, 3))))


def sequence():
    part = 512

    def shape(t):
        tone, s = divmod(t, part)
        turns_of = (16, 20, 24, 32)[tone]  # 4 : 5 : 6 : 8, a major chord and its octave
        return 120 * math.exp(-2 * s / part) * (1 - s / part) * turns(turns_of * s / part)

    order = (0, 1, 2, 3, 2, 1, 0, 2, 1, 3, 2, 3, 0, 1, 2, 3, 3, 2, 1, 0, 1, 2, 3, 3)
    segments = [(part * n, part * (n + 1)) for n in order] + [(0, 384)]
    return form(
        header(repeat=4 * part, cycle=32),
        chunk("RLSE", points((120, 0))),
        sequence_of(*segments),
        number("FADE", 16),
        texts("Broken chord", "Four short tones in 25 segments, fading from the 17th on"),
        chunk("BODY", raw(wave(shape, 4 * part))))


def compressed():
    length, cycle = 8192, 64

    def shape(t):
        tone = 90 * turns(t / cycle) + 30 * math.exp(-t / 700) * turns(2 * t / cycle)
        return math.exp(-t / 2500) * (1 - t / length) * tone

    return form(
        header(one_shot=length, cycle=cycle, compression=1),
        chunk("RLSE", points((90, 0))),
        texts("Plucked string", "Fibonacci-compressed, played once"),
        chunk("BODY", fibonacci(wave(shape, length))))


def stereo():
    one_shot, repeat, cycle = 512, 1024, 32

    def side(turns_of):
        def shape(t):
            s = t - one_shot
            strike = max(0.0, 1 - t / one_shot)
            return 70 * turns(turns_of * s / repeat) + 50 * strike * turns(4 * s / cycle)
        return raw(octaves_of(shape, one_shot + repeat, 2))

    return form(
        header(one_shot, repeat, cycle, octaves=2, volume=49152),
        number("CHAN", 6),
        chunk("RLSE", points((500, 16384), (500, 0))),
        texts("Wide bell", "Left and right are a little out of tune"),
        chunk("BODY", side(32) + side(33)))


# Files that are refused, by the number in front of their name.

def blip():
    return wave(lambda t: 100 * (1 - t / 32) * turns(t / 8), 32)


def damaged():
    good, title, body = header(one_shot=32), texts("Damaged blip"), chunk("BODY", raw(blip()))
    packed, both = header(one_shot=32, compression=1), number("CHAN", 6)
    channel = fibonacci(blip())
    return {
        "01-under-12-bytes": form(good, title, body)[:11],
        "02-no-form": form(good, title, body, group="LIST"),
        "03-form-type-not-8svx": form(good, title, body, kind="AIFF"),
        "04-chunk-past-form": form(good, title, body[:-4]),
        "05-second-vhdr": form(good, good, title, body),
        "06-chunk-length-wrong": form(good, chunk("ATAK", points((50, FULL)) + b"\0\0"), title, body),
        "07-chan-not-2-4-6": form(good, number("CHAN", 3), title, body),
        "08-no-vhdr": form(title, body),
        "09-no-body": form(good, title),
        "10-compression-above-1": form(header(one_shot=32, compression=2), title, body),
        "11-fibonacci-body-odd": form(packed, both, title, chunk("BODY", channel + channel + b"\x88")),
        "12-fibonacci-channel-under-2-bytes": form(packed, title, chunk("BODY", channel[:1])),
        "13-octave-total-over-64-bits": form(header(one_shot=32, octaves=64), title, body),
        "14-channel-shorter-than-octaves": form(header(one_shot=32, octaves=2), title, body),
    }


def too_long():
    """A sequence of 2^32 samples, one more than a fill accepts. Segments cost 8 bytes each and samples half a byte each, packed, so that
    no smaller file than about 256 KiB has one: this has 2^14 segments of 2^18 samples."""
    length, count = 2 ** 18, 2 ** 14
    tone = wave(lambda t: 60 * turns(t / 64), 64) * (length // 64)
    return form(
        header(repeat=length, compression=1),
        sequence_of(*[(0, length)] * count),
        texts("Unplayable tone"),
        chunk("BODY", fibonacci(tone)))


def unplayable():
    looped, title, body = header(repeat=32), texts("Unplayable blip"), chunk("BODY", raw(blip()))
    halves = sequence_of((0, 16), (16, 32))
    return {
        "21-segment-invalid": form(looped, sequence_of((0, 16), (16, 30)), title, body),
        "22-sequence-with-one-shot": form(header(one_shot=8, repeat=24), halves, title, body),
        "23-fade-names-no-segment": form(looped, halves, number("FADE", 2), title, body),
        "24-sequence-too-long": too_long(),
    }


def main():
    files = {"click": click(), "pad": pad(), "sequence": sequence(), "fibonacci": compressed(), "stereo": stereo()}
    for folder, refused in (("damaged", damaged()), ("unplayable", unplayable())):
        (HERE / folder).mkdir(exist_ok=True)
        files.update({f"{folder}/{name}": data for name, data in refused.items()})
    for name, data in files.items():
        (HERE / f"{name}.8svx").write_bytes(data)
        print(f"{len(data):7} {name}.8svx")


if __name__ == "__main__":
    main()
