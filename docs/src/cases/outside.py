#!/usr/bin/env python3
"""Compares the stored answers about the leaves with programs that are not ours, and those about fields with another method.

    python3 docs/src/cases/outside.py < crates/cases/stdin

Checksums are compared with Python's own binascii.crc_hqx. Scrambled and unscrambled parts with GNU Radio's
digital.scrambler_bb and descrambler_bb where that is installed (Debian: apt-get install gnuradio, and Debian's own
python3); where it is not, that is said and they are left out. Fields have no outside program: they are compared with
arithmetic on one whole number. Where something differs, or nothing is compared, the status is 1. Not a part of the gate.

x^17 + x^12 + 1 is the G3RUH scrambler. GNU Radio's register shifts its earliest bit out at the bottom, so its seed is
the start with its bits in reverse order, its mask has a bit for each distance counted from there, and what it puts out
comes far bits late.
"""
import binascii
import sys

try:
    from gnuradio import blocks, digital, gr
except ImportError:
    gr = None


def bits_of(data):
    return [byte >> place & 1 for byte in data for place in range(7, -1, -1)]


def packed(bits):
    return bytes(sum(bit << 7 - i for i, bit in enumerate(bits[at:at + 8])) for at in range(0, len(bits), 8))


def run(block, bits):
    source, sink, top = blocks.vector_source_b(bits), blocks.vector_sink_b(), gr.top_block()
    top.connect(source, block, sink)
    top.run()
    return list(sink.data())


def through_gnuradio(word, near, far, start, data):
    seed = int(format(start & (1 << far) - 1, f"0{far}b")[::-1], 2)
    mask, length = 1 | 1 << far - near, far - 1
    if word == "scramble":
        late = run(digital.scrambler_bb(mask, seed, length), bits_of(data) + [0] * far)
        return packed(late[far:])
    return packed(run(digital.descrambler_bb(mask, seed, length), bits_of(data)))


def field(at, width, data):
    """The data as one number, how far the field is shifted up in it, and its mask; None where there is no field."""
    shift = 8 * len(data) - at - width
    if not 1 <= width <= 32 or shift < 0:
        return None
    return int.from_bytes(data, "big"), shift, (1 << width) - 1


def by_arithmetic(word, at, width, *rest):
    """What a field reads as, or the bytes with another value in it."""
    data = rest[-1]
    found = field(at, width, data)
    if word == "field":
        return str(found[0] >> found[1] & found[2] if found else 0)
    if found:
        (number, shift, mask), value = found, rest[0]
        data = (number & ~(mask << shift) | (value & mask) << shift).to_bytes(len(data), "big")
    return data.hex().upper()


def bytes_of(word):
    """Pairs of digits and runs, as `16*AA,BF35`; none are a dash."""
    pieces = [] if word == "-" else word.split(",")
    counted = [piece.split("*") if "*" in piece else (1, piece) for piece in pieces]
    return b"".join(bytes.fromhex(digits) * int(count) for count, digits in counted)


def outside(word, given):
    """What the other program or method answers, or None where there is none to ask."""
    *numbers, data = given
    data = bytes_of(data)
    if word in ("field", "replace"):
        return by_arithmetic(word, *map(int, numbers), data)
    if word == "checksum":
        return f"{binascii.crc_hqx(data, 0xFFFF):04X}"
    near, far, start, part = int(numbers[0]), int(numbers[1]), int.from_bytes(data[:4], "big"), data[4:]
    if gr is not None and 1 <= near < far <= 32 and part:
        return through_gnuradio(word, near, far, start, part).hex().upper()
    return None


def stored(word, given, answer):
    """The stored answer, without the remembered bits; the bytes themselves where they stayed. A scrambler's start is no part of them."""
    left = answer.split(" ")[-1]
    first = 4 if "scramble" in word else 0
    return bytes_of(given[-1])[first:].hex().upper() if left == "=" else left


# Other calls have no outside to ask.
COMPARED = ("checksum", "field", "replace", "scramble", "unscramble")


def main():
    if gr is None:
        print("GNU Radio is not here: the scrambler is not compared")
    compared, differ = {}, 0
    for line in sys.stdin:
        call, _, answer = line.rstrip("\n").partition(" | ")
        word, *given = call.split(" ")
        said = outside(word, given) if word in COMPARED else None
        if said is None:
            continue
        compared[word] = compared.get(word, 0) + 1
        if said != stored(word, given, answer):
            differ += 1
            print(f"differs: {call}: stored {answer}, outside {said}")
    print((", ".join(f"{n} {word}" for word, n in sorted(compared.items())) or "nothing") + f": {differ} differ")
    return 1 if differ or not compared else 0


if __name__ == "__main__":
    sys.exit(main())
