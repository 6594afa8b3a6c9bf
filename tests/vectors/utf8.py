#!/usr/bin/env python3
"""Writes crates/utf8_vectors/stdin and stdout: strings to try, which of them the program is to accept, and how many code points it is to
count, by Python's UTF-8 decoder.

The rows of RFC 3629, section 4, say here where edges are, and so which strings are worth a try; the decoder alone says which are accepted,
and of how many code points. In stdin each text is a u16 length, big-endian, and its bytes: 20 of ASCII, a string, and 8 of ASCII.
"""
import itertools
import sys
from pathlib import Path

ROOT = Path(__file__).resolve().parents[2]
sys.path.insert(1, str(ROOT / "tests" / "calls"))
from reading import ROWS, TAIL

CRATE = ROOT / "crates" / "utf8_vectors"

# The first and the last character of each row.
FIRSTS, LASTS = ([bytes(ends[k] for ends in row) for row in ROWS] for k in (0, 1))
# How many bytes of ASCII a text has before its string, and behind it.
BEFORE, BEHIND = 20, 8


def code_points(s):
    """How many code points s has, by Python; None where it is not UTF-8."""
    try:
        return len(s.decode("utf-8"))
    except UnicodeDecodeError:
        return None


def accepted(s):
    """Whether s is UTF-8, by Python."""
    return code_points(s) is not None


def edges(lo, hi):
    """A range's ends and their neighbours outside."""
    return sorted({lo - 1, lo, hi, hi + 1} & set(range(256)))


# ---- pairs of a first and a second byte

def shown(marked):
    """The ranges of the bytes that are marked, each behind a blank."""
    runs = [[b for b, _ in run] for good, run in itertools.groupby(enumerate(marked), lambda item: item[1]) if good]
    return "".join(f" {run[0]:02x}-{run[-1]:02x}" for run in runs)


def pairs(ending):
    """The lines of an ending: first bytes side by side that have the same second bytes are one."""
    found = [shown(accepted(bytes([first, second]) + ending) for second in range(256)) for first in range(256)]
    yield "\nending" + "".join(f" {b:02x}" for b in ending)
    for ranges, run in itertools.groupby(range(256), found.__getitem__):
        firsts = list(run)
        yield f"{firsts[0]:02x}-{firsts[-1]:02x}:{ranges}"


# ---- strings

def cuts(s):
    """What s begins with, s itself left out."""
    return [s[:n] for n in range(len(s))]


def ascii_bytes(n, seed=0, some=b"\x7f\x00aZ~\x01 "):
    """Some ASCII, the least and the greatest byte among it."""
    return bytes(some[(seed + i) % len(some)] for i in range(n))


def at_edges():
    """Each byte by itself, and for each row bytes at and around the ends of its ranges, with all cuts."""
    yield from (bytes([b]) for b in range(256))
    for row in ROWS:
        for edge in map(bytes, itertools.product(*(edges(lo, hi) for lo, hi in row))):
            yield from [*cuts(edge), edge]


def side_by_side():
    """Characters at the corners of the rows, whole and cut, with a byte too many or another character behind them."""
    corners = [bytes(corner) for row in ROWS for corner in itertools.product(*row)]
    yield from (s + bytes([tail]) for s in corners for tail in TAIL)
    yield from (s + t for s in FIRSTS + LASTS for t in FIRSTS + LASTS)
    yield from (cut + t for s in FIRSTS + LASTS for cut in cuts(s) for t in FIRSTS)
    yield from (s + cut for s in FIRSTS for cut in cuts(LASTS[-1]))
    yield from (s * 17 for s in LASTS)


def in_long_ascii():
    """Characters, whole and cut, and bytes that fit nowhere, with more ASCII behind and before them than every text has."""
    broken = [cut for s in FIRSTS + LASTS for cut in cuts(s)] + [b"\x80", b"\xbf", b"\xc1", b"\xf5", b"\xff"]
    yield from (s + ascii_bytes(24) for s in FIRSTS + LASTS + broken)
    for s in {len(s): s for s in LASTS}.values():
        yield from (ascii_bytes(240) + s, ascii_bytes(240) + s[:-1])


def ascii_between():
    """ASCII between two characters, between a character and a cut one, and within a character."""
    for n, s in itertools.product(range(1, 18), [*cuts(LASTS[-1]), LASTS[-1]]):
        yield from (LASTS[1] + ascii_bytes(n) + s, s + ascii_bytes(n) + LASTS[-1][len(s):])
    yield from (cut + ascii_bytes(8) + s[len(cut):] for s in FIRSTS + LASTS for cut in cuts(s))


# ---- the files

def text(number, s):
    """A string in ASCII that is not the same for all numbers. Next before it are bytes below 0x40: joined to a
    tail by or, they do not hide that it is one."""
    return ascii_bytes(BEFORE - 10, number) + ascii_bytes(10, number, b"\x00\x01 ?") + s + ascii_bytes(BEHIND, number)


def by_part(whole, begin, out):
    """How many code points the whole has, by a part: the part's, and one for each byte of ASCII left out; 0 where the part is not accepted."""
    counted = code_points(whole[begin:len(whole) - out])
    return 0 if counted is None else counted + begin + out


def line(whole):
    """A text's line: its string; for each place up to it how many of nine ends of the text are accepted, all or none, so that the number
    says it of each; and the least and the greatest number of code points by these parts, the same, so that the two say it of each."""
    places = [[by_part(whole, begin, out) for out in range(BEHIND + 1)] for begin in range(BEFORE + 1)]
    digits = [sum(n > 0 for n in place) for place in places]
    least, greatest = min(map(min, places)), max(map(max, places))
    assert set(digits) <= {0, BEHIND + 1} and least == greatest, f"{whole.hex()}: numbers that do not say which"
    return f"{whole[BEFORE:-BEHIND].hex()} {''.join(map(str, digits))} {least}-{greatest}"


def main():
    endings = [bytes(ending) for n in range(3) for ending in itertools.product(edges(*TAIL), repeat=n)]
    strings = dict.fromkeys([*at_edges(), *side_by_side(), *in_long_ascii(), *ascii_between()])
    texts = [text(number, s) for number, s in enumerate(strings)]
    lines = [f"empty {int(accepted(b''))}", "single bytes" + shown(accepted(bytes([b])) for b in range(256))]
    lines += [*itertools.chain.from_iterable(map(pairs, endings)), "\ntexts", *map(line, texts)]
    (CRATE / "stdin").write_bytes(b"".join(len(whole).to_bytes(2, "big") + whole for whole in texts))
    (CRATE / "stdout").write_text("".join(f"{row}\n" for row in lines))


if __name__ == "__main__":
    main()
