"""Texts around the two limits of a raise's text, in code points and in bytes (document 02, M-104), and calls with such strings."""
from fields import joined, option, pieces, string
from reading import LONGEST, MOST_CODE_POINTS, ROWS, TAIL

MOST, MOST_BYTES = MOST_CODE_POINTS["text"], LONGEST["text"]
LETTERS = {1: b"x", 2: "é".encode(), 3: "€".encode(), 4: "\U0001F6A1".encode()}  # by their bytes
TOO_LONG = LETTERS[1] * (MOST + 1)


def letters(points, size):
    """So many letters of so many bytes together: wide and narrow ones in turn, then narrow ones."""
    widths, spare = [], size - points
    for left in range(points, 0, -1):
        more = max(spare - 3 * (left - 1), min(left % 3 + 1, spare))
        widths.append(1 + more)
        spare -= more
    return [LETTERS[width] for width in widths]


def text(points, size):
    return b"".join(letters(points, size))


# ---- texts

def at_limits():
    """Letters of one width, and of several, up to a limit and one beyond it."""
    for width, letter in LETTERS.items():
        yield from (letter * (MOST + more) for more in (-1, 0, 1, 2))
        yield from (letter * (MOST_BYTES // width + more) for more in (-1, 0, 1))
    for points in (MOST - 1, MOST, MOST + 1):
        yield from (text(points, size) for size in (points + 1, 2 * points, MOST_BYTES - 1, MOST_BYTES, MOST_BYTES + 1))


def in_rows():
    """The first and the last code point of each row, with so many letters before it that the limit is met, or passed by one."""
    for row in ROWS:
        for c in (bytes(ends[k] for ends in row) for k in (0, 1)):
            yield from (LETTERS[1] * points + c for points in (MOST - 1, MOST))


def told_apart():
    """Texts of which one may count something else than code points: letters with their marks, up to U+0000, units of UTF-16."""
    for marked in (("e\u0301" * n).encode() for n in (60, 61)):
        yield from (marked, marked + LETTERS[1])
    for zero in (b"\0" * MOST, b"\0" + LETTERS[1] * (MOST - 1), LETTERS[1] * 60 + b"\0" + LETTERS[1] * 59):
        yield from (zero, zero + LETTERS[1])
    yield from (LETTERS[4] * 40 + LETTERS[1] * n for n in (40, 41, 80, 81))


def in_stretches():
    """ASCII in stretches of every length up to 17 between other letters: one may count it by eight bytes."""
    for n in range(18):
        run = (LETTERS[1] * n + LETTERS[2]).decode() * (MOST + 1)
        yield from (run[:points].encode() for points in (MOST, MOST + 1))


def not_utf8():
    """Not UTF-8, with 120 other code points and more."""
    for wrong in (b"\xff", b"\x80", b"\xc3", b"\xe2\x82", b"\xf0\x9f\x9a", b"\xed\xa0\x80", b"\xc0\x80", b"\xf4\x90\x80\x80"):
        yield from (LETTERS[1] * MOST + wrong, TOO_LONG + wrong, wrong + TOO_LONG, LETTERS[1] * (MOST_BYTES - len(wrong)) + wrong)
    yield bytes(TAIL[:1]) * MOST_BYTES


def texts():
    return [*at_limits(), *in_rows(), *told_apart(), *in_stretches(), *not_utf8()]


# ---- calls

def other_faults():
    """A raise whose text has too many code points, with a fault in another field, or with a fault of length."""
    long = {"text": string(TOO_LONG)}
    for field, wrong in [("severity", b"\6"), ("cause", string(b"z")), ("region?", option(b"")), ("region?", option(b"\xff")),
                         ("details?", b"\2"), ("details?", option(b"d" * (LONGEST["details"] + 1)))]:
        yield joined(1, long | {field: wrong})
    whole, cut = joined(1, long), len(pieces(1)[-1])
    yield from (whole[:-n] for n in (1, cut, cut + 1, cut + 2))
    yield from (whole + more for more in (b"\0", b"\1", whole))
    yield joined(1, long | {"details?": option(None)}) + b"\0"


def other_fields():
    """Other strings with more than 120 code points, where they may be so long."""
    for field, made in (("region?", option), ("details?", option), ("reason", string), ("denial", string)):
        limit = LONGEST[field.rstrip("?")]
        ops = (1,) if field == "details?" else (1, 2) if field == "region?" else (5, 6)
        yield from (joined(op, {field: made(LETTERS[1] * n)}) for op in ops for n in (MOST, MOST + 1, limit))


def calls():
    return [*(joined(1, {"text": string(s)}) for s in texts()), *other_faults(), *other_fields()]
