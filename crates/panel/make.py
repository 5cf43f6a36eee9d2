#!/usr/bin/env python3
# Writes the program files of the folder data, in the serialised form: some that the panel shows, and some that it refuses. The same go to
# examples/programs.
#
#   python3 crates/panel/make.py
import os
import sys

HERE = os.path.dirname(os.path.realpath(__file__))
ROOT = os.path.join(HERE, os.pardir, os.pardir)
sys.path.insert(0, ROOT)

from model.allocator import integer
from model.files import form, prefixed


def number(n):
    """The atom of a number from 0 on."""
    return form(integer(n))


def pair(first, rest):
    return b"\xff" + first + rest


def listed(items, end=b"\x80"):
    """A list of encoded items."""
    return b"".join(b"\xff" + i for i in items) + end


def nested(pairs):
    """So many pairs, each the first of the one around it, with nil as its rest."""
    return b"\xff" * pairs + b"\x01" + b"\x80" * pairs


q, a, c, add = number(1), number(2), number(4), number(16)

FILES = {
    "quote": pair(q, form(b"\xc0\xff\xee")),
    # (a (q . (+ 2 5)) (c (q . 3) 1)): adds 3 and the first of the environment
    "function": listed([a, pair(q, listed([add, number(2), number(5)])), listed([c, pair(q, number(3)), q])]),
    "list": listed([number(n) for n in range(300)]),
    # the deepest that is read: level 4,096 holds the innermost atoms
    "deep": nested(4095),
    "too_deep": nested(4096),
    "large_atom": form(bytes((7 * i + i // 251) % 256 for i in range(8200))),
    "padded": listed([form(bytes.fromhex(h)) for h in ("0001", "00", "0080", "0000", "ff", "ff80", "ffff", "03ffffff", "04000000")]),
    "long_prefix": listed([prefixed(i, b"a") for i in (1, 2, 3, 4, 5)] + [prefixed(i, b"") for i in (2, 5)] + [prefixed(2, b"long")]),
    "truncated": pair(q, form(b"\xc0\xff\xee"))[:-1],
    "after_root": pair(q, number(2)) + number(3),
    "bad_prefix": pair(q, b"\xfc"),
    "empty": b"",
}

if __name__ == "__main__":
    for name, content in FILES.items():
        for folder in (os.path.join(HERE, "data"), os.path.join(ROOT, "examples", "programs")):
            with open(os.path.join(folder, name + ".clvm"), "wb") as f:
                f.write(content)
