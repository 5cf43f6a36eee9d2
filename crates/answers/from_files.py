"""The cases of data/files.txt: each loads a file and then saves a node, the root that it answered or another.

Every answer is the model's. A case that stands for a sentence of the documents holds the model to the load's code and place (`want`, `place`) and
to the save's code and bytes (`gives`, `out`) that the sentence gives. A case that is to save alone has no file: its load answers 17, or 1."""
from functools import partial

from model.allocator import MOST, NIL, TOP, Record, new_record, pair, small, stored
from model.files import prefixed
from model.recorded import BYTE, Recorder

LARGEST = 2**64 - 1                 # of a record's numbers
ROOT = None                         # save the node that the load answered
ROOM = 64                           # what is lent for the saved file
LENT = dict(bytes=96, starts=6, ends=6, firsts=6, rests=6, file=ROOM)
FRESH = new_record(TOP)


def repeated(n, pattern):
    return (pattern * (n // len(pattern) + 1))[:n]


def content_of(file):
    """A file is given in parts: bytes, or how many and a pattern."""
    return b"".join(repeated(*part) if isinstance(part, tuple) else part for part in file)


# ---- what lists may hold before the calls


def put_bytes(v):
    def put(lists):
        lists["bytes"][:len(v)] = v
    return put


def put_slots(names, i, one, other, n=1, steps=(0, 0)):
    """So many slots from index i on, with steps between their numbers."""
    def put(lists):
        for name, value, step in zip(names, (one, other), steps):
            lists[name][i:i + n] = [value + k * step for k in range(n)]
    return put


put_atom = put_atoms = partial(put_slots, ("starts", "ends"))
put_pair = put_pairs = partial(put_slots, ("firsts", "rests"))


class Cases(Recorder):
    """A recorder of cases that are alike: a load, then a save."""

    def __init__(self):
        super().__init__(**LENT)
        self.names, self.read, self.sentence = set(), set(), ""

    def about(self, sentence):
        """What the cases from here on stand for."""
        self.sentence = sentence

    def begin(self, name, record, before):
        assert name not in self.names, name
        self.names.add(name)
        self.clear()
        self.case(name)
        self.say(self.sentence)
        self.model.record = record
        for put in before:
            put(self.model.lists)

    def add(self, name, file=(), record=FRESH, node=ROOT, before=(), room=ROOM, want=None, place=None, gives=None, out=None, **lent):
        """One case. The file is overwritten before the save, so that a save that writes nothing would be seen."""
        content = content_of(file)
        self.begin(name, record, before)
        self.lend(**lent, file=max(len(content), room))
        self.model.lists["file"][:len(content)] = content
        code, root, (at,) = self.call("load", len(content))
        assert want in (None, code) and place in (None, at), (name, code, at)
        self.model.lists["file"][:len(content)] = bytes([BYTE]) * len(content)
        self.lend(**lent, file=room)
        saved, _, (length,) = self.call("save", root if node is ROOT else node)
        written = bytes(self.model.lists["file"][:length])
        assert gives in (None, saved) and out in (None, written), (name, saved, written)


# ---- files that are read, and files that are not

LONG = bytes((37 * i + 11) % 251 for i in range(61))        # no byte of a long atom is that of a neighbour


def shortest(t, name, *file, out=None, **lent):
    """A file that is accepted. What is saved is the shortest form: the file itself, where no other is given. Where no case has read that,
    another does."""
    content = content_of(file)
    out = content if out is None else out
    t.add(name, file, want=0, gives=0, out=out, **lent)
    t.read.add(content)
    if out not in t.read:
        shortest(t, name + "-back", out, **lent)


def accepted_short(t):
    """Atoms of few bytes."""
    t.about("first bytes and prefixes that are read; the writer uses the shortest")
    one = partial(shortest, t)
    one("byte-00", b"\x00")                                 # on the heap: a lone zero is not small
    one("byte-01", b"\x01")
    one("byte-7f", b"\x7f")
    one("empty-80", b"\x80")
    one("empty-c0", b"\xc0\x00", out=b"\x80")
    one("empty-e0", b"\xe0\x00\x00", out=b"\x80")
    one("empty-f0", b"\xf0\x00\x00\x00", out=b"\x80")
    one("empty-f8", b"\xf8\x00\x00\x00\x00", out=b"\x80")
    one("byte-80", b"\x81\x80")
    one("byte-ff", b"\x81\xff")
    one("byte-7f-long", b"\x81\x7f", out=b"\x7f")
    one("byte-00-long", b"\x81\x00", out=b"\x00")
    one("byte-05-longest", b"\xf8\x00\x00\x00\x01\x05", out=b"\x05")
    one("two-0080", b"\x82\x00\x80")
    one("two-007f", b"\x82\x00\x7f")
    one("two-8000", b"\x82\x80\x00")
    one("three", b"\x83abc")
    one("four-03ffffff", b"\x84\x03\xff\xff\xff")
    one("four-04000000", b"\x84\x04\x00\x00\x00")
    one("five", b"\x85\x01\x02\x03\x04\x05")
    for size, first in ((2, "c0"), (3, "e0"), (4, "f0"), (5, "f8")):
        one("three-" + first, prefixed(size, b"abc"), out=b"\x83abc")


def accepted_long(t):
    """Atoms at the lengths where a prefix changes, and trees."""
    t.about("lengths below 2^6, 2^13, 2^20 and at them; long prefixes are accepted; the writer uses the shortest")
    one = partial(shortest, t)
    one("long-62", prefixed(1, repeated(62, LONG)))
    one("long-63", prefixed(1, repeated(63, LONG)))
    one("long-64", prefixed(2, repeated(64, LONG)), room=66)
    one("long-63-c0", prefixed(2, repeated(63, LONG)), out=prefixed(1, repeated(63, LONG)))
    one("long-64-e0", prefixed(3, repeated(64, LONG)), out=prefixed(2, repeated(64, LONG)), room=66)
    one("long-8191", b"\xdf\xff", (8191, LONG), bytes=8191, room=8193)
    one("long-8192", b"\xe0\x20\x00", (8192, LONG), bytes=8192, room=8195)
    one("long-1048575", b"\xef\xff\xff", (1048575, LONG), bytes=1048576, room=1048578)
    one("long-1048576", b"\xf0\x10\x00\x00", (1048576, LONG), bytes=1048576, room=1048580)
    t.add("long-8191-f0", [b"\xf0\x00\x1f\xff", (8191, LONG)], bytes=8191, room=8193, want=0, gives=0)
    t.add("long-1048575-f8", [b"\xf8\x00\x0f\xff\xff", (1048575, LONG)], bytes=1048575, room=1048579, want=0, gives=0)
    one("pair-of-nil", b"\xff\x80\x80")
    one("pair-both-sides", b"\xff\xff\x01\x82\x80\x80\xff\x00\x03")
    one("list", b"\xff\x01\xff\x83abc\xff\xc0\x00\xff\x81\x07\x80", out=b"\xff\x01\xff\x83abc\xff\x80\xff\x07\x80")


def broken(t):
    """Files that are no tree: 17."""
    t.about("bad encoding: 17, at the place of the item that starts there")

    def one(name, place, *file, **lent):
        t.add(name, file, want=17, place=place, **lent)

    one("no-bytes", 0)
    for first in (0xFC, 0xFD, 0xFE):
        one("byte-%02x" % first, 0, bytes([first]), b"abcdefgh")
    one("byte-fc-alone", 0, b"\xfc")
    one("byte-fe-in-pair", 2, b"\xff\x80\xfe")
    one("cut-81", 0, b"\x81")
    one("cut-bf", 0, b"\xbf")
    one("cut-bf-62", 0, b"\xbf", (62, LONG))
    headers = (("c0", b"\xc0\x40", 63), ("e0", b"\xe0\x20\x00", 8191), ("f0", b"\xf0\x10\x00\x00", 8191),
               ("f8", b"\xf8\x08\x00\x00\x00", 8191))
    for name, header, n in headers:
        for k in range(1, len(header) + 1):
            one("cut-%s-%d" % (name, k), 0, header[:k])
        one("cut-%s-last" % name, 0, header, (n, LONG), bytes=8192)
    one("cut-ef-last", 0, b"\xef\xff\xff", (1048574, LONG))
    one("cut-f7", 0, b"\xf7\xff\xff\xff", b"abc")
    one("cut-fb", 0, b"\xfb\xff\xff\xff\xff", b"abc")       # 2^34 - 1 bytes are not there
    one("no-first", 1, b"\xff")
    one("no-rest", 2, b"\xff\x80")
    one("no-rest-behind-atoms", 8, b"\xff\xff\x00\x82\x80\x81\xff\x00")
    one("cut-first", 1, b"\xff\x82\x80")
    one("cut-rest", 2, b"\xff\x00\xc0")
    one("after-atom", 1, b"\x80\x80")
    one("after-long-atom", 5, b"\xe0\x00\x02\x80\x80", b"\x00")
    one("after-pair", 3, b"\xff\x80\x80", b"\xff\x80\x80")
    one("after-pair-fe", 5, b"\xff\x82\x80\x80", b"\x80", b"\xfe")


# ---- levels

DEEP = dict(starts=4160, ends=4160, firsts=4160, rests=4160, bytes=4160)


def deep_loads(t):
    """18 of the reader."""
    t.about("4,096 levels are accepted, on the first and on the rest side; one more is refused on entering it")

    def loads(name, want, place, *file):
        t.add(name, file, room=8193, want=want, place=place, gives=0, **DEEP)

    loads("ff-4095", 17, 4095, (4095, b"\xff"))
    loads("ff-4096", 18, 4096, (4096, b"\xff"))
    loads("ff-4097", 18, 4096, (4097, b"\xff"))
    loads("ff-4096-fe", 18, 4096, (4096, b"\xff"), b"\xfe")
    loads("ff-4095-fe", 17, 4095, (4095, b"\xff"), b"\xfe")
    loads("deep-first-4096", 0, 8191, (4095, b"\xff"), (4096, b"\x80"))
    loads("deep-first-4097", 18, 4096, (4096, b"\xff"), (4097, b"\x80"))
    loads("deep-rest-4096", 0, 8191, (8190, b"\xff\x00"), b"\x00")
    loads("deep-rest-4097", 18, 8191, (8192, b"\xff\x00"), b"\x00")


def deep_save(t, name, gives, node, room, side, start=0):
    """Of 4,096 pairs, each the first or the rest of the next; at the bottom an atom, sound or not."""
    chain = put_pair(0, stored(0), NIL), put_pairs(1, pair(0), NIL, 4095, (1, 0))
    if side == "rest":
        chain = put_pair(0, NIL, stored(0)), put_pairs(1, NIL, pair(0), 4095, (0, 1))
    before = (put_bytes(b"\x00"), put_atom(0, start, 1)) + chain
    t.add(name, record=FRESH.but(bytes=1, atoms=1, pairs=4096), node=pair(node), before=before, room=room, **DEEP, gives=gives)


def deep_saves(t):
    """18 of the writer, beside 1 and 19."""
    t.about("the writer: 18 on entering a level; 18 before 5 and 1; 19 at the first byte that does not fit")
    saves = partial(deep_save, t)
    saves("save-first-4096", 0, 4094, 8191, "first")
    saves("save-first-4096-short", 19, 4094, 8190, "first")
    saves("save-first-4097", 18, 4095, 8193, "first")
    saves("save-first-4097-ffs", 18, 4095, 4096, "first")           # the ff's just fit: 18 before 19
    saves("save-first-4097-short", 19, 4095, 4095, "first")
    saves("save-first-4097-slot", 18, 4095, 8193, "first", 2)       # 18 before 1
    saves("save-first-4096-slot", 1, 4094, 8193, "first", 2)
    saves("save-first-slot-ffs", 1, 4094, 4095, "first", 2)         # 1 before 19
    saves("save-first-slot-short", 19, 4094, 4094, "first", 2)
    saves("save-rest-4096", 0, 4094, 8191, "rest")
    saves("save-rest-4097", 18, 4095, 8193, "rest")
    saves("save-rest-4097-ffs", 18, 4095, 8191, "rest")
    saves("save-rest-4097-short", 19, 4095, 8190, "rest")


# ---- from a state that is not empty

HELD = Record(3, 2, 1, 5, 4, 6, 40)         # some slots in use, some ghosts
HOLDS = put_bytes(b"\x80\x81\x82"), put_atoms(0, 0, 2, 2, (2, 1)), put_pair(0, stored(0), stored(1))
KEPT = b"\xff\x82\x80\x81\x81\x82"           # its pair, saved
FILE = b"\xff\x81\xaa\xff\x05\x82\xbb\xcc"   # two atoms that are stored and a small one between them: 4 heap bytes in all


def held_load(t, name, want, *file, place=None, record=HELD, **lent):
    """A load from that state, whose pair is then saved."""
    kept = dict(gives=1, out=b"") if want == 1 else dict(gives=0, out=KEPT)
    t.add(name, file or [FILE], record, pair(0), HOLDS, want=want, place=place, **kept, **lent)


def unsound(t):
    """1 of load."""
    t.about("load: 1 for the record, beside each of the five lists")
    held = partial(held_load, t)
    held("held-ok", 0)
    held("unsound-limit", 1, record=HELD.but(limit=TOP + 1), place=0)
    held("sound-limit", 0, record=HELD.but(limit=TOP))
    held("unsound-atoms", 1, record=HELD.but(ghost_atoms=MOST - 1), place=0)
    held("unsound-atoms-wide", 1, record=HELD.but(ghost_atoms=LARGEST))
    held("unsound-used-atoms", 1, record=HELD.but(atoms=LARGEST, ghost_atoms=2))
    held("unsound-pairs", 1, record=HELD.but(ghost_pairs=MOST))
    held("unsound-pairs-wide", 1, record=HELD.but(ghost_pairs=LARGEST))
    held("unsound-heap", 1, record=HELD.but(ghost_heap=40 + 3 * 7 - 3 + 1))
    held("sound-heap", 2, record=HELD.but(ghost_heap=40 + 3 * 7 - 3), place=1)
    held("unsound-heap-wide", 1, record=HELD.but(ghost_heap=LARGEST))
    held("unsound-used-bytes", 1, record=HELD.but(bytes=TOP + 1, limit=TOP))
    held("unsound-no-file", 1, b"", record=HELD.but(limit=TOP + 1), place=0)      # 1 before 17
    held("unsound-bytes", 1, bytes=2, place=0)
    held("unsound-starts", 1, starts=1)
    held("unsound-ends", 1, ends=1)
    held("unsound-firsts", 1, firsts=0)
    held("unsound-rests", 1, rests=0)


def limits(t):
    """2, 3 and 4 of load."""
    held = partial(held_load, t)
    t.about("load: 2 for the heap, which has 9 + 4 bytes at the end")
    held("heap-13", 0, record=HELD.but(limit=13))
    held("heap-12", 2, record=HELD.but(limit=12), place=5)
    held("heap-10", 2, record=HELD.but(limit=10), place=4)
    held("heap-9", 2, record=HELD.but(limit=9), place=1)
    held("heap-9-empty", 0, b"\xff\x80\x80", record=HELD.but(limit=9))
    held("heap-8-empty", 2, b"\xff\x80\x80", record=HELD.but(limit=8), place=1)
    t.about("load: 3, where three atoms more are made")
    held("atoms-left-3", 0, record=HELD.but(ghost_atoms=MOST - 5))
    held("atoms-left-2", 3, record=HELD.but(ghost_atoms=MOST - 4), place=5)
    held("atoms-left-1", 3, record=HELD.but(ghost_atoms=MOST - 3), place=4)
    held("atoms-left-0", 3, record=HELD.but(ghost_atoms=MOST - 2), place=1)
    t.add("ghost-atoms-62499999", [b"\xff\x01\x02"], FRESH.but(ghost_atoms=62499999), want=3, place=2)
    t.about("load: 4, where two pairs more are made, the inner one first")
    held("pairs-left-2", 0, record=HELD.but(ghost_pairs=MOST - 3))
    held("pairs-left-1", 4, record=HELD.but(ghost_pairs=MOST - 2), place=0)
    held("pairs-left-0", 4, record=HELD.but(ghost_pairs=MOST - 1), place=3)
    t.add("ghost-pairs-62500000", [b"\xff\x81\x80\x02"], FRESH.but(ghost_pairs=62500000), want=4, place=0)
    t.add("ghost-pairs-atom", [b"\x81\x80"], FRESH.but(ghost_pairs=62500000), want=0)


def rooms(t):
    """15, 17 and 18 of load."""
    held = partial(held_load, t)
    t.about("load: 15, where three bytes, two atom slots and two pair slots more are needed")
    held("room-exact", 0, bytes=6, starts=4, ends=4, firsts=3, rests=3)
    held("room-bytes-5", 15, bytes=5, place=5)
    held("room-bytes-3", 15, bytes=3, place=1)
    held("room-starts-3", 15, starts=3, place=5)
    held("room-starts-2", 15, starts=2, place=1)
    held("room-ends-3", 15, ends=3, place=5)
    held("room-ends-2", 15, ends=2, place=1)
    held("room-firsts-2", 15, firsts=2, place=0)
    held("room-firsts-1", 15, firsts=1, place=3)
    held("room-rests-2", 15, rests=2, place=0)
    held("room-rests-1", 15, rests=1, place=3)
    held("room-none-small", 0, b"\x05", bytes=3, starts=2, ends=2, firsts=1, rests=1)
    nothing = dict(bytes=0, starts=0, ends=0, firsts=0, rests=0)
    t.add("empty-slices", [b"\x80"], room=1, **nothing, want=0, gives=0)
    t.add("empty-slices-no-room", [b"\x80"], room=0, **nothing, want=0, gives=19)
    t.about("load: 17 and 18 leave the state as well")
    held("held-broken", 17, FILE[:-1], place=5)
    held("held-after", 17, FILE, b"\x80", place=8)
    held("held-deep", 18, b"\xff\x81\xaa", (4096, b"\xff"), place=4098)


def two_faults(t):
    """Two faults in one file."""
    t.about("the first fault in file order is answered; and the order of the tests at one item")

    def held(name, want, place, *file, **more):
        held_load(t, name, want, *file, place=place, **more)

    held("heap-then-broken", 2, 1, b"\xff\x82\xaa\xaa\xfe", record=HELD.but(limit=10))
    held("broken-then-heap", 17, 1, b"\xff\xfe\x82\xaa\xaa", record=HELD.but(limit=10))
    held("heap-before-atoms", 2, 0, b"\x81\xaa", record=HELD.but(limit=9, ghost_atoms=MOST - 2))
    held("atoms-before-room", 3, 0, b"\x81\xaa", record=HELD.but(ghost_atoms=MOST - 2), bytes=3, starts=2)
    held("cut-before-heap", 17, 0, b"\x82\xaa", record=HELD.but(limit=9))
    held("pairs-before-room", 4, 0, b"\xff\x05\x05", record=HELD.but(ghost_pairs=MOST - 1), firsts=1)
    held("pair-then-broken", 15, 1, b"\xff\xff\x80\x80\xfe", rests=1)
    held("broken-then-pair", 17, 3, b"\xff\xff\x80\xfe\x80", rests=1)
    held("pair-then-after", 15, 0, b"\xff\x80\x80\x00", firsts=1)
    held("pair-then-deep", 15, 1, b"\xff\xff\x80\x80", (4096, b"\xff"), firsts=1)
    held("deep-then-broken", 18, 4096, (4096, b"\xff"), b"\xfe", (9, b"\xfe"))
    held("room-then-heap", 15, 1, b"\xff\x82\xaa\xaa\xa0", (32, b"\xaa"), bytes=4)
    held("heap-then-room", 2, 1, b"\xff\xa0", (32, b"\xaa"), b"\x82\xaa\xaa", bytes=4)


# ---- what is saved


def held_save(t, name, gives, node, *puts, record=HELD, out=None, **lent):
    """A node of that state, changed by some puts; the file is left as it was where the save is refused."""
    t.add(name, (), record, node, HOLDS + puts, gives=gives, out=out, **lent)


def saves_refused(t):
    """1 and 5 of save."""
    held = partial(held_save, t)
    t.about("save: 1 for the record")
    held("save-held", 0, pair(0), out=KEPT)
    for name, short in (("bytes", 2), ("starts", 1), ("ends", 1), ("firsts", 0), ("rests", 0)):
        held("save-unsound-" + name, 1, NIL, **{name: short})
    held("save-unsound-limit", 1, pair(0), record=HELD.but(limit=TOP + 1))
    held("save-unsound-not-valid", 1, pair(1), record=HELD.but(limit=TOP + 1))      # the record's 1 before 5
    held("save-unsound-heap", 1, pair(0), record=HELD.but(ghost_heap=59))
    held("save-sound-heap", 0, pair(0), record=HELD.but(ghost_heap=58))
    held("save-unsound-atoms", 1, pair(0), record=HELD.but(ghost_atoms=MOST - 1))
    held("save-sound-atoms", 0, pair(0), record=HELD.but(ghost_atoms=MOST - 2))
    held("save-unsound-pairs", 1, pair(0), record=HELD.but(ghost_pairs=MOST))
    held("save-sound-pairs", 0, pair(0), record=HELD.but(ghost_pairs=MOST - 1))
    t.about("save: 5")
    held("save-no-pair", 5, pair(1))
    held("save-no-atom", 5, stored(2))
    held("save-kind-3", 5, 3 << 26)
    held("save-kind-63", 5, TOP)
    held("save-no-pair-no-room", 5, pair(1), room=0)                # 5 before 19


def saves_of_slots(t):
    """1 of save for slots, and the order of faults."""
    held = partial(held_save, t)
    t.about("save: 1 for an atom slot, or a pair slot")
    held("save-atom-start", 1, stored(1), put_atom(1, 3, 2))
    held("save-atom-start-below", 1, pair(0), put_atom(1, 3, 2))
    held("save-atom-start-other", 0, stored(0), put_atom(1, 3, 2))
    held("save-atom-start-no-room", 1, stored(1), put_atom(1, 3, 2), room=0)    # 1 before 19
    held("save-atom-end", 1, stored(1), put_atom(1, 2, 4))
    held("save-atom-empty", 0, stored(1), put_atom(1, 3, 3), out=b"\x80")
    held("save-pair-self", 1, pair(0), put_pair(0, NIL, pair(0)))
    held("save-pair-self-no-room", 1, pair(0), put_pair(0, NIL, pair(0)), room=0)
    held("save-pair-later", 1, pair(0), put_pair(0, pair(1), NIL), put_pair(1, NIL, pair(0)), record=HELD.but(pairs=2))
    held("save-pair-later-below", 1, pair(1), put_pair(0, pair(1), NIL), put_pair(1, NIL, pair(0)), record=HELD.but(pairs=2))
    held("save-pair-earlier", 0, pair(1), put_pair(1, NIL, pair(0)), record=HELD.but(pairs=2))
    held("save-pair-no-atom", 1, pair(0), put_pair(0, NIL, stored(2)))
    held("save-pair-kind-3", 1, pair(0), put_pair(0, 3 << 26, NIL))
    held("save-pair-largest", 0, pair(0), put_pair(0, small(67108863), NIL), out=b"\xff\x84\x03\xff\xff\xff\x80")
    t.about("save: faults in file order: ff, ff, 82 80 81, then the pair with the unsound slot")
    tree = put_pair(0, NIL, stored(2)), put_pair(1, stored(0), pair(0)), put_pair(2, pair(1), NIL)
    three = HELD.but(pairs=3)
    held("save-order", 1, pair(2), *tree, record=three)
    held("save-order-5", 1, pair(2), *tree, record=three, room=5)
    held("save-order-4", 19, pair(2), *tree, record=three, room=4)
    held("save-order-first", 1, pair(2), put_atom(0, 2, 1), *tree, record=three, room=2)
    held("save-order-first-1", 19, pair(2), put_atom(0, 2, 1), *tree, record=three, room=1)


def saves_short(t):
    """Too little room for the file: 19."""
    t.about("save: 19 at the first byte of an atom, at its prefix, at its last byte; at an ff")
    long = put_bytes(repeated(70, LONG)), put_atom(0, 0, 64), put_atom(1, 0, 63)
    for name, node, n in (("nil", NIL, 1), ("5", small(5), 1), ("128", small(128), 3), ("64", stored(0), 66), ("63", stored(1), 64)):
        for room in sorted({0, 1, n - 1, n, n + 1}):
            t.add("save-%s-room-%d" % (name, room), (), FRESH.but(bytes=70, atoms=2), node, long, room=room, gives=0 if n <= room else 19)
    pairs = put_pair(0, small(1), small(128)), put_pair(1, pair(0), small(2)), put_pair(2, small(3), pair(1))
    whole = b"\xff\x03\xff\xff\x01\x82\x00\x80\x02"
    for room in (0, 1, 2, 3, 4, 5, 7, 8, 9):
        fits_in = len(whole) <= room
        t.add("save-pairs-room-%d" % room, (), FRESH.but(pairs=3), pair(2), pairs, room=room, gives=0 if fits_in else 19, out=whole if fits_in else b"")


def shared(t):
    """Trees that load would not have made."""
    t.about("a branch that is shared is written each time it is met")
    twice = put_pair(1, pair(0), pair(0))
    t.add("shared-twice", (), HELD.but(pairs=2), pair(1), HOLDS + (twice,), gives=0, out=b"\xff" + KEPT + KEPT)
    t.add("shared-twice-back", [b"\xff" + KEPT + KEPT], want=0, gives=0, out=b"\xff" + KEPT + KEPT)
    doubled = put_pair(0, small(7), NIL), put_pairs(1, pair(0), pair(0), 39, (1, 1))
    for name, node, room, gives in (("shared-1024", 9, 2047, 0), ("shared-1024-short", 9, 2046, 19), ("shared-enormous", 39, 1000, 19)):
        t.add(name, (), FRESH.but(pairs=40), pair(node), doubled, room=room, firsts=40, rests=40, gives=gives)
    t.about("stored atoms that new_atom would have made small, and slots over the same bytes")
    slots = put_bytes(b"\x05\x00\x80\x7f"), put_atom(0, 0, 1), put_atom(1, 1, 1), put_atom(2, 1, 3), put_atom(3, 0, 4)
    tree = put_pair(0, stored(0), stored(1)), put_pair(1, stored(2), pair(0)), put_pair(2, stored(3), pair(1))
    out = b"\xff\x84\x05\x00\x80\x7f\xff\x82\x00\x80\xff\x05\x80"
    t.add("stored-not-small", (), FRESH.but(bytes=4, atoms=4, pairs=3), pair(2), slots + tree, gives=0, out=out)
    t.add("stored-not-small-back", [out], want=0, gives=0, out=out)
    t.about("a load over the slots that a refused one left: they count for nothing")
    t.add("over-leftovers", [b"\xff\x81\xee\x80"], FRESH, ROOT, HOLDS, want=0, gives=0, out=b"\xff\x81\xee\x80")


GROUPS = (accepted_short, accepted_long, broken, deep_loads, deep_saves, unsound, limits, rooms, two_faults, saves_refused, saves_of_slots,
          saves_short, shared)


def lines():
    """All lines of data/files.txt but its head."""
    t = Cases()
    for group in GROUPS:
        group(t)
    return t.lines
