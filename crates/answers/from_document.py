"""The calls of data/document.txt: each sentence of document 01 from both sides, as tables of calls.

A sentence begins a case. Every answer is the model's; where document 01 writes a number out, the table holds the model to it (`want`, `part`,
`is_record`)."""
from model.allocator import MOST, NIL, TOP, Record, pair, small, stored
from model.recorded import CALLS, Recorder

LARGEST = 2**64 - 1                 # of a record's numbers
LENT = dict(bytes=4096, starts=64, ends=64, firsts=64, rests=64, file=0)


class Table(Recorder):
    """A recorder with a name for each group of cases, whose methods are the calls."""

    def __init__(self):
        super().__init__(**LENT)
        self.group, self.number = "", 0

    def begin(self, group):
        """A group of cases, from a fresh state on."""
        self.group, self.number = group, 0
        self.clear()

    def say(self, sentence):
        """A sentence, and a case of its own, which goes on from the state of the one before."""
        self.number += 1
        self.case("%s-%d" % (self.group, self.number))
        super().say(sentence)

    # -- the state

    def set(self, *seven, **changes):
        """The record: seven numbers, or changes to the present one."""
        record = Record(*seven) if seven else self.model.record
        self.model.record = record.but(**changes)

    def put_bytes(self, at, v):
        self.model.lists["bytes"][at:at + len(v)] = v

    def put_atom(self, i, start, end):
        self.model.lists["starts"][i], self.model.lists["ends"][i] = start, end

    def put_pair(self, i, first, rest):
        self.model.lists["firsts"][i], self.model.lists["rests"][i] = first, rest

    def taken(self):
        """A checkpoint of the present state."""
        return self.model.record

    # -- calls

    def __getattr__(self, name):
        if name not in CALLS:
            raise AttributeError(name)
        return lambda *args, **wants: self.ask(name, *args, **wants)

    def ask(self, name, *args, want=None, part=None):
        """A call, and its node. `want` is how its code, node and values begin, `part` the stored bytes that `atom` shows."""
        code, node, values = self.call(name, *args)
        if want is not None:
            assert (code, node, *values)[:len(want)] == want, (self.lines[-1], want)
        if part is not None:
            place, start, length = values
            assert place == "bytes" and self.model.lists[place][start:start + length] == part, (self.lines[-1], part)
        return node

    def is_record(self, *seven):
        """Numbers that document 01 writes out."""
        assert self.model.record.numbers() == list(seven), self.model.record.numbers()


# ---- reads

KINDS = (NIL, stored(0), pair(0), stored(50), pair(50), 3 << 26)
COUNTS = ("atom_count", "allocated_atom_count", "pair_count", "allocated_pair_count", "heap_size", "allocated_heap_size",
          "checkpoint", "transparent_checkpoint")
ATOMS = (b"\x80", b"\0\x80", b"\xff\x7f", b"\0\0\1", b"\1\2\3\4\5", b"\3\xff\xff\xff", b"\4\0\0\0", b"\x7f", b"\0", b"")
USED = sum(map(len, ATOMS))         # the bytes of base_state


def every_count(t, want=None):
    for name in COUNTS:
        t.ask(name, want=want)


def every_slot_read(t, n, k=None):
    """Each call that reads slots, on one node."""
    k = k or Record(0, 0, 0, 0, 0, 0, 0)
    t.node(n)
    t.sexp(n)
    t.next(n)
    t.atom_len(n)
    t.small_number(n)
    t.atom_eq(n, n)
    t.atom(n, 4)
    t.checkpoint_node_status(k, n)


def base_state(t):
    """Ten stored atoms and three pairs, lent exactly."""
    at = 0
    for i, v in enumerate(ATOMS):
        t.put_bytes(at, v)
        t.put_atom(i, at, at + len(v))
        at += len(v)
    t.put_pair(0, NIL, stored(1))
    t.put_pair(1, pair(0), pair(0))
    t.put_pair(2, stored(9), small(1))
    t.set(at, 10, 3, 2, 0, 1, 100)
    t.lend(bytes=at, starts=10, ends=10, firsts=3, rests=3)


def node_bits(t):
    """The calls on a node alone."""
    t.say("the bits of a node: a kind above 2 gives 5")
    for n in (0, 1, 67108863, stored(0), stored(67108863), small(0), small(1), small(67108863), 3 << 26, (3 << 26) + 5, 63 << 26, TOP):
        t.object_type(n)
        t.index(n)
        t.is_atom(n)
        t.is_pair(n)


def lengths(t):
    """How many bytes a value takes."""
    t.say("len_for_value: 2^7, 2^15, 2^23, 2^31 take a byte more; the largest small value takes four")
    for v in (0, 1, 127, 128, 255, 256, 32767, 32768, 65535, 65536, 8388607, 8388608, 67108863, 67108864, 2147483647, 2147483648, TOP):
        t.len_for_value(v)


def fitting(t):
    """Which bytes are small."""
    t.say("fits_in_small_atom: document 01's eight, then each sentence from both sides")
    for v, value in ((b"", 0), (b"\0", None), (b"\x7f", 127), (b"\x80", None), (b"\0\x7f", None), (b"\0\x80", 128),
                     (b"\3\xff\xff\xff", 67108863), (b"\4\0\0\0", None)):
        t.fits_in_small_atom(v, want=(0, None, "none") if value is None else (0, None, "some", value))
    for v in (b"\1", b"\xff", b"\0\xff", b"\0\0", b"\1\0", b"\x7f\xff", b"\x80\0", b"\0\x80\0", b"\0\x7f\xff", b"\0\0\x80", b"\7\0\0",
              b"\x7f\xff\xff", b"\x80\0\0", b"\1\0\0\0", b"\0\x80\0\0", b"\0\xff\xff\xff", b"\0\x7f\xff\xff", b"\2\0\0\0", b"\x83\0\0\0",
              b"\0\0\0\0", b"\1\0\0\0\0", b"\0\0\0\0\1", b"\0\x80\0\0\0", bytes(40)):
        t.fits_in_small_atom(v)


def every_read(t):
    """Each read of each node of a well-formed state."""
    t.say("a well-formed state lent exactly: every read of every kind of node, valid and not")
    base_state(t)
    every_count(t)
    t.well_formed(want=(0, None, "yes"))
    for n in ([stored(i) for i in range(11)] + [pair(i) for i in range(4)] + [stored(67108863), pair(67108863)]
              + [small(v) for v in (0, 1, 127, 128, 32767, 32768, 8388607, 8388608, 67108863)] + [3 << 26, 62 << 26, TOP]):
        every_slot_read(t, n)


def equal_atoms(t):
    """Atoms beside each other."""
    t.say("atom_eq: the bytes decide, whatever the kinds; left 5 and 1, right 5 and 1, then 6 with the left pair, else with the right")
    same = {stored(1): small(128), stored(5): small(67108863), stored(7): small(127), stored(9): NIL}
    for n, m in same.items():
        t.atom_eq(n, m, want=(0, None, "yes"))
        t.atom_eq(m, n, want=(0, None, "yes"))
    for n, m in ((stored(0), small(128)), (small(128), stored(0)), (stored(8), NIL), (NIL, stored(8)), (stored(3), small(1)), (small(1), small(2)),
                 (stored(2), stored(1)), (stored(4), stored(3)), (stored(6), small(67108863)), (stored(9), stored(8)), (small(127), small(127))):
        t.atom_eq(n, m)
    t.atom_eq(pair(0), pair(1), want=(6, pair(0)))
    t.atom_eq(pair(1), NIL, want=(6, pair(1)))
    t.atom_eq(stored(0), pair(2), want=(6, pair(2)))
    t.atom_eq(NIL, pair(1), want=(6, pair(1)))
    t.atom_eq(pair(0), stored(10), want=(5, NIL))
    t.atom_eq(stored(10), pair(0), want=(5, NIL))
    t.atom_eq(pair(3), stored(0), want=(5, NIL))
    t.atom_eq(NIL, 3 << 26, want=(5, NIL))


def scratches(t):
    """Where an atom shows its bytes."""
    t.say("atom: a small atom with a scratch of another length gives 15, after 1, 5, 1 and 6; Bytes nodes and refusals leave the scratch")
    for scratch in (0, 1, 3, 4, 5, 8):
        for n in (NIL, small(1), small(67108863), stored(4), stored(9), pair(0), stored(10)):
            t.atom(n, scratch)


def statuses(t):
    """Nodes beside a checkpoint."""
    t.say("checkpoint_node_status: 5, small Before, below the checkpoint's count Before, a later pair AfterNewBytes, later Bytes by their start")
    for k in (Record(0, 0, 0, 0, 0, 0, 0), Record(USED, 10, 3, 0, 0, 0, 0), Record(8, 4, 1, 0, 0, 0, 0), Record(13, 4, 2, 0, 0, 0, 0),
              Record(9, 5, 1, 0, 0, 0, 0), Record(LARGEST, 0, 0, 0, 0, 0, 0), Record(0, LARGEST, LARGEST, 0, 0, 0, 0)):
        for n in (NIL, pair(0), pair(1), pair(2), pair(3), stored(3), stored(4), stored(5), stored(9), stored(10), 5 << 26):
            t.checkpoint_node_status(k, n)


def unsound_atom_slots(t):
    """Atom slots that are not sound: 1 where they are read."""
    t.say("unsound atom slots: start > end, end > used bytes; the slot is judged only where it is read")
    base_state(t)
    for i, start, end in ((0, 1, 0), (0, 0, USED + 1), (9, USED + 1, USED + 1), (9, USED, USED), (9, 0, USED), (4, 5, 4), (4, TOP, TOP), (4, 0, TOP)):
        t.put_atom(i, start, end)
        t.well_formed()
        every_slot_read(t, stored(i))
        t.atom_eq(stored(1), stored(i))
        t.atom_eq(stored(i), 3 << 26)
        t.atom_eq(pair(0), stored(i))
        t.atom_eq(stored(i), pair(0))
        t.atom(stored(i), 3)
        t.checkpoint_node_status(Record(USED, i + 1, 0, 0, 0, 0, 0), stored(i))
        t.sexp(pair(2))
        base_state(t)
    t.put_atom(0, 1, 0)
    t.put_atom(2, 1, 0)
    t.atom_eq(stored(0), pair(0), want=(1, NIL))
    t.atom_eq(stored(10), stored(0), want=(5, NIL))
    t.atom_eq(stored(0), stored(10), want=(1, NIL))
    t.atom_len(stored(1), want=(0, None, 2))


def unsound_pair_slots(t):
    """Pair slots that are not sound: 1 where they are read."""
    t.say("unsound pair slots: a pair child at its own index or past it, a child that is not valid, a kind above 2; on either side")
    base_state(t)
    for child in (pair(1), pair(2), pair(3), pair(67108863), stored(10), stored(67108863), 3 << 26, TOP, pair(0), stored(9), small(67108863)):
        for i, first, rest in ((1, child, NIL), (1, NIL, child)):
            t.put_pair(i, first, rest)
            t.well_formed()
            t.node(pair(i))
            t.sexp(pair(i))
            t.next(pair(i))
        t.sexp(pair(2))
        t.small_number(pair(1))
        t.atom_len(pair(1))
        t.checkpoint_node_status(Record(0, 0, 0, 0, 0, 0, 0), pair(1))
        base_state(t)
    t.put_pair(0, pair(0), NIL)
    t.well_formed(want=(0, None, "no"))
    t.node(pair(0), want=(1, NIL))
    t.node(pair(1), want=(0, None, "pair", 0, 0))


def unused_slots(t):
    """Slots that no call reads."""
    t.say("a slot past the used count is not judged")
    base_state(t)
    t.lend()
    t.put_atom(10, 9, 1)
    t.put_pair(3, pair(3), TOP)
    t.well_formed(want=(0, None, "yes"))


# Records at a limit, and one past it.
RECORDS = (
    (TOP, 0, 0, 2, 0, 1, TOP), (TOP + 1, 0, 0, 2, 0, 1, TOP),                      # used bytes
    (0, 0, 0, 2, 0, 1, TOP), (0, 0, 0, 2, 0, 1, TOP + 1),                          # limit
    (0, 3, 0, MOST - 3, 0, 1, 9), (0, 3, 0, MOST - 2, 0, 1, 9),                    # atoms
    (0, MOST, 0, 0, 0, 0, 0), (0, MOST + 1, 0, 0, 0, 0, 0),
    (0, 0, 3, 2, MOST - 3, 1, 9), (0, 0, 3, 2, MOST - 2, 1, 9),                    # pairs
    (0, 0, MOST, 0, 0, 0, 0), (0, 0, MOST + 1, 0, 0, 0, 0),
    (5, 1, 0, 2, 0, 14, 10), (5, 1, 0, 2, 0, 15, 10),                              # heap: limit + 3 x atoms
    (0, 0, 0, 0, 0, 0, 0), (0, 0, 0, 0, 0, 1, 0),
    (TOP, 0, 0, MOST, 0, 3 * MOST, TOP), (TOP, 0, 0, MOST, 0, 3 * MOST + 1, TOP),
    (1, 1, 1, LARGEST, 0, 1, TOP), (1, 1, 1, 2, LARGEST, 1, TOP), (1, 1, 1, 2, 0, LARGEST, TOP),   # sums past 2^64
    (1, 1, 1, LARGEST - 1, 0, 1, TOP), (1, 1, 1, 2, LARGEST - 1, 1, TOP), (1, 1, 1, 2, 0, LARGEST - 1, TOP),
    (LARGEST, 1, 1, 2, 0, 1, TOP), (1, LARGEST, 1, 2, 0, 1, TOP), (1, 1, LARGEST, 2, 0, 1, TOP), (1, 1, 1, 2, 0, 1, LARGEST),
    (LARGEST,) * 7,
)


def unsound_records(t):
    """Records that are not sound: 1 first of all."""
    t.say("records at a limit and one past it, on the calls that are lent no slice")
    base_state(t)
    for seven in RECORDS:
        t.set(*seven)
        every_count(t)
    t.say("the same records on every call that is lent slices: 1 comes before 5 and before any slot")
    for seven in RECORDS:
        t.set(*seven)
        t.well_formed()
        for n in (NIL, 3 << 26):
            every_slot_read(t, n)


def short_lists(t):
    """Records that do not fit the lists: 1 as well."""
    t.say("used counts that fit the slices lent, and one past each: 1 where that slice is lent to the call")
    for short in ({}, dict(bytes=USED - 1), dict(starts=9), dict(ends=9), dict(firsts=2), dict(rests=2), dict(starts=64, ends=9), dict(starts=9, ends=64),
                  dict(firsts=64, rests=2), dict(firsts=2, rests=64), dict(bytes=0), dict(starts=0, ends=0), dict(firsts=0, rests=0)):
        base_state(t)
        t.lend(**dict(dict(bytes=USED, starts=10, ends=10, firsts=3, rests=3), **short))
        t.well_formed()
        for n in KINDS:
            every_slot_read(t, n)
        t.heap_size()


# ---- creates


def fresh(t):
    """What a record begins as."""
    t.say("new_limited: ghosts 2, 0, 1; a limit above 4,294,967,295 gives 1 and the record for limit 0")
    for limit in (0, 1, 3, TOP - 1, TOP, TOP + 1, LARGEST):
        t.new_limited(limit)
    t.is_record(0, 0, 0, 2, 0, 1, 0)


def new_atoms(t):
    """new_atom, accepted and with 2."""
    t.say("new_atom: 2 if heap + length > limit; limits 0, exact, one past")
    for limit in (0, 1, 2, 3, 10, 11):
        t.new_limited(limit)
        t.new_atom(b"")
        t.new_atom(b"\1")
        t.new_atom(b"\x80")
        t.new_atom(bytes(range(100, 110)))
        t.new_atom(bytes(range(100, 109)))
        t.new_atom(b"")
    t.say("a fitting value becomes small, ghost heap + length; otherwise bytes and one slot")
    t.new_limited(100)
    for v in (b"", b"\0", b"\x7f", b"\x80", b"\0\x7f", b"\0\x80", b"\3\xff\xff\xff", b"\4\0\0\0", b"\1\2\3\4\5"):
        t.new_atom(v)
    t.well_formed(want=(0, None, "yes"))


def new_atoms_refused(t):
    """new_atom with 3, 15 and 1."""
    t.say("2 before 3: 62,500,000 reached by ghosts")
    t.new_limited(9)
    t.add_ghost_atom(MOST - 3)
    t.new_atom(b"\1", want=(0, small(1)))
    t.new_atom(b"\1", want=(3, NIL))
    t.new_atom(b"\x80", want=(3, NIL))
    t.new_atom(b"", want=(3, NIL))
    t.new_atom(bytes(8), want=(2, NIL))
    t.new_atom(bytes(7), want=(3, NIL))
    t.say("15 when every other test passed: bytes, starts, ends full or one short; a small value needs no room; 2 and 3 come before")
    for lent in (dict(bytes=4), dict(bytes=5), dict(bytes=6), dict(starts=1), dict(ends=1), dict(starts=2, ends=2), dict(starts=1, ends=1), dict(bytes=3, starts=1)):
        t.set(3, 1, 0, 2, 0, 1, 10)
        t.lend(**lent)
        t.new_atom(b"\xff\xfe\xfd\xfc\xfb\xfa\xf9")
        t.new_atom(b"\x7f")
        t.new_atom(b"")
        t.new_atom(b"\xff\xfe")
        t.new_atom(b"\xff")
    t.set(3, 1, 0, MOST - 1, 0, 1, 10)
    t.lend(bytes=3, starts=1, ends=1)
    t.new_atom(b"\xff", want=(3, NIL))
    t.new_atom(b"\xff" * 9, want=(2, NIL))
    t.say("1 comes first")
    t.lend(bytes=2)
    t.new_atom(b"\1" * 20, want=(1, NIL))
    t.lend(starts=0)
    t.new_atom(b"", want=(1, NIL))
    t.lend()
    t.set(0, 0, 0, 2, 0, 8, 1)
    t.new_atom(b"", want=(1, NIL))


def new_small_numbers(t):
    """Small numbers."""
    t.say("new_small_number: 13, 2, 3")
    t.new_limited(6)
    for v in (67108864, TOP, 67108863, 67108863, 0, 1, 2):
        t.new_small_number(v)
    for limit in (0, 1, 2, 3, 4, 5):
        for v in (67108864, 67108863, 8388608, 8388607, 32768, 32767, 128, 127, 1, 0):
            t.new_limited(limit)
            t.new_small_number(v)
    t.set(0, 0, 0, MOST, 0, 1, 5)
    t.new_small_number(67108864, want=(13, NIL))
    t.new_small_number(67108863, want=(3, NIL))
    t.set(0, 0, 0, MOST, 0, 1, 4)
    t.new_small_number(67108863, want=(2, NIL))
    t.set(0, 0, 0, MOST - 1, 0, 1, 5)
    t.new_small_number(67108863, want=(0, small(67108863)))
    t.set(0, 0, 0, MOST + 1, 0, 1, 5)
    t.new_small_number(67108864, want=(1, NIL))
    t.say("new_small_number is lent no slice, so its record need fit none")
    t.set(9999, 99, 99, 2, 0, 1, 99999)
    t.new_small_number(128, want=(0, small(128)))


THRESHOLDS = [1 << b for b in (7, 15, 23, 31, 39, 47, 55, 63)]


def integers(t):
    """The bytes of integers."""
    t.say("new_u64: shortest big-endian two's complement at every threshold and beside it, zero empty; then what was made")
    t.lend()
    for x in sorted({0, 1, 2, 255, 256, 65535, 65536, 67108863, 67108864, LARGEST - 1, LARGEST}
                    | {h + d for h in THRESHOLDS for d in (-1, 0, 1)} | {2 * h + d for h in THRESHOLDS[:7] for d in (-1, 0, 1)}):
        t.new_limited(20)
        n = t.new_u64(x)
        t.atom(n, 4)
        t.small_number(n)
    t.say("new_i64: the same with their mirrors, -2^7 still takes one byte")
    for x in sorted({0, 1, -1, 2, -2, 255, -255, 256, -256, 67108863, 67108864, -67108864, -2**63, 2**63 - 1}
                    | {s * h + d for h in THRESHOLDS[:7] for d in (-1, 0, 1) for s in (-1, 1)} | {-2**63 + 1, 2**63 - 2}):
        t.new_limited(20)
        n = t.new_i64(x)
        t.atom(n, 4)
        t.small_number(n)
    t.new_limited(20)
    t.atom(t.new_i64(-128, want=(0, stored(0))), 4, part=b"\x80")
    t.atom(t.new_i64(-129, want=(0, stored(1))), 4, part=b"\xff\x7f")


def integers_refused(t):
    """What they are refused with."""
    t.say("through new_atom: 1, 2, 3, 15")
    for seven, lent in (((0, 0, 0, 2, 0, 20, 1), {}), ((0, 0, 0, 2, 0, 1, 9), {}), ((0, 0, 0, 2, 0, 1, 10), {}), ((0, 0, 0, 2, 0, 1, 8), {}),
                        ((0, 0, 0, MOST, 0, 1, 10), {}), ((0, 0, 0, 2, 0, 1, 10), dict(bytes=8)), ((0, 0, 0, 2, 0, 1, 10), dict(bytes=7)),
                        ((0, 0, 0, 2, 0, 1, 10), dict(starts=0)), ((0, 0, 0, 2, 0, 1, 10), dict(ends=0))):
        for x in (LARGEST, 2**62, 5):
            t.set(*seven)
            t.lend(**lent)
            t.new_u64(x)
        for x in (-2**63, 5):
            t.set(*seven)
            t.lend(**lent)
            t.new_i64(x)
    t.lend()


def new_pairs(t):
    """new_pair, accepted and with 5."""
    t.say("new_pair: 5 for first, then rest; 4 if pairs = 62,500,000; 15")
    t.new_limited(100)
    t.new_atom(b"\x80")
    t.new_pair(NIL, stored(0), want=(0, pair(0)))
    t.new_pair(pair(0), pair(0), want=(0, pair(1)))
    t.new_pair(small(67108863), pair(1), want=(0, pair(2)))
    for bad in (pair(3), stored(1), 3 << 26, TOP):
        t.new_pair(bad, NIL, want=(5, NIL))
        t.new_pair(NIL, bad, want=(5, NIL))
        t.new_pair(bad, bad, want=(5, NIL))
    t.node(pair(2))
    t.say("only the nodes are judged: a child's slot is not read")
    t.put_pair(1, TOP, TOP)
    t.new_pair(pair(1), stored(0), want=(0, pair(3)))
    t.put_pair(1, pair(0), pair(0))
    t.well_formed(want=(0, None, "yes"))


def new_pairs_refused(t):
    """new_pair with 4, 15 and 1."""
    t.say("pairs at 62,500,000 by ghosts, one below it, and full slices")
    t.add_ghost_pair(MOST - 5, want=(0, None))
    t.new_pair(NIL, NIL, want=(0, pair(4)))
    t.new_pair(NIL, NIL, want=(4, NIL))
    t.new_pair(NIL, stored(1), want=(5, NIL))
    t.lend(firsts=5, rests=5)
    t.new_pair(NIL, NIL, want=(4, NIL))
    t.remove_ghost_pair(1, want=(0, None))
    for lent in (dict(firsts=5, rests=5), dict(firsts=6, rests=5), dict(firsts=5, rests=6)):
        t.lend(**lent)
        t.new_pair(NIL, NIL, want=(15, NIL))
        t.new_pair(stored(1), NIL, want=(5, NIL))
    t.lend(firsts=6, rests=6)
    t.new_pair(pair(4), stored(0), want=(0, pair(5)))
    t.say("1 comes first")
    for lent in (dict(firsts=5), dict(rests=5)):
        t.lend(**lent)
        t.new_pair(TOP, TOP, want=(1, NIL))
    t.lend(bytes=0, starts=0, ends=0)
    t.new_pair(stored(0), NIL, want=(4, NIL))
    t.set(0, 0, 0, 2, 0, 1, TOP + 1)
    t.new_pair(TOP, NIL, want=(1, NIL))
    t.lend()


def ghosts(t):
    """Ghosts that are added and removed."""
    t.say("ghost calls: 4 or 3 if the room up to 62,500,000 is under the amount; removal 14")
    t.new_limited(0)
    t.set(pairs=3)
    for amount in (LARGEST, LARGEST - 2, MOST - 2, MOST - 3, 0, 1, LARGEST):
        t.add_ghost_pair(amount)
    for amount in (MOST - 2, LARGEST, 1, MOST - 4, 1, 0):
        t.remove_ghost_pair(amount)
    t.is_record(0, 0, 3, 2, 0, 1, 0)
    t.set(pairs=0, atoms=3)
    for amount in (LARGEST, LARGEST - 4, MOST - 4, MOST - 5, 0, 1, LARGEST):
        t.add_ghost_atom(amount)
    t.is_record(0, 3, 0, MOST - 3, 0, 1, 0)
    t.set(0, 0, 0, MOST + 1, 0, 1, 0)
    t.add_ghost_atom(0, want=(1, NIL))
    t.add_ghost_pair(0, want=(1, NIL))
    t.remove_ghost_pair(1, want=(1, NIL))


def limit_3(t):
    """The run that document 01 gives for limit 3."""
    t.say("document 01's limit 3: [00 80], then substr(1,2), is accepted at heap 4; a new empty atom then gives 2")
    t.new_limited(3)
    t.new_atom(b"\0\x80", want=(0, small(128)))
    t.new_substr(small(128), 1, 2, want=(0, stored(0)))
    t.is_record(1, 1, 0, 3, 0, 3, 3)
    t.heap_size(want=(0, None, 4))
    t.new_atom(b"", want=(2, NIL))
    t.new_small_number(0, want=(2, NIL))
    t.new_concat(0, [], want=(2, NIL))
    t.new_substr(stored(0), 0, 1, want=(0, stored(1)))
    t.new_substr(small(67108863), 1, 4, want=(0, stored(2)))
    t.well_formed(want=(0, None, "yes"))


def laid(t, seven=(8, 5, 1, 2, 0, 1, 60), **lent):
    """[01 02 03 04 05], [00 80], an empty atom, a slot that ends before it starts, one that ends past the used bytes; a pair."""
    t.put_bytes(0, b"\1\2\3\4\5\0\x80\x7f")
    for i, (start, end) in enumerate(((0, 5), (5, 7), (7, 7), (5, 4), (0, 9))):
        t.put_atom(i, start, end)
    t.put_pair(0, NIL, NIL)
    t.lend(**lent)
    t.set(*seven)


def substr_order(t):
    """new_substr: the order of its tests."""
    t.say("new_substr: 3, 5, 1, 6, then 7, 8, 9 with the node")
    laid(t, (8, 5, 1, MOST - 5, 0, 1, 20))
    t.new_substr(stored(5), 9, 9, want=(3, NIL))
    t.new_substr(stored(0), 0, 5, want=(3, NIL))
    laid(t, (8, 5, 1, MOST - 6, 0, 1, 20))
    t.new_substr(stored(5), 9, 9, want=(5, NIL))
    t.new_substr(pair(1), 0, 0, want=(5, NIL))
    t.new_substr(7 << 26, 0, 0, want=(5, NIL))
    t.new_substr(stored(3), 9, 9, want=(1, NIL))
    t.new_substr(stored(4), 0, 0, want=(1, NIL))
    t.new_substr(pair(0), 9, 9, want=(6, pair(0)))
    for n, length in ((stored(0), 5), (stored(1), 2), (stored(2), 0), (small(0), 0), (small(1), 1), (small(128), 2), (small(32768), 3), (small(67108863), 4)):
        t.new_substr(n, length + 1, length, want=(7, n))
        t.new_substr(n, length + 1, length + 1, want=(7, n))
        t.new_substr(n, TOP, 0, want=(7, n))
        t.new_substr(n, length, length + 1, want=(8, n))
        t.new_substr(n, 0, TOP, want=(8, n))
        if length:
            t.new_substr(n, length, length - 1, want=(9, n))
            t.new_substr(n, 1, 0, want=(9, n))
    t.new_substr(stored(0), 1, 3, want=(0, stored(5)))
    t.new_substr(stored(0), 1, 3, want=(3, NIL))


def substrs(t):
    """What new_substr makes."""
    t.say("of Bytes: a new slot over the same bytes, never small; of a small atom: small if the part fits, heap unchanged, else bytes and a slot")
    laid(t, (8, 3, 1, 2, 0, 1, 9))
    for start, end in ((0, 0), (0, 5), (5, 5), (1, 4), (0, 1)):
        t.new_substr(stored(0), start, end)
    for start, end in ((0, 2), (0, 1), (1, 2), (2, 2)):
        t.new_substr(stored(1), start, end)
        t.new_substr(small(128), start, end)
    t.new_substr(stored(2), 0, 0)
    t.new_substr(NIL, 0, 0, want=(0, NIL))
    for start in range(5):
        for end in range(start, 5):
            n = t.new_substr(small(67108863), start, end)
            t.atom(n, 4)
    for v in (1 << 25, 0x0100FF, 0x7F7F7F, 0x008001, 0x018080):
        for start, end in ((0, 1), (1, 2), (1, 3), (0, 3), (2, 3)):
            t.new_substr(small(v), start, end)
    t.well_formed(want=(0, None, "yes"))


def substrs_refused(t):
    """new_substr with 15 and 1."""
    t.say("15: no slot for Bytes, no slot or no byte for a part that is stored, no need of either for a small one")
    for lent in (dict(starts=3, ends=3), dict(starts=3), dict(ends=3), dict(bytes=8), dict(bytes=9), dict(bytes=10), dict(bytes=11), dict()):
        for n, start, end in ((stored(0), 0, 5), (small(67108863), 1, 4), (small(67108863), 1, 3), (small(128), 1, 2), (small(67108863), 0, 1), (NIL, 0, 0)):
            laid(t, (8, 3, 1, 2, 0, 1, 9), **lent)
            t.new_substr(n, start, end)
    t.say("1 comes first, and the record must fit bytes and atom slots")
    for lent in (dict(bytes=7), dict(starts=2), dict(ends=2)):
        laid(t, (8, 3, 1, 2, 0, 1, 9), **lent)
        t.new_substr(TOP, 9, 9, want=(1, NIL))
    laid(t, (8, 3, 1, 2, 0, 1, 9), firsts=0, rests=0)
    t.new_substr(stored(0), 0, 1, want=(0, stored(3)))


def concat_order(t):
    """new_concat with 3 and 2; of no nodes."""
    t.say("new_concat: 3, then 2; a new_size near 2^64 gives 2")
    laid(t, (8, 5, 1, MOST - 5, 0, 1, 20))
    for size, nodes in ((LARGEST, []), (0, []), (12, [stored(0)]), (12, [TOP, TOP])):
        t.new_concat(size, nodes, want=(3, NIL))
    laid(t, (8, 5, 1, 2, 0, 1, 20))
    for size in (LARGEST, LARGEST - 8, LARGEST - 9, TOP, 12):
        for nodes in ([], [stored(0)], [TOP, TOP]):
            t.new_concat(size, nodes, want=(2, NIL))
    t.new_concat(11, [TOP, TOP], want=(5, NIL))
    laid(t, (8, 5, 1, MOST - 5, 0, 40, 20))
    t.new_concat(0, [], want=(3, NIL))
    t.say("no nodes: size not 0 gives 10 with nil, else nil and ghost atoms + 1")
    laid(t)
    t.new_concat(0, [], want=(0, NIL))
    t.new_concat(1, [], want=(10, NIL))
    t.new_concat(51, [], want=(10, NIL))
    t.new_concat(52, [], want=(2, NIL))


def concats(t):
    """Of one node, and of several."""
    t.say("one node: 5, 1, 6; length not size gives 10 with nil; else that node, ghost atoms + 1, ghost heap + size")
    for size, n in ((5, stored(5)), (0, 3 << 26), (5, stored(3)), (9, stored(4)), (0, pair(0)), (0, pair(1)), (4, stored(0)), (6, stored(0)), (5, stored(0)),
                    (0, stored(2)), (1, stored(2)), (0, NIL), (1, NIL), (2, small(128)), (1, small(128)), (4, small(67108863)), (5, small(67108863))):
        t.new_concat(size, [n])
    t.say("several: the scan stops at the first faulty term; a Bytes term past the size gives 10 with that node, a small term is added untested")
    bad, far = TOP, stored(5)
    for size, nodes in ((5, [bad, pair(0)]), (5, [pair(0), bad]), (5, [stored(3), bad]), (5, [bad, stored(3)]), (5, [stored(0), bad]), (4, [stored(0), bad]),
                        (4, [stored(0), pair(0)]), (5, [stored(0), stored(1)]), (5, [stored(0), stored(2)]), (7, [stored(0), stored(1)]), (8, [stored(0), stored(1)]),
                        (6, [stored(0), stored(1)]), (0, [small(1), bad]), (0, [small(1), pair(0)]), (0, [small(1), small(1)]), (0, [small(1), stored(2)]),
                        (0, [stored(2), small(1)]), (0, [small(1), stored(3)]), (1, [small(128), NIL, far]), (2, [small(128), small(1), stored(2)]),
                        (3, [small(128), small(1), stored(2)]), (4, [small(128), small(1), stored(2)]), (3, [small(67108863), stored(0)]), (8, [small(67108863), small(67108863)]),
                        (7, [small(67108863), small(67108863)]), (9, [small(67108863), small(67108863)]), (5, [NIL, stored(0)]), (5, [stored(0), NIL])):
        laid(t)
        t.new_concat(size, nodes)
    laid(t)
    t.new_concat(0, [small(1), stored(2)], want=(10, stored(2)))


def concat_results(t):
    """What new_concat makes."""
    t.say("the result is always Bytes: nil and nil give an empty one, nil and 1 one of [01]")
    laid(t)
    t.atom(t.new_concat(0, [NIL, NIL], want=(0, stored(5))), 4, part=b"")
    t.atom(t.new_concat(1, [NIL, small(1)], want=(0, stored(6))), 4, part=b"\1")
    t.atom(t.new_concat(16, [stored(0), small(67108863), stored(1), stored(0)], want=(0, stored(7))), 4)
    t.atom(t.new_concat(18, [stored(7), small(128), stored(2), NIL], want=(0, stored(8))), 4)
    t.atom(t.new_concat(8, [small(1)] * 8, want=(0, stored(9))), 4)
    t.new_concat(16, [stored(7), stored(2)], want=(2, NIL))
    t.say("heap + size = limit is accepted, one more gives 2")
    laid(t, (8, 5, 1, 2, 0, 1, 16))
    t.new_concat(8, [stored(0), stored(1), small(1)], want=(2, NIL))
    t.new_concat(7, [stored(0), stored(1)], want=(0, stored(5)))
    t.new_concat(0, [NIL, NIL], want=(0, stored(6)))
    t.new_concat(1, [small(1), NIL], want=(2, NIL))


def concats_refused(t):
    """new_concat with 15 and 1."""
    t.say("15 after all other tests: full slices, and none needed for no node or one")
    for lent in (dict(bytes=14), dict(bytes=15), dict(starts=5), dict(ends=5), dict(starts=5, ends=5, bytes=8)):
        for size, nodes in ((7, [stored(0), stored(1)]), (6, [stored(0), stored(1)]), (7, [stored(0), TOP]), (0, [NIL, NIL]), (0, []), (5, [stored(0)])):
            laid(t, **lent)
            t.new_concat(size, nodes)
    t.say("1 comes first, and the record must fit bytes and atom slots")
    for lent in (dict(bytes=7), dict(starts=4), dict(ends=4)):
        laid(t, **lent)
        t.new_concat(LARGEST, [TOP, TOP], want=(1, NIL))
    laid(t, (8, 5, 1, 2, 0, LARGEST, 60))
    t.new_concat(0, [], want=(1, NIL))


# ---- restores


def run(t, first, second):
    t.new_limited(TOP)
    k = t.taken()
    t.checkpoint()
    t.transparent_checkpoint()
    t.new_atom(bytes((i * 7 + 130) % 256 for i in range(first)), want=(0, stored(0)))
    t.new_atom(bytes((i * 5 + 200) % 256 for i in range(second)), want=(0, stored(1)))
    t.atom_count()
    t.heap_size()
    return k


def the_run(t):
    """Document 01's run."""
    t.say("Run: checkpoint, atoms of 959 and 48 bytes: savings 1023, Aborted for the second")
    k = run(t, 959, 48)
    t.maybe_restore_with_node(k, stored(1), want=(0, None, "aborted"))
    t.say("no look at the node below 1024")
    t.maybe_restore_with_node(k, TOP, want=(0, None, "aborted"))
    t.maybe_restore_with_node(k, NIL, want=(0, None, "aborted"))
    t.say("with 960: 1024, Replace 67108864, used bytes 48, ghost atoms 3, ghost heap 961, totals 4 and 1009 as before")
    k = run(t, 960, 48)
    t.checkpoint_node_status(k, stored(1))
    t.maybe_restore_with_node(k, stored(1), want=(0, 67108864, "replace"))
    t.is_record(48, 1, 0, 3, 0, 961, TOP)
    t.atom_count(want=(0, None, 4))
    t.heap_size(want=(0, None, 1009))
    t.atom(stored(0), 4)
    t.well_formed(want=(0, None, "yes"))
    t.say("with 960 and 49: Aborted")
    k = run(t, 960, 49)
    t.maybe_restore_with_node(k, stored(1), want=(0, None, "aborted"))
    t.say("the same on the first, of 960 bytes: Aborted; on an invalid node: 5; on a small one: NoReplace")
    k = run(t, 960, 48)
    t.maybe_restore_with_node(k, stored(0), want=(0, None, "aborted"))
    t.maybe_restore_with_node(k, stored(2), want=(5, NIL))
    t.maybe_restore_with_node(k, pair(0), want=(5, NIL))
    t.maybe_restore_with_node(k, 3 << 26, want=(5, NIL))
    t.maybe_restore_with_node(k, small(7), want=(0, None, "no_replace"))
    t.is_record(0, 0, 0, 4, 0, 1009, TOP)


def dead_checkpoint(t):
    """Document 01's dead checkpoint."""
    t.say("a dead checkpoint that is usable: A, atom of 100, B, back to A, atoms of 50 and 2,000, to B with the second: 12")
    t.new_limited(TOP)
    a = t.taken()
    t.new_atom(b"\x91" * 100)
    b = t.taken()
    t.checkpoint()
    t.restore_checkpoint(a, want=(0, None))
    t.new_atom(b"\x92" * 50)
    t.new_atom(b"\x93" * 2000)
    t.checkpoint_node_status(b, stored(1))
    t.maybe_restore_with_node(b, stored(1), want=(12, NIL))
    t.restore_transparent_checkpoint(b, want=(0, None))


def kind_changed(t):
    """Document 01's node that comes back small."""
    t.say("Bytes [00 80] comes back small, and its substr(1,2) then costs a heap byte that it didn't before")
    t.new_limited(TOP)
    k = t.taken()
    t.new_atom(b"\xa0" * 1100)
    t.new_concat(2, [NIL, small(128)], want=(0, stored(1)))
    t.atom(stored(1), 4)
    heap = t.taken().heap
    t.new_substr(stored(1), 1, 2, want=(0, stored(2)))
    assert t.taken().heap == heap
    t.maybe_restore_with_node(k, stored(1), want=(0, small(128), "replace"))
    heap = t.taken().heap
    t.new_substr(small(128), 1, 2, want=(0, stored(0)))
    assert t.taken().heap == heap + 1


PATTERN = bytes((i * 3 + i // 85 + 140) % 256 for i in range(1300))


def old_and_new_bytes(t):
    """How the state of the cases below comes about."""
    t.say("100 old bytes, then 1,200 new ones")
    t.new_limited(4000)
    t.new_atom(PATTERN[:100])
    t.new_pair(stored(0), NIL)
    t.checkpoint(want=(0, None, 100, 1, 1, 2, 0, 1))
    t.new_atom(PATTERN[100:])
    t.new_pair(pair(0), stored(1))


def later(t, second, limit=4000):
    """That state again, with a third atom over any range; and its checkpoint."""
    t.lend()
    t.put_bytes(0, PATTERN)
    for i, (start, end) in enumerate(((0, 100), (100, 1300), second)):
        t.put_atom(i, start, end)
    t.put_pair(0, stored(0), NIL)
    t.put_pair(1, pair(0), stored(1))
    t.set(1300, 3, 2, 2, 0, 1, limit)
    return Record(100, 1, 1, 2, 0, 1, limit)


def results_kept(t):
    """Results that outlive a restore: by a slot over old bytes, or by a copy."""
    t.say("AfterOldBytes: the same range in a new slot; an end at the checkpoint's bytes is in, one past it gives 12")
    for second in ((0, 100), (99, 100), (99, 101), (99, 99), (50, 60), (0, 0), (0, 1300), (99, 1300)):
        k = later(t, second)
        t.checkpoint_node_status(k, stored(2))
        t.maybe_restore_with_node(k, stored(2))
        t.well_formed(want=(0, None, "yes"))
    t.say("AfterNewBytes: a start at the checkpoint's bytes; 48 bytes are cloned, 49 are not; an empty one comes back as nil")
    for second in ((100, 100), (100, 148), (100, 149), (101, 101), (1252, 1300), (1251, 1300), (1300, 1300), (700, 701)):
        k = later(t, second)
        t.checkpoint_node_status(k, stored(2))
        t.maybe_restore_with_node(k, stored(2))
        t.well_formed(want=(0, None, "yes"))
    k = later(t, (100, 100))
    t.maybe_restore_with_node(k, stored(2), want=(0, NIL, "replace"))


def unsound_results(t):
    """Results whose slot is not sound, and pairs."""
    t.say("a slot that must be read and is unsound: 1, and nothing is changed")
    for second in ((9, 8), (0, 1301), (1301, 1301), (TOP, TOP)):
        k = later(t, second)
        t.checkpoint_node_status(k, stored(2), want=(1, NIL))
        t.maybe_restore_with_node(k, stored(2), want=(1, NIL))
        t.maybe_restore_with_node(k, stored(1), want=(0, None, "aborted"))
        t.maybe_restore_with_node(k, stored(0), want=(0, None, "no_replace"))
    t.say("a later pair is Aborted, also where its slot is unsound; an older one is NoReplace")
    k = later(t, (0, 0))
    t.maybe_restore_with_node(k, pair(1), want=(0, None, "aborted"))
    t.put_pair(1, TOP, pair(1))
    t.maybe_restore_with_node(k, pair(1), want=(0, None, "aborted"))
    t.maybe_restore_with_node(k, pair(2), want=(5, NIL))
    t.maybe_restore_with_node(k, pair(0), want=(0, None, "no_replace"))
    t.node(pair(0))


def heap_past_limit(t):
    """A heap that is past its limit; what a restore saves."""
    t.say("2 if heap > limit, after the pair and the 48 bytes, not for a shared range nor for NoReplace")
    for limit in (1301, 1300):
        for n, second in ((2, (200, 248)), (2, (200, 249)), (2, (200, 200)), (2, (0, 100)), (2, (99, 101)), (0, (0, 0)), (1, (0, 0))):
            k = later(t, second, limit)
            t.maybe_restore_with_node(k, stored(n))
        k = later(t, (0, 0), limit)
        t.maybe_restore_with_node(k, pair(1))
        t.maybe_restore_with_node(k, NIL)

    t.say("savings count 8 for each atom and each pair cut")
    for more in (0, 1):
        t.lend()
        t.new_limited(4000)
        k = t.taken()
        t.new_atom(b"\xb1" * (1024 - 8 * 5 - 1 + more))
        t.new_substr(stored(0), 3, 9)
        for i in range(3):
            t.new_pair(NIL, stored(1))
        t.maybe_restore_with_node(k, stored(1))


def three(t, k, n=NIL, want=None):
    """All three restores from the same state."""
    kept = t.taken()
    for call, args in (("restore_transparent_checkpoint", (k,)), ("restore_checkpoint", (k,)), ("maybe_restore_with_node", (k, n))):
        t.set(*kept.numbers())
        t.ask(call, *args, want=want)
    t.set(*kept.numbers())


def usable(t):
    """Checkpoints that are not usable: 11."""
    t.say("usable: none of the three used counts above the present one; otherwise 11 from all three restores, after 1 and before the savings")
    k = later(t, (0, 100))
    for change in (dict(), dict(bytes=1300, atoms=3, pairs=2), dict(bytes=1301), dict(atoms=4), dict(pairs=3), dict(bytes=LARGEST), dict(atoms=LARGEST), dict(pairs=LARGEST),
                   dict(bytes=99), dict(bytes=0, atoms=0, pairs=0), dict(atoms=0), dict(atoms=0, pairs=0), dict(bytes=0), dict(atoms=2), dict(bytes=1300, atoms=2), dict(pairs=2),
                   dict(bytes=1299, atoms=2, pairs=2), dict(bytes=1300, atoms=2, pairs=2), dict(pairs=0)):
        three(t, k.but(**change))
    t.say("each kept atom slot has start <= end <= the checkpoint's bytes; each kept pair slot children valid in the cut state")
    for start, end in ((0, 100), (0, 101), (100, 100), (101, 101), (5, 4), (0, 0)):
        k = later(t, (0, 0))
        t.put_atom(0, start, end)
        three(t, k)
    for first, rest in ((stored(0), NIL), (stored(1), NIL), (NIL, stored(1)), (pair(0), NIL), (NIL, pair(0)), (TOP, NIL), (NIL, 3 << 26), (small(9), small(9))):
        k = later(t, (0, 0))
        t.put_pair(0, first, rest)
        three(t, k, stored(0))
    k = later(t, (0, 0))
    t.put_atom(0, 5, 4)
    three(t, k, TOP, want=(11, NIL))
    k = later(t, (0, 0))
    t.put_pair(0, TOP, TOP)
    three(t, k, TOP, want=(11, NIL))


def plain(t):
    """The ghosts of a plain checkpoint."""
    t.say("plain restore: sets the ghosts, above the present ones too; a record that is not sound gives 11")
    k = later(t, (0, 100))
    for ghosts in ((2, 0, 1), (2, 5, 1), (9, 0, 1), (2, 0, 0), (0, 0, 0), (MOST - 1, 0, 1), (MOST, 0, 1), (2, MOST - 1, 1), (2, MOST, 1),
                   (LARGEST, 0, 1), (2, LARGEST, 1), (2, 0, LARGEST), (2, 0, 3909), (2, 0, 3910), (0, 0, 3903), (0, 0, 3904)):
        plain = k.but(ghost_atoms=ghosts[0], ghost_pairs=ghosts[1], ghost_heap=ghosts[2])
        kept = t.taken()
        t.restore_checkpoint(plain)
        t.set(*kept.numbers())
    t.say("ghost pairs that were removed since the checkpoint come back with it")
    t.new_limited(50)
    t.add_ghost_pair(5)
    k = t.taken()
    t.remove_ghost_pair(4)
    t.restore_checkpoint(k, want=(0, None))
    t.is_record(0, 0, 0, 2, 5, 1, 50)


def transparent(t):
    """What a transparent restore counts."""
    t.say("transparent restore: what was cut is added to the ghosts, the totals stay, no slot is cleared")
    k = later(t, (0, 100))
    t.restore_transparent_checkpoint(k, want=(0, None))
    t.is_record(100, 1, 1, 4, 1, 1201, 4000)
    t.new_atom(b"\xc1\xc2", want=(0, stored(1)))
    t.restore_checkpoint(k, want=(0, None))
    t.is_record(100, 1, 1, 2, 0, 1, 4000)


def first_of_all(t):
    """1 before all else; lists lent exactly."""
    t.say("1 comes first: an unsound record, or used counts past a slice that is lent")
    k = later(t, (0, 100))
    for lent in (dict(bytes=1299), dict(starts=2), dict(ends=2), dict(firsts=1), dict(rests=1), dict(bytes=1300, starts=3, ends=3, firsts=2, rests=2)):
        t.lend(**lent)
        three(t, k.but(bytes=LARGEST), TOP)
        three(t, k, stored(2))
    t.lend()
    t.set(ghost_atoms=MOST)
    three(t, k.but(atoms=9), TOP, want=(1, NIL))
    t.say("slices lent exactly: the kept node has room, since what it stood in was cut")
    for second in ((0, 100), (100, 148), (1252, 1300)):
        k = later(t, second)
        t.lend(bytes=1300, starts=3, ends=3, firsts=2, rests=2)
        t.maybe_restore_with_node(k, stored(2))


GROUPS = {
    "reads": (node_bits, lengths, fitting, every_read, equal_atoms, scratches, statuses, unsound_atom_slots, unsound_pair_slots, unused_slots,
              unsound_records, short_lists),
    "creates": (fresh, new_atoms, new_atoms_refused, new_small_numbers, integers, integers_refused, new_pairs, new_pairs_refused, ghosts,
                limit_3, substr_order, substrs, substrs_refused, concat_order, concats, concat_results, concats_refused),
    "restores": (the_run, dead_checkpoint, kind_changed, old_and_new_bytes, results_kept, unsound_results, heap_past_limit, usable, plain,
                 transparent, first_of_all),
}


def lines():
    """All lines of data/document.txt but its head."""
    t = Table()
    for group, parts in GROUPS.items():
        t.begin(group)
        for part in parts:
            part(t)
    return t.lines
