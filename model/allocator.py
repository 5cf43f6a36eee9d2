"""The rules of document 01: the record, the lists beside it, and every call, on any record and any slots, unsound ones too.

Each rule follows the document's text, with Python's own numbers; who wrote them had read the library's sources too. A call answers with a node (None where it makes none) and a list of
values, in the document's words; or it raises a Refusal, and nothing is changed before all its tests are passed. The document says which tests
a call makes, but not which lists it is lent, and a record is sound beside those: that much, the names after `need_sound`, follows the C header.
"""

NIL = 134217728                     # "nil is 134217728"
MOST = 62_500_000                   # "atoms and pairs at most 62,500,000 each"
TOP = 4_294_967_295                 # "used bytes and limit at most 4,294,967,295"
LARGEST_SMALL = 67_108_863          # "13: small number above 67,108,863"
SLOT_SAVING, LEAST_SAVING = 8, 1024  # "8 x (atoms cut + pairs cut); below 1024 is Aborted"
LONGEST_CLONE = 48                  # "a pair, or over 48 bytes, is Aborted"
SCRATCH = 4                         # "a four-byte scratch the caller lends too"
LISTS = dict(bytes=["bytes"], atoms=["starts", "ends"], pairs=["firsts", "rests"])
NAMES = [name for names in LISTS.values() for name in names]
PAIR, BYTES, SMALL = 0, 1, 2        # "kind in the top 6 bits (0 pair, 1 Bytes, 2 SmallAtom)"
LOW_BITS = 26                       # "low 26 bits an index or the value"


def parts_of(n):
    """A node's kind and its low bits."""
    return n >> LOW_BITS, n % (1 << LOW_BITS)


def pair(i):
    return (PAIR << LOW_BITS) + i


def stored(i):
    return (BYTES << LOW_BITS) + i


def small(v):
    return (SMALL << LOW_BITS) + v


class Refusal(Exception):
    """A code and its node: nil, where the table of codes names no other."""

    def __init__(self, code, node=NIL):
        super().__init__(code, node)
        self.code, self.node = code, node


def integer(x):
    """The bytes of an integer: "shortest big-endian two's complement, zero empty"."""
    if x == 0:
        return b""
    n = 1
    while not -(1 << (8 * n - 1)) <= x < 1 << (8 * n - 1):
        n += 1
    return x.to_bytes(n, "big", signed=True)


def fits(v):
    """fits_in_small_atom: the value, or None where there is none."""
    if len(v) == 0:                         # "empty gives 0"
        return 0
    if len(v) > 4:                          # "none if over 4 bytes"
        return None
    if v == b"\0":                          # "or [00]"
        return None
    if v[0] >= 0x80:                        # "or first byte >= 80"
        return None
    if v[0] == 0 and v[1] < 0x80:           # "or first 00 with second < 80"
        return None
    if len(v) == 4 and v[0] > 3:            # "or 4 bytes with first > 03"
        return None
    return int.from_bytes(v, "big")


class Record:
    """The seven numbers, in document 01's order. A checkpoint is a record too, of which three or six numbers count."""

    NAMES = ("bytes", "atoms", "pairs", "ghost_atoms", "ghost_pairs", "ghost_heap", "limit")

    def __init__(self, *seven):
        self.__dict__.update(zip(self.NAMES, seven, strict=True))

    def __eq__(self, other):
        return self.numbers() == other.numbers()

    def but(self, **changes):
        return Record(*[changes.get(name, getattr(self, name)) for name in self.NAMES])

    def numbers(self):
        return [getattr(self, name) for name in self.NAMES]

    # "Totals: atoms = used + ghost, likewise pairs and heap."

    @property
    def all_atoms(self):
        return self.atoms + self.ghost_atoms

    @property
    def all_pairs(self):
        return self.pairs + self.ghost_pairs

    @property
    def heap(self):
        return self.bytes + self.ghost_heap


def new_record(limit):
    """ "new_limited gives ghosts 2, 0, 1, used 0" """
    return Record(0, 0, 0, 2, 0, 1, limit)


class State:
    """A record, the lists, and how much of each is lent; and when they are sound."""

    def __init__(self, sizes, byte=0, slot=0):
        """Lists of these sizes, all lent, that hold one byte and one number throughout; the record for limit 0."""
        self.record = new_record(0)
        self.lists = {name: [slot] * sizes[name] for name in NAMES[1:]}
        self.lists["bytes"] = bytearray([byte]) * sizes["bytes"]
        self.lent = {name: sizes[name] for name in NAMES}

    def is_sound(self, r, *lent):
        """A sound record, beside the lists lent to the call: "used counts fit the slices lent to the call (both of a pair)"."""
        used = dict(bytes=r.bytes, atoms=r.atoms, pairs=r.pairs)
        if any(used[kind] > self.lent[name] for kind in lent for name in LISTS[kind]):
            return False
        return (r.bytes <= TOP and r.limit <= TOP and r.all_atoms <= MOST and r.all_pairs <= MOST
                and r.heap <= r.limit + 3 * r.all_atoms)

    def need_sound(self, *lent):
        """ "Code 1 for the record comes first everywhere." """
        if not self.is_sound(self.record, *lent):
            raise Refusal(1)

    @staticmethod
    def is_valid(n, atoms, pairs):
        """ "valid if the kind is at most 2 and a pair or Bytes index is below the used count" """
        kind, low = parts_of(n)
        return kind <= SMALL and not (kind == PAIR and low >= pairs) and not (kind == BYTES and low >= atoms)

    def is_atom_slot(self, i, used_bytes):
        """ "Sound atom slot: start <= end <= used bytes." """
        return self.lists["starts"][i] <= self.lists["ends"][i] <= used_bytes

    def is_pair_slot(self, i, atoms):
        """ "Sound pair slot: both nodes valid, a pair child's index below the slot's own." """
        return self.is_valid(self.lists["firsts"][i], atoms, i) and self.is_valid(self.lists["rests"][i], atoms, i)

    def has_sound_slots(self, used_bytes, atoms, pairs):
        return (all(self.is_atom_slot(i, used_bytes) for i in range(atoms))
                and all(self.is_pair_slot(i, atoms) for i in range(pairs)))

    # "A node argument is tested for 5, then, where 1 is listed, its atom slot for 1, when its turn comes."

    def valid(self, n):
        """Kind and low bits of a valid node."""
        if not self.is_valid(n, self.record.atoms, self.record.pairs):
            raise Refusal(5)
        return parts_of(n)

    def argument(self, n):
        """5, 1."""
        kind, low = self.valid(n)
        if kind == BYTES and not self.is_atom_slot(low, self.record.bytes):
            raise Refusal(1)
        return kind, low

    def atom_argument(self, n):
        """5, 1, 6."""
        kind, low = self.argument(n)
        if kind == PAIR:
            raise Refusal(6, n)
        return kind, low

    def children(self, i):
        """The two nodes of a pair slot that is read: 1 where it is unsound."""
        if not self.is_pair_slot(i, self.record.atoms):
            raise Refusal(1)
        return [self.lists["firsts"][i], self.lists["rests"][i]]

    def range_of(self, i):
        return self.lists["starts"][i], self.lists["ends"][i]

    def bytes_of(self, n):
        """The bytes of an atom whose slot is sound."""
        kind, low = parts_of(n)
        if kind == SMALL:
            return integer(low)
        start, end = self.range_of(low)
        return bytes(self.lists["bytes"][start:end])


class Reads(State):
    """The calls that change nothing."""

    # -- a node by itself, and numbers

    @staticmethod
    def object_type(n):
        """ "NodePtr (5 for a kind above 2)" """
        if n >> LOW_BITS > SMALL:
            raise Refusal(5)
        return None, [("pair", "bytes", "small")[n >> LOW_BITS]]

    def index(self, n):
        self.object_type(n)
        return None, [parts_of(n)[1]]

    def is_atom(self, n):
        return None, [yes(self.object_type(n)[1] != ["pair"])]

    def is_pair(self, n):
        return None, [yes(self.object_type(n)[1] == ["pair"])]

    @staticmethod
    def len_for_value(v):
        return None, [len(integer(v))]

    @staticmethod
    def fits_in_small_atom(v):
        return None, optional(fits(v))

    # -- "the six counts", and both checkpoints

    def count(self, what):
        self.need_sound()
        return None, [what(self.record)]

    def atom_count(self):
        return self.count(lambda r: r.all_atoms)

    def allocated_atom_count(self):
        return self.count(lambda r: r.atoms)

    def pair_count(self):
        return self.count(lambda r: r.all_pairs)

    def allocated_pair_count(self):
        return self.count(lambda r: r.pairs)

    def heap_size(self):
        return self.count(lambda r: r.heap)

    def allocated_heap_size(self):
        return self.count(lambda r: r.bytes)

    def checkpoint(self):
        """ "A transparent one is used bytes, pairs, atoms; a plain one adds three ghosts." """
        self.need_sound()
        return None, self.record.numbers()[:6]

    def transparent_checkpoint(self):
        self.need_sound()
        return None, self.record.numbers()[:3]

    # -- slots

    def well_formed(self):
        """ "A state is well-formed if record and all used slots are sound; a public check says yes exactly then" """
        r = self.record
        return None, [yes(self.is_sound(r, "bytes", "atoms", "pairs") and self.has_sound_slots(r.bytes, r.atoms, r.pairs))]

    def node(self, n):
        """ "node, sexp, next: 5, then 1 for the slot read" """
        self.need_sound("atoms", "pairs")
        kind, low = self.argument(n)
        if kind == PAIR:
            return None, ["pair", *self.children(low)]
        return None, ["buffer", *self.range_of(low)] if kind == BYTES else ["u32", low]

    def sexp(self, n):
        """ "sexp and next read pair slots only" """
        self.need_sound("pairs")
        kind, low = self.valid(n)
        return None, ["pair", *self.children(low)] if kind == PAIR else ["atom"]

    def next(self, n):
        self.need_sound("pairs")
        kind, low = self.valid(n)
        return None, ["pair", *self.children(low)] if kind == PAIR else ["none"]

    def atom_len(self, n):
        """ "atom, atom_len: 5, 1, 6" """
        self.need_sound("atoms")
        kind, low = self.atom_argument(n)
        start, end = (0, len(integer(low))) if kind == SMALL else self.range_of(low)
        return None, [end - start]

    def small_number(self, n):
        """ "small_number: 5, 1; a pair has none" """
        self.need_sound("bytes", "atoms")
        kind, _ = self.argument(n)
        return None, optional(None if kind == PAIR else fits(self.bytes_of(n)))

    def atom_eq(self, left, right):
        """ "left 5, 1, right 5, 1, then 6 with the left if it is a pair, else the right" """
        self.need_sound("bytes", "atoms")
        kinds = self.argument(left)[0], self.argument(right)[0]
        for kind, n in zip(kinds, (left, right)):
            if kind == PAIR:
                raise Refusal(6, n)
        return None, [yes(self.bytes_of(left) == self.bytes_of(right))]

    def atom(self, n, scratch):
        """Where the bytes are, from which place on, how many. "for a small atom, of a four-byte scratch the caller lends too: it then holds
        the value big-endian, and the part is its last bytes. A small atom with a scratch of another length gives 15." """
        self.need_sound("bytes", "atoms")
        kind, low = self.atom_argument(n)
        if kind == BYTES:
            start, end = self.range_of(low)
            return None, ["bytes", start, end - start]
        if len(scratch) != SCRATCH:
            raise Refusal(15)
        scratch[:] = low.to_bytes(SCRATCH, "big")
        length = len(integer(low))
        return None, ["scratch", SCRATCH - length, length]

    # -- checkpoints

    def status(self, k, n):
        kind, low = self.valid(n)
        if kind == SMALL:                                       # "Small: Before."
            return ["before"]
        if low < (k.pairs if kind == PAIR else k.atoms):        # "Pair or Bytes below the checkpoint's count: Before."
            return ["before"]
        if kind == PAIR:                                        # "A later pair: AfterNewBytes."
            return ["after_new_bytes"]
        self.argument(n)                                        # "Later Bytes: slot test 1,"
        start, end = self.range_of(low)                         # "then AfterOldBytes if start is below the checkpoint's bytes,"
        return ["after_old_bytes", start, end] if start < k.bytes else ["after_new_bytes"]

    def checkpoint_node_status(self, k, n):
        self.need_sound("atoms")
        return None, self.status(k, n)


def yes(is_so):
    return "yes" if is_so else "no"


def optional(value):
    return ["none"] if value is None else ["some", value]


class Creates(Reads):
    """The calls that make nodes or count ghosts."""

    def new_limited(self, limit):
        """ "a limit above 4,294,967,295 is refused with 1 and the record for limit 0" """
        self.record = new_record(limit if limit <= TOP else 0)
        if limit > TOP:
            raise Refusal(1)
        return None, []

    # -- tests and steps that the rules share

    def need_heap(self, length):
        """ "2 if heap + length > limit" """
        if self.record.heap + length > self.record.limit:
            raise Refusal(2)

    def need_atom(self):
        """ "3 if atoms = 62,500,000" """
        if self.record.all_atoms == MOST:
            raise Refusal(3)

    def count_ghost(self, heap):
        """ "ghost atoms +1", and so many heap bytes."""
        self.record = self.record.but(ghost_atoms=self.record.ghost_atoms + 1, ghost_heap=self.record.ghost_heap + heap)

    def need_room(self, more_bytes):
        """ "15: every other test passed, but the lent slices (or 4,294,967,295 bytes) cannot hold the result" """
        if self.record.bytes + more_bytes > min(self.lent["bytes"], TOP) or self.record.atoms >= min(self.lent["starts"], self.lent["ends"]):
            raise Refusal(15)

    def add_slot(self, start, end, more_bytes):
        r = self.record
        self.lists["starts"][r.atoms], self.lists["ends"][r.atoms] = start, end
        self.record = r.but(bytes=r.bytes + more_bytes, atoms=r.atoms + 1)
        return stored(r.atoms)

    def store(self, v):
        """ "Otherwise bytes and one slot." """
        self.need_room(len(v))
        start = self.record.bytes
        self.lists["bytes"][start:start + len(v)] = v
        return self.add_slot(start, start + len(v), len(v))

    def share(self, start, end):
        """A slot over bytes that are there."""
        self.need_room(0)
        return self.add_slot(start, end, 0)

    # -- atoms

    def small_or_stored(self, v, heap):
        """ "A fitting value becomes small: ghost atoms +1, ghost heap + length." substr adds no heap."""
        value = fits(v)
        if value is None:
            return self.store(v)
        self.count_ghost(heap)
        return small(value)

    def new_atom(self, v):
        """ "2 if heap + length > limit; then 3 if atoms = 62,500,000" """
        self.need_sound("bytes", "atoms")
        self.need_heap(len(v))
        self.need_atom()
        return self.small_or_stored(bytes(v), len(v)), []

    def new_small_number(self, v):
        """ "13, 2, 3; ghosts as above" """
        self.need_sound()
        if v > LARGEST_SMALL:
            raise Refusal(13)
        self.need_heap(len(integer(v)))
        self.need_atom()
        self.count_ghost(len(integer(v)))
        return small(v), []

    def new_u64(self, x):
        """ "through new_atom" """
        return self.new_atom(integer(x))

    def new_i64(self, x):
        return self.new_atom(integer(x))

    # -- pairs and ghosts

    def new_pair(self, first, rest):
        """ "5 for first, then rest; 4 if pairs = 62,500,000; 15" """
        self.need_sound("pairs")
        self.valid(first)
        self.valid(rest)
        r = self.record
        if r.all_pairs == MOST:
            raise Refusal(4)
        if r.pairs >= min(self.lent["firsts"], self.lent["rests"]):
            raise Refusal(15)
        self.lists["firsts"][r.pairs], self.lists["rests"][r.pairs] = first, rest
        self.record = r.but(pairs=r.pairs + 1)
        return pair(r.pairs), []

    # "Ghost calls: 4 or 3 if the room up to 62,500,000 is under the amount; removal 14."

    def add_ghost_pair(self, amount):
        self.need_sound()
        if MOST - self.record.all_pairs < amount:
            raise Refusal(4)
        self.record = self.record.but(ghost_pairs=self.record.ghost_pairs + amount)
        return None, []

    def remove_ghost_pair(self, amount):
        self.need_sound()
        if amount > self.record.ghost_pairs:
            raise Refusal(14)
        self.record = self.record.but(ghost_pairs=self.record.ghost_pairs - amount)
        return None, []

    def add_ghost_atom(self, amount):
        self.need_sound()
        if MOST - self.record.all_atoms < amount:
            raise Refusal(3)
        self.record = self.record.but(ghost_atoms=self.record.ghost_atoms + amount)
        return None, []

    # -- parts of atoms, and atoms put together

    def new_substr(self, n, start, end):
        """ "3, 5, 1, 6, then 7, 8, 9" """
        self.need_sound("bytes", "atoms")
        self.need_atom()
        kind, low = self.atom_argument(n)
        v = self.bytes_of(n)
        if start > len(v):
            raise Refusal(7, n)
        if end > len(v):
            raise Refusal(8, n)
        if end < start:
            raise Refusal(9, n)
        if kind == BYTES:                   # "Of Bytes: a new slot over the same bytes, never small."
            base = self.range_of(low)[0]
            return self.share(base + start, base + end), []
        return self.small_or_stored(v[start:end], 0), []        # "small if the part fits (ghost atoms +1, heap unchanged)"

    def new_concat(self, size, nodes):
        """ "3, 2", then by how many nodes there are."""
        self.need_sound("bytes", "atoms")
        self.need_atom()
        self.need_heap(size)
        if len(nodes) == 0:
            if size != 0:                   # "No nodes: size not 0 gives 10 with nil, else nil and ghost atoms +1."
                raise Refusal(10)
            self.count_ghost(0)
            return NIL, []
        if len(nodes) == 1:                 # "One node: 5, 1, 6; length != size gives 10 with nil;"
            self.atom_argument(nodes[0])
            if len(self.bytes_of(nodes[0])) != size:
                raise Refusal(10)
            self.count_ghost(size)          # "else that node, ghost atoms +1, ghost heap + size"
            return nodes[0], []
        return self.store(self.joined(size, nodes)), []         # "The result is always Bytes."

    def joined(self, size, nodes):
        """ "Two or more, left to right: 5, 1, 6 .. The scan stops at the first faulty term." """
        whole = b""
        for n in nodes:
            kind, _ = self.atom_argument(n)
            whole += self.bytes_of(n)
            if kind == BYTES and len(whole) > size:     # "a Bytes term after which the running length is past size gives 10 with that node"
                raise Refusal(10, n)
        if len(whole) != size:                          # "At the end a wrong length gives 10 with nil."
            raise Refusal(10)
        return whole


class Allocator(Creates):
    """All calls, with the restores."""

    def answer(self, call, *args):
        """Code, node and values of any call, by its name."""
        try:
            node, values = getattr(self, call)(*args)
        except Refusal as refusal:
            return refusal.code, refusal.node, []
        return 0, node, values

    def need_usable(self, k):
        """ "Usable: none of the three used counts above the present one; each kept atom slot has start <= end <= its bytes; each kept pair
        slot has children valid in the cut state, a pair child below its own index. Otherwise 11." """
        r = self.record
        if k.bytes > r.bytes or k.atoms > r.atoms or k.pairs > r.pairs or not self.has_sound_slots(k.bytes, k.atoms, k.pairs):
            raise Refusal(11)

    def cut(self, k):
        """ "Transparent restore cuts lengths, adding what was cut to the ghosts." "No slot is cleared." """
        r = self.record
        self.record = Record(k.bytes, k.atoms, k.pairs, r.ghost_atoms + r.atoms - k.atoms, r.ghost_pairs + r.pairs - k.pairs,
                             r.ghost_heap + r.bytes - k.bytes, r.limit)

    def restore_transparent_checkpoint(self, k):
        self.need_sound("atoms", "pairs")
        self.need_usable(k)
        self.cut(k)
        return None, []

    def restore_checkpoint(self, k):
        """ "Plain restore cuts, then sets the ghosts." "A plain one must also give a sound record." """
        self.need_sound("atoms", "pairs")
        self.need_usable(k)
        back = k.but(limit=self.record.limit)
        if not self.is_sound(back, "atoms", "pairs"):
            raise Refusal(11)
        self.record = back
        return None, []

    def savings(self, k):
        """ "savings = bytes cut + 8 x (atoms cut + pairs cut)" """
        r = self.record
        return r.bytes - k.bytes + SLOT_SAVING * (r.atoms - k.atoms + r.pairs - k.pairs)

    def maybe_restore_with_node(self, k, n):
        """ "11; savings ..; below 1024 is Aborted, with no look at the node. Then 5, 1, status." """
        self.need_sound("bytes", "atoms", "pairs")
        self.need_usable(k)
        if self.savings(k) < LEAST_SAVING:
            return None, ["aborted"]
        kind, _ = self.argument(n)
        status, *old_range = self.status(k, n)
        if status == "before":              # "Before: restore, NoReplace."
            self.cut(k)
            return None, ["no_replace"]
        if status == "after_old_bytes":
            return self.shared_result(k, *old_range), ["replace"]
        if kind == PAIR or len(self.bytes_of(n)) > LONGEST_CLONE:       # "AfterNewBytes: a pair, or over 48 bytes, is Aborted;"
            return None, ["aborted"]
        return self.cloned_result(k, self.bytes_of(n)), ["replace"]

    def shared_result(self, k, start, end):
        """ "12 if end exceeds the checkpoint's bytes; else restore, ghost atoms -1, same range in a new slot" """
        if end > k.bytes:
            raise Refusal(12)
        self.cut(k)
        self.record = self.record.but(ghost_atoms=self.record.ghost_atoms - 1)
        return self.share(start, end)

    def cloned_result(self, k, saved):
        """ "2 if heap > limit; else restore, ghost atoms -1, ghost heap - length, then the saved bytes go through new_atom" """
        self.need_heap(0)
        self.cut(k)
        self.record = self.record.but(ghost_atoms=self.record.ghost_atoms - 1, ghost_heap=self.record.ghost_heap - len(saved))
        return self.new_atom(saved)[0]
