"""Writes calls of the model with their answers, as the lines that the program `answers` reads: crates/answers/FORMAT.md says how they are written.

A Recorder has the model's state beside what the lines so far have laid. Before a call it writes what they differ in as `lent`, `record` and
`put` lines, and after it what the call wrote as `now` lines.
"""
import collections

from model.allocator import NIL, Record
from model.files import FileAllocator

BYTE, SLOT = 165, 2779096485        # what a list holds where nothing was laid
UNTOUCHED = 170                     # each byte of the scratch before a call of `atom`
SIZES = dict(bytes=1_048_640, starts=4_160, ends=4_160, firsts=4_160, rests=4_160, file=1_048_640)
SLOTS = dict(atoms=("starts", "ends"), pairs=("firsts", "rests"))
WORD = 2**32                        # the steps of slots are reckoned modulo this

# The calls, in the order of FORMAT.md's table, each with its arguments and with how many values its answer has. An argument is n a number,
# i a signed number, b bytes, k a transparent checkpoint, p a plain one, l nodes, s the length of a scratch.
CALLS = {
    "object_type": ("n", 1), "index": ("n", 1), "is_atom": ("n", 1), "is_pair": ("n", 1), "fits_in_small_atom": ("b", 2),
    "len_for_value": ("n", 1), "new_limited": ("n", 0), "atom_count": ("", 1), "allocated_atom_count": ("", 1),
    "pair_count": ("", 1), "allocated_pair_count": ("", 1), "heap_size": ("", 1), "allocated_heap_size": ("", 1),
    "checkpoint": ("", 6), "transparent_checkpoint": ("", 3), "new_small_number": ("n", 0), "add_ghost_pair": ("n", 0),
    "remove_ghost_pair": ("n", 0), "add_ghost_atom": ("n", 0), "restore_checkpoint": ("p", 0),
    "restore_transparent_checkpoint": ("k", 0), "save": ("n", 1), "checkpoint_node_status": ("kn", 3), "atom_eq": ("nn", 1),
    "atom": ("ns", 4), "atom_len": ("n", 1), "small_number": ("n", 2), "node": ("n", 3), "sexp": ("n", 3), "next": ("n", 3),
    "well_formed": ("", 1), "maybe_restore_with_node": ("kn", 1), "new_pair": ("nn", 0), "load": ("n", 1), "new_atom": ("b", 0),
    "new_u64": ("n", 0), "new_i64": ("i", 0), "new_substr": ("nnn", 0), "new_concat": ("nl", 0),
}

# The document's words for a first value, in the order of the C header's numbers.
NO_YES, NONE_SOME = ("no", "yes"), ("none", "some")
WORDS = {
    "object_type": ("pair", "bytes", "small"), "is_atom": NO_YES, "is_pair": NO_YES, "atom_eq": NO_YES, "well_formed": NO_YES,
    "fits_in_small_atom": NONE_SOME, "small_number": NONE_SOME, "node": ("pair", "buffer", "u32"), "sexp": ("atom", "pair"),
    "next": ("none", "pair"), "atom": ("bytes", "scratch"),
    "checkpoint_node_status": ("before", "after_new_bytes", "after_old_bytes"),
    "maybe_restore_with_node": ("no_replace", "replace", "aborted"),
}


def spaced(words):
    return " ".join(str(word) for word in words)


def header_order(numbers):
    """Numbers of a record or a checkpoint, from document 01's order to the C header's: the bytes come after atoms and pairs."""
    return [*numbers[1:3], numbers[0], *numbers[3:]]


# ---- bytes as patterns

LONGEST_PATTERN = 64                # a pattern that repeats is looked for up to this length
WORTH = 24                          # a line of its own must spare so many bytes
LONGEST_PIECE = 9_000               # what a line holds at most: two digits a byte, within 20,000 characters


def repeats(v, at, period):
    """How many bytes from a place on have a period."""
    if not v.startswith(v[at:at + period], at + period):
        return 0
    low, high = 2 * period, len(v) - at             # as long as `low` has the period, so has each shorter one
    while low < high:
        middle = (low + high + 1) // 2
        if v[at:at + middle - period] == v[at + period:at + middle]:
            low = middle
        else:
            high = middle - 1
    return low


def pattern(v):
    """The two words for bytes: how many, and the shortest pattern that gives them all."""
    if not v:
        return "0 -"
    shortest = next((p for p in range(1, min(LONGEST_PATTERN, len(v) - 1) + 1) if v.startswith(v[p:])), len(v))
    return "%d %s" % (len(v), v[:shortest].hex())


def pieces(v):
    """Cuts bytes where a repeated pattern is worth a line of its own: the start and the bytes of each piece."""
    at = begun = 0
    while at < len(v):
        spared, period = max((repeats(v, at, p) - p, p) for p in range(1, LONGEST_PATTERN + 1))
        if spared < WORTH:
            at += 1
            continue
        yield from plain_pieces(v, begun, at)
        yield at, v[at:at + spared + period]
        at = begun = at + spared + period
    yield from plain_pieces(v, begun, at)


def plain_pieces(v, begun, end):
    for at in range(begun, end, LONGEST_PIECE):
        yield at, v[at:min(end, at + LONGEST_PIECE)]


def changed(old, new, gap):
    """Where two lists differ, as ranges; those with at most `gap` equal entries between them are one."""
    ranges = []
    if old == new:
        return ranges
    for i, (one, other) in enumerate(zip(old, new, strict=True)):
        if one != other:
            if ranges and i - ranges[-1][1] <= gap:
                ranges[-1][1] = i + 1
            else:
                ranges.append([i, i + 1])
    return ranges


# ---- slots as steps


def stretch(slots):
    """How many slots from the first on have even steps, and these; one by itself, where it is fewer than three."""
    def step(i):
        return tuple((b - a) % WORD for a, b in zip(slots[i - 1], slots[i]))
    n = 2
    while n < len(slots) and step(n) == step(1):
        n += 1
    return (1, (0, 0)) if n < 3 or len(slots) < 3 else (n, step(1))


def steps(slots):
    """Cuts slots into stretches: start, how many, and for each of the two numbers the first and its step."""
    at = 0
    while at < len(slots):
        n, step = stretch(slots[at:])
        yield at, n, slots[at][0], step[0], slots[at][1], step[1]
        at += n


# ---- a model that is written down


class Recorder:
    """Lines of cases. `usual` says how much is lent where nothing else is said."""

    def __init__(self, **usual):
        self.lines, self.usual = [], dict(usual)
        self.clear()
        self.forget()

    def clear(self):
        """The model's state is that of a fresh allocator for limit 0, beside lists that hold their filler."""
        self.model = FileAllocator(SIZES, BYTE, SLOT)
        self.lend()

    def forget(self):
        """Nothing is laid: what a case begins with."""
        self.laid = {name: (bytearray([BYTE]) if name in ("bytes", "file") else [SLOT]) * n for name, n in SIZES.items()}
        self.laid_record, self.laid_lent = Record(0, 0, 0, 0, 0, 0, 0), dict.fromkeys(SIZES, 0)

    # -- lines that call nothing

    def case(self, name):
        """Begins a case, whose state is the one that the model is in."""
        self.lines.append("case " + name)
        self.forget()

    def say(self, sentence):
        self.lines.append("# " + sentence)

    def lend(self, **lengths):
        self.model.lent = dict(self.usual, **lengths)

    def lay(self):
        """Lines that bring what was laid to the model's state."""
        if self.model.lent != self.laid_lent:
            self.lines.append("lent " + spaced(self.model.lent[name] for name in SIZES))
            self.laid_lent = dict(self.model.lent)
        if self.model.record != self.laid_record:
            self.lines.append("record " + spaced(header_order(self.model.record.numbers())))
            self.laid_record = self.model.record
        self.tell("put")

    def tell(self, word):
        """`put` or `now` lines for all that is lent and was not laid so."""
        for name in ("bytes", "file"):
            n = self.model.lent[name]
            old, new = bytes(self.laid[name][:n]), bytes(self.model.lists[name][:n])
            for start, end in changed(old, new, WORTH):
                self.lines += ["%s %s %d %s" % (word, name, start + at, pattern(v)) for at, v in pieces(new[start:end])]
            self.laid[name][:n] = new
        for name, lists in SLOTS.items():
            n = min(self.model.lent[each] for each in lists)
            old, new = ([*zip(*(side[each][:n] for each in lists))] for side in (self.laid, self.model.lists))
            for start, end in changed(old, new, 0):
                self.lines += ["%s %s %s" % (word, name, spaced([start + at, *rest])) for at, *rest in steps(new[start:end])]
            for each in lists:
                self.laid[each][:n] = self.model.lists[each][:n]

    # -- calls

    def call(self, name, *args):
        """Makes a call of the model and writes it down: its code, node and values, as the model gives them."""
        self.lay()
        before, code, node, values, scratch = self.model.record, *answered(self.model, name, args)
        words = [name, *arguments(name, args), "=", code, NIL if node is None else node, *numbers(name, values, scratch)]
        if self.model.record != before:
            words += ["|", *header_order(self.model.record.numbers())]
            self.laid_record = self.model.record
        self.lines.append(spaced(words))
        self.tell("now")
        return code, node, values


def answered(model, name, args):
    """Code, node and values of a call, and the scratch after it, which only `atom` is lent."""
    scratch = bytearray()
    if name == "atom":
        scratch = bytearray([UNTOUCHED]) * args[1]
        args = args[0], scratch
    return *model.answer(name, *args), scratch


def arguments(name, args):
    """The words of a call's arguments."""
    words = []
    for sort, x in zip(CALLS[name][0], args, strict=True):
        if sort in "ns":
            words.append(x)
        elif sort == "i":
            words += [int(x < 0), abs(x)]
        elif sort == "b":
            words.append(pattern(bytes(x)))
        elif sort == "l":
            words += x
        else:
            words += header_order(x.numbers()[:3 if sort == "k" else 6])
    return words


def numbers(name, values, scratch):
    """A call's values as the C header gives them: numbers for words, and 0 for each that it does not give."""
    found = list(values)
    if found and name in WORDS:
        found[0] = WORDS[name].index(found[0])
    if found and name in ("checkpoint", "transparent_checkpoint"):
        found = header_order(found)
    if name == "atom":
        found = (found or [0, 0, 0]) + [int.from_bytes(scratch, "big")]
    return found + [0] * (CALLS[name][1] - len(found))


# ---- what files of such lines hold


class Tally:
    """How many cases and calls there are, and how often each call answers each code."""

    def __init__(self):
        self.cases = self.calls = 0
        self.codes = collections.defaultdict(collections.Counter)

    def add(self, lines):
        for line in lines:
            words = line.split()
            if words[:1] == ["case"]:
                self.cases += 1
            elif words and words[0] in CALLS:
                self.calls += 1
                self.codes[words[0]][int(words[words.index("=") + 1])] += 1

    def rows(self):
        for name in CALLS:
            if name in self.codes:
                yield "%s: %s" % (name, ", ".join("%d (%d)" % item for item in sorted(self.codes[name].items())))
