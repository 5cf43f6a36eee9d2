"""The cases of data/runs.txt: whole small runs from a fresh allocator, of calls of all sorts, drawn by a seed.

Limits and lists are small, so that calls are refused for want of heap and of room. Checkpoints are those that the run took, live and dead."""
import random

from model import files
from model.allocator import LARGEST_SMALL, MOST, NIL, TOP, pair, small, stored
from model.recorded import BYTE, CALLS, Recorder, Tally

SEED, RUNS, LENGTH = 20, 42, 30
LARGEST = 2**64 - 1
VALUES = (0, 1, 5, 127, 128, 255, 256, 32767, 32768, 8388608, LARGEST_SMALL)
INTEGERS = VALUES + (LARGEST_SMALL + 1, 2**31, 2**39 - 1, 2**47, 2**55, 2**63 - 1)
BROKEN = (b"\xfe", b"\xff\x80", b"\x82\x80", b"\x80\x80")
LARGE = dict(bytes=3400, starts=12, ends=12, firsts=9, rests=9, file=80)

# How a run begins, and how often each sort of call is drawn after that.
WEIGHTS = dict.fromkeys(CALLS, 1) | dict(
    new_limited=0, new_atom=14, new_small_number=4, new_u64=3, new_i64=3, new_pair=9, new_substr=10, new_concat=9, checkpoint=5,
    restore_checkpoint=3, restore_transparent_checkpoint=3, maybe_restore_with_node=7, checkpoint_node_status=3, add_ghost_pair=2,
    remove_ghost_pair=3, add_ghost_atom=2, atom=3, atom_eq=3, load=3, save=3, well_formed=2)


class Run(Recorder):
    """One recorder for all runs, with the checkpoints of the present one. Only the generator's `random` is used: it draws the same in all
    versions of Python."""

    def __init__(self):
        super().__init__(**LARGE)
        self.drawn, self.checkpoints = random.Random(SEED), []

    def below(self, n):
        return int(self.drawn.random() * n)

    def pick(self, choices):
        return choices[self.below(len(choices))]

    # -- arguments

    def node(self):
        """Mostly one that is valid: a new atom, any atom, a pair, or a small one."""
        r = self.model.record
        sort = self.below(20)
        if sort < 4 and r.atoms:
            return stored(r.atoms - 1)
        if sort < 10 and r.atoms:
            return stored(self.below(r.atoms))
        if sort < 13 and r.pairs:
            return pair(self.below(r.pairs))
        if sort < 19:
            return small(self.pick(VALUES))
        return self.pick((stored(r.atoms), pair(r.pairs), 3 << 26, TOP))

    def length(self, n):
        """How many bytes a node shows; 0 where it shows none."""
        code, _, values = self.model.answer("atom_len", n)
        return values[0] if code == 0 else 0

    def some_bytes(self):
        """A few bytes at the edges of small atoms, or so few again and again."""
        n = self.pick((0, 1, 1, 2, 2, 3, 4, 5, 9, 48, 49, 300, 1000, 1100))
        few = bytes(self.pick((0, 1, 3, 4, 127, 128, 255)) for _ in range(5))
        return (few * n)[:n]

    def substr(self):
        n = self.node()
        length = self.length(n)
        return n, self.pick((0, 0, 1, length, length + 1, length // 2)), self.pick((length, length, 1, 0, length + 1))

    def concat(self):
        nodes = [self.node() for _ in range(self.pick((0, 1, 1, 2, 2, 2, 3, 5)))]
        size = sum(self.length(n) for n in nodes)
        return self.pick((size,) * 6 + (size + 1, max(0, size - 1), LARGEST)), nodes

    def checkpoint(self):
        """One of the run's, often the first, so that the others die; or the present state where it took none."""
        taken = self.checkpoints or [self.model.record]
        return taken[0] if self.below(3) == 0 else self.pick(taken)

    def tree(self, level=1):
        """A small tree in its form, some of its prefixes longer than need be."""
        if level < 4 and self.below(2):
            return b"\xff" + self.tree(level + 1) + self.tree(level + 1)
        v = self.some_bytes()[:self.pick((0, 1, 2, 4, 9))]
        return files.form(v) if self.below(4) else files.prefixed(self.pick((1, 2, 3, 4, 5)), v)

    def arguments(self, name):
        """Arguments of a call that is drawn."""
        if name in ("restore_checkpoint", "restore_transparent_checkpoint"):
            return [self.checkpoint()]
        if name in ("checkpoint_node_status", "maybe_restore_with_node"):
            return [self.checkpoint(), self.node()]
        if name in ("new_atom", "fits_in_small_atom"):
            return [self.some_bytes()]
        if name == "new_i64":
            return [self.pick((1, -1)) * self.pick(INTEGERS)]
        if name in ("new_u64", "new_small_number", "len_for_value"):
            return [self.pick(INTEGERS if name == "new_u64" else VALUES + (LARGEST_SMALL + 1,))]
        if "ghost" in name:
            return [self.pick((0, 1, 2, 3, MOST, LARGEST))]
        if name == "atom":
            return [self.node(), self.pick((4, 4, 4, 0, 3, 8))]
        if name in ("new_substr", "new_concat"):
            return self.substr() if name == "new_substr" else self.concat()
        return [self.node() for _ in CALLS[name][0]]

    # -- calls

    def ask(self, name, *args):
        """A call; a checkpoint that is taken is kept."""
        code, node, _ = self.call(name, *args)
        if name == "checkpoint" and code == 0:
            self.checkpoints.append(self.model.record)
        return node

    def load(self):
        """A file that is mostly sound, as long as it fits what is lent."""
        content = (self.tree() + self.pick((b"",) * 6 + BROKEN))[:self.model.lent["file"]]
        self.model.lists["file"][:len(content)] = content
        self.ask("load", len(content))

    def save(self):
        """A node, over a file that holds its filler."""
        self.model.lists["file"][:] = bytes([BYTE]) * len(self.model.lists["file"])
        self.ask("save", self.node())

    def draw(self):
        name = self.pick([each for each, weight in WEIGHTS.items() for _ in range(weight)])
        if name in ("load", "save"):
            (self.load if name == "load" else self.save)()
        else:
            self.ask(name, *self.arguments(name))


# ---- how runs begin


def small_lists(t):
    """Little heap and few slots."""
    t.lend(bytes=t.pick((6, 20, 120)), starts=t.pick((1, 3, 5)), ends=t.pick((2, 4, 5)), firsts=t.pick((1, 2, 4)), rests=t.pick((1, 3, 4)),
           file=t.pick((3, 12, 40)))
    t.ask("new_limited", t.pick((3, 40, 400, TOP)))


def few_atoms(t):
    """Only a few atoms more, since ghosts are counted."""
    t.ask("new_limited", t.pick((60, 3000, TOP)))
    t.ask("add_ghost_atom", MOST - 2 - t.below(9))


def few_pairs(t):
    """Only a few pairs more, since ghosts are counted."""
    t.ask("new_limited", t.pick((60, 3000, TOP)))
    t.ask("add_ghost_pair", MOST - t.below(3))


def dead_checkpoint(t):
    """A checkpoint that is dead, and usable: its bytes end within an atom that was made since."""
    t.ask("new_limited", TOP)
    t.ask("checkpoint")
    t.ask("new_atom", b"\x91" * (60 + t.below(60)))
    t.ask("checkpoint")
    t.ask("restore_checkpoint", t.checkpoints[0])
    t.ask("new_atom", b"\x92" * (20 + t.below(30)))
    n = t.ask("new_atom", b"\x93" * (1200 + t.below(900)))
    t.ask("checkpoint_node_status", t.checkpoints[1], n)
    t.ask("maybe_restore_with_node", t.checkpoints[1], n)


def past_the_limit(t):
    """The heap is past its limit, by a part of a small atom."""
    length = 1016 + t.below(100)
    t.ask("new_limited", length + 3)
    t.ask("checkpoint")
    t.ask("new_atom", b"\x94" * length)
    t.ask("new_small_number", 128)
    n = t.ask("new_substr", small(128), 1, 2)
    t.ask("maybe_restore_with_node", t.checkpoints[0], n)


def worth_a_restore(t):
    """A checkpoint with more than 1,024 bytes after it, and a node to keep."""
    t.ask("new_limited", t.pick((2400, 4000, TOP)))
    old = t.ask("new_atom", b"\x95" * 40)
    t.ask("checkpoint")
    t.ask("new_atom", b"\x96" * (960 + t.below(200)))
    t.ask("new_concat", 41, [small(1), old])
    t.ask("new_substr", old, t.below(9), 30)
    t.ask("maybe_restore_with_node", t.checkpoints[0], t.pick((stored(2), stored(3), NIL, old)))


BEGINNINGS = (small_lists, few_atoms, worth_a_restore, few_pairs, dead_checkpoint, past_the_limit)


def lines():
    """All lines of data/runs.txt but its head. Every call is made, and every code from 2 to 15 is met."""
    t = Run()
    for number in range(RUNS):
        begin = BEGINNINGS[number % len(BEGINNINGS)]
        t.clear()
        t.case("run-%d" % number)
        t.say("a run from a fresh allocator. " + begin.__doc__)
        t.checkpoints = []
        began = len(t.lines)
        begin(t)
        while sum(line.split()[0] in CALLS for line in t.lines[began:]) < LENGTH:
            t.draw()
    tally = Tally()
    tally.add(t.lines)
    codes = {code for each in tally.codes.values() for code in each}
    assert set(range(2, 16)) <= codes and set(tally.codes) == set(CALLS), (codes, set(CALLS) - set(tally.codes))
    return t.lines
