"""Reads lines of calls with their answers (crates/answers/FORMAT.md) and makes the calls of the model: it must answer and write the same.

So the model is held to answers that it did not give itself: those that the Rust gave."""
from model.allocator import NIL, Record
from model.files import FileAllocator
from model.recorded import BYTE, CALLS, SIZES, SLOT, SLOTS, WORD, answered, header_order, numbers

WIDTHS = dict(n=1, s=1, i=2, b=2, k=3, p=6)      # how many words an argument takes; nodes take what is left


def document_order(numbers_of_header):
    """Numbers of a record or a checkpoint, from the C header's order to document 01's."""
    atoms, pairs, used_bytes, *rest = numbers_of_header
    return [used_bytes, atoms, pairs, *rest]


def repeated(count, digits):
    pattern = b"" if digits == "-" else bytes.fromhex(digits)
    return (pattern * (int(count) // max(1, len(pattern)) + 1))[:int(count)]


def argument(sort, words):
    """An argument of a call, from its words."""
    if sort == "b":
        return repeated(*words)
    found = [int(word) for word in words]
    if sort == "l":
        return found
    if sort == "i":
        return -found[1] if found[0] else found[1]
    if sort in "kp":
        return Record(*document_order(found), *[0] * (7 - len(found)))
    return found[0]


class Replay:
    """A state that lines lay and calls change. `held` is what the lists must hold, as the lines say."""

    def __init__(self):
        self.begin()

    def begin(self):
        self.model = FileAllocator(SIZES, BYTE, SLOT)
        self.model.record = Record(0, 0, 0, 0, 0, 0, 0)
        self.model.lent = dict.fromkeys(SIZES, 0)
        self.held = {name: entries[:] for name, entries in self.model.lists.items()}

    def settle(self, place):
        """What is lent holds what the lines say."""
        for name, n in self.model.lent.items():
            assert self.model.lists[name][:n] == self.held[name][:n], (place, name)

    def line(self, place, text):
        word, *words = text.split(" ")
        if word == "now":
            self.lay(place, words, [self.held])
            return
        self.settle(place)
        if word == "case":
            self.begin()
        elif word == "lent":
            self.model.lent = dict(zip(SIZES, map(int, words), strict=True))
        elif word == "record":
            self.model.record = Record(*document_order(map(int, words)))
        elif word == "put":
            self.lay(place, words, [self.held, self.model.lists])
        elif word != "#":
            self.call(place, word, words)

    def lay(self, place, words, sides):
        name, at, at_most = words[0], int(words[1]), self.model.lent
        if name in SLOTS:
            n, *steps = map(int, words[2:])
            columns = [(each, [(steps[2 * i] + k * steps[2 * i + 1]) % WORD for k in range(n)]) for i, each in enumerate(SLOTS[name])]
        else:
            columns = [(name, repeated(*words[2:]))]
        for each, entries in columns:
            assert at + len(entries) <= at_most[each], (place, words)
            for side in sides:
                side[each][at:at + len(entries)] = entries

    def call(self, place, name, words):
        asked, expected = words[:words.index("=")], words[words.index("=") + 1:]
        args = []
        for sort in CALLS[name][0]:
            n = WIDTHS.get(sort, len(asked))
            args.append(argument(sort, asked[:n]))
            asked = asked[n:]
        before, code, node, values, scratch = self.model.record, *answered(self.model, name, args)
        found = [code, NIL if node is None else node, *numbers(name, values, scratch)]
        if self.model.record != before:
            found += ["|", *header_order(self.model.record.numbers())]
        assert not asked and [str(x) for x in found] == expected, (place, name, words, found)


def check(name, lines):
    """Holds the model to all lines of a file."""
    replay = Replay()
    for number, text in enumerate(lines, 1):
        replay.line("%s:%d" % (name, number), text)
    replay.settle(name)
