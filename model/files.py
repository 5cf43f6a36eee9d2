"""Program files, W1 of document 02: an atom's form, the reader and the writer, on top of the calls of document 01.

The code reads and writes a tree by functions that call each other; here a list holds what is still to do.
"""
from model.allocator import NIL, PAIR, Allocator, Refusal

LEVELS = 4096                       # "down to 4,096 levels, the root being level 1"
MARK = 0xFF                         # "ff, then first, then rest, for a pair"
SINGLE = 0x80                       # "a byte below 80 for itself"
REFUSED = 0xFC                      # "fc to fe are refused"

# "The prefixes start at 80, c0, e0, f0 and f8, one to five bytes in all, for lengths below 2^6, 2^13, 2^20, 2^27 and 2^34;
# these limits and marks form one small table."
PREFIXES = [(0x80, 1, 2**6), (0xC0, 2, 2**13), (0xE0, 3, 2**20), (0xF0, 4, 2**27), (0xF8, 5, 2**34)]


def prefixed(size, v):
    """An atom behind a prefix of so many bytes, the shortest or a longer one."""
    mark, _, limit = PREFIXES[size - 1]
    assert len(v) < limit
    prefix = bytearray(len(v).to_bytes(size, "big"))
    prefix[0] += mark
    return bytes(prefix) + v


def form(v):
    """ "The writer uses the shortest." """
    if len(v) == 1 and v[0] < SINGLE:
        return bytes(v)
    return prefixed(next(size for _, size, limit in PREFIXES if len(v) < limit), v)


def atom_at(file, at):
    """The bytes of the atom that starts there, and where it ends: 17 where there is none. "Long prefixes are accepted." """
    first = file[at]
    if first < SINGLE:
        return file[at:at + 1], at + 1
    if first >= REFUSED:
        raise Refusal(17)
    mark, size, _ = [p for p in PREFIXES if p[0] <= first][-1]
    start = at + size
    if start > len(file):
        raise Refusal(17)
    end = start + int.from_bytes(bytes([first - mark]) + file[at + 1:start], "big")
    if end > len(file):
        raise Refusal(17)
    return file[start:end], end


class Reader:
    """Reads one file into an allocator. `item` is the place of the item whose turn it is: the first fault in file order lies there."""

    def __init__(self, allocator, file):
        self.allocator, self.file, self.item = allocator, bytes(file), 0

    def read(self):
        """The root. "first, rest, then the pair"; `open_pairs` has the place of each pair that is not made, and its first once that is read."""
        self.allocator.need_sound("bytes", "atoms", "pairs")
        at, open_pairs = 0, []
        while True:
            self.item = at
            if len(open_pairs) + 1 > LEVELS:            # "18 too deep (.. tested on entering a level)"
                raise Refusal(18)
            if at == len(self.file):
                raise Refusal(17)
            if self.file[at] == MARK:
                open_pairs.append([at])
                at += 1
                continue
            v, at = atom_at(self.file, at)
            node, _ = self.allocator.new_atom(v)
            while open_pairs and len(open_pairs[-1]) == 2:
                self.item, first = open_pairs.pop()
                node, _ = self.allocator.new_pair(first, node)
            if not open_pairs:
                return self.ended(node, at)
            open_pairs[-1].append(node)

    def ended(self, node, at):
        """ "Bytes after the root are bad encoding." """
        self.item = at
        if at < len(self.file):
            raise Refusal(17)
        return node


def load(allocator, file):
    """Code, node, and the place: the file's length, or that of the item at fault. "On a refusal the record is the old one, and the slots past
    its used lengths hold what the accepted calls wrote"."""
    before, reader = allocator.record, Reader(allocator, file)
    try:
        return 0, reader.read(), reader.item
    except Refusal as refusal:
        allocator.record = before
        return refusal.code, NIL, reader.item


def written(allocator, root, room):
    """The bytes that a node is saved as, or a Refusal."""
    allocator.need_sound("bytes", "atoms", "pairs")
    out = bytearray()
    left = [(root, 1)]              # nodes to write, each with its level; the last is next
    while left:
        n, level = left.pop()
        if level > LEVELS:          # "the writer's node tests are 18, then 5, then 1"
            raise Refusal(18)
        kind, low = allocator.argument(n)
        if kind == PAIR:
            first, rest = allocator.children(low)
            out.append(MARK)
            left += [(rest, level + 1), (first, level + 1)]
        else:
            out += form(allocator.bytes_of(n))
        if len(out) > room:         # "19 comes at the first byte that doesn't fit"
            raise Refusal(19)
    return bytes(out)


def save(allocator, root, room):
    """Code and bytes. "A refused write changes no byte." """
    try:
        return 0, written(allocator, root, room)
    except Refusal as refusal:
        return refusal.code, b""


class FileAllocator(Allocator):
    """An allocator beside a list `file`: load reads the start of it, save writes there."""

    def __init__(self, sizes, byte, slot):
        super().__init__(sizes, byte, slot)
        self.lists["file"] = bytearray([byte]) * sizes["file"]
        self.lent["file"] = sizes["file"]

    def answer(self, call, *args):
        """Code, node and values of any call, these two as well: the place, and how many bytes were written."""
        if call == "load":
            code, node, place = load(self, self.lists["file"][:args[0]])
            return code, node, [place]
        if call == "save":
            code, out = save(self, args[0], self.lent["file"])
            self.lists["file"][:len(out)] = out
            return code, NIL, [len(out)]
        return super().answer(call, *args)
