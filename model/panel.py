"""The text of the program that shows program files: name, length, root or refusal, the counts that a run starts from, and the tree."""
from model import files
from model.allocator import PAIR, SMALL, TOP, Allocator

LONGEST = 131_072                   # the longest file that the program takes
SLOTS = LONGEST // 2 + 1            # no file of that length needs more atoms or pairs
STORES = dict(bytes=LONGEST, starts=SLOTS, ends=SLOTS, firsts=SLOTS, rests=SLOTS)
DEPTH = 8                           # how many levels are shown, where no argument says so
WORDS = {17: "bad encoding", 18: "too deep"}        # the stores are large enough for any file, so that no call refuses


def table(record):
    rows = (("atoms", record.atoms, record.ghost_atoms), ("pairs", record.pairs, record.ghost_pairs), ("heap", record.bytes, record.ghost_heap))
    return ["count used ghost total"] + ["%s %d %d %d" % (name, used, ghost, used + ghost) for name, used, ghost in rows]


def outline(allocator, root, depth):
    """A line for each node down to a depth, two spaces further in at each level; ` ..` where a pair is not opened."""
    left = [(root, 1)] if depth else []
    while left:
        n, level = left.pop()
        kind, low = allocator.argument(n)
        margin = "  " * (level - 1)
        if kind == PAIR and level == depth:
            yield "%spair %d .." % (margin, n)
        elif kind == PAIR:
            yield "%spair %d" % (margin, n)
            first, rest = allocator.children(low)
            left += [(rest, level + 1), (first, level + 1)]
        else:
            name = "small" if kind == SMALL else "bytes"
            yield ("%s%s %d %s" % (margin, name, n, allocator.bytes_of(n).hex())).rstrip()


def loaded(content, depth):
    """What is shown of a file that could be read."""
    if len(content) > LONGEST:
        return ["too long: at most %d bytes" % LONGEST]
    allocator = Allocator(STORES)
    allocator.new_limited(TOP)
    code, root, place = files.load(allocator, content)
    told = "root %d" % root if code == 0 else "refused %d at %d: %s" % (code, place, WORDS[code])
    tree = outline(allocator, root, depth) if code == 0 else []
    return ["bytes %d" % len(content), told, *table(allocator.record), *tree]


def shown(name, depth, standard_input):
    """What is shown for a name: `-` is standard input."""
    try:
        if name == "-":
            content = standard_input()
        else:
            with open(name, "rb") as file:
                content = file.read()
    except IsADirectoryError:
        return ["file " + name, "cannot be read"]
    except OSError:
        return ["file " + name, "cannot be opened"]
    return ["file " + name, *loaded(content, depth)]


def lines(arguments, standard_input):
    """All lines for a command's arguments: `-NUMBER` is the depth from there on; with no name, standard input is shown."""
    depth, named = DEPTH, False
    for argument in arguments:
        if argument[:1] == "-" and argument[1:].isascii() and argument[1:].isdigit():
            depth = min(int(argument[1:]), files.LEVELS)
        else:
            named = True
            yield from shown(argument, depth, standard_input)
    if not named:
        yield from shown("-", depth, standard_input)
