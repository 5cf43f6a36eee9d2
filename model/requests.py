"""The request program of document 01: the records of its input, the machine that runs them, and the text that it prints."""
import struct

from model.allocator import TOP, Allocator, Record, Refusal

LONGEST = 65_536                    # "at most 65,536 bytes (more: it prints `too long` and nothing else)"
STORES = dict(bytes=32_768, starts=2_048, ends=2_048, firsts=2_048, rests=2_048)    # "32,768 bytes, 2,048 atom and 2,048 pair slots"
CHECKPOINTS = 32                    # "32 checkpoints (the 33rd: 15)"
HEADER = "<HH"                      # "u16 payload length, u16 kind, payload, little-endian"
NEW_ATOM, NEW_CONCAT = 1, 4         # the two kinds whose payload has any length: the bytes; "u64 size, u32 nodes"

# "Kinds", with the numbers of their payload: H a u16, I a u32, Q a u64.
PAYLOADS = {2: "<II", 3: "<III", 5: "<I", 6: "<", 7: "<H", 8: "<H", 9: "<HI", 10: "<Q", 11: "<Q", 12: "<Q"}
SIZES = {kind: struct.calcsize(form) for kind, form in PAYLOADS.items()}


def concat_payload(p):
    size, *nodes = struct.unpack("<Q%dI" % ((len(p) - 8) // 4), p)
    return size, nodes


class Machine:
    """A run: the allocator, the checkpoints taken, and what is told in the last line."""

    def __init__(self):
        self.allocator = Allocator(STORES)
        self.allocator.new_limited(TOP)
        self.checkpoints, self.released, self.shown = [], 0, 0
        self.calls = {2: self.allocator.new_pair, 3: self.allocator.new_substr, 5: self.allocator.new_small_number,
                      6: self.take, 7: self.plain, 8: self.transparent, 9: self.maybe,
                      10: self.allocator.add_ghost_pair, 11: self.allocator.remove_ghost_pair, 12: self.allocator.add_ghost_atom}

    def act(self, kind, p):
        """The node column of an accepted request: "the result; `-` for kinds 6 to 8, 10 to 12 when accepted, for Aborted"."""
        if kind == NEW_ATOM:
            node, _ = self.allocator.new_atom(p)
        elif kind == NEW_CONCAT:
            node, _ = self.allocator.new_concat(*concat_payload(p))
        else:
            node, _ = self.calls[kind](*struct.unpack(PAYLOADS[kind], p))
        return "-" if node is None else node

    def take(self):
        if len(self.checkpoints) == CHECKPOINTS:
            raise Refusal(15)
        _, six = self.allocator.checkpoint()
        self.checkpoints.append(Record(*six, TOP))
        return None, []

    def taken(self, number):
        """ "An untaken number gives 11." """
        if number >= len(self.checkpoints):
            raise Refusal(11)
        return self.checkpoints[number]

    def restore(self, call, k, *args):
        """ "released: the savings figure summed over accepted restores of all three sorts, Aborted not counted" """
        saved = self.allocator.savings(k)
        node, outcome = call(k, *args)
        if outcome != ["aborted"]:
            self.released += saved
        return node, outcome

    def plain(self, number):
        return self.restore(self.allocator.restore_checkpoint, self.taken(number))

    def transparent(self, number):
        return self.restore(self.allocator.restore_transparent_checkpoint, self.taken(number))

    def maybe(self, number, n):
        """ "NoReplace shows the node given." """
        node, outcome = self.restore(self.allocator.maybe_restore_with_node, self.taken(number), n)
        return n if outcome == ["no_replace"] else node, outcome

    def row(self, code, node):
        """ "record number from 1, code (0 accepted), node, total atoms, pairs, heap after it" """
        self.shown += 1
        r = self.allocator.record
        return "%d %d %s %d %d %d\n" % (self.shown, code, node, r.all_atoms, r.all_pairs, r.heap)


def request_at(data, at):
    """Kind and payload of the record there; None for "a short record, unknown kind or wrong length"."""
    if len(data) < at + 4:
        return None
    size, kind = struct.unpack_from(HEADER, data, at)
    if len(data) < at + 4 + size:
        return None
    if kind == NEW_ATOM:
        right = True
    elif kind == NEW_CONCAT:
        right = size >= 8 and (size - 8) % 4 == 0
    else:
        right = size == SIZES.get(kind)
    return (kind, data[at + 4:at + 4 + size]) if right else None


def text(data):
    """All that the program prints for an input."""
    if len(data) > LONGEST:
        return "too long\n"
    machine, at, lines = Machine(), 0, ["n code node atoms pairs heap\n"]
    while at < len(data):
        request = request_at(data, at)
        if request is None:                 # "gives 16 and ends the run"
            lines.append(machine.row(16, "-"))
            break
        try:
            code, node = 0, machine.act(*request)
        except Refusal as refusal:          # "on other refusals the table's"
            code, node = refusal.code, refusal.node
        lines.append(machine.row(code, node))
        at += 4 + len(request[1])
    lines.append("end %d %d\n" % (machine.shown, machine.released))
    return "".join(lines)
