#!/usr/bin/env python3
"""Holds the model to numbers and examples that documents 01 and 02 (W1) write out: `python3 model/test.py`; the last line is `N checks passed`."""
import os
import sys

sys.path.insert(0, os.path.join(os.path.dirname(os.path.abspath(__file__)), os.pardir))

from model import files, panel, requests
from model.allocator import MOST, NIL, TOP, Allocator, Record, fits, integer, pair, small, stored

SIZES = dict(bytes=4096, starts=16, ends=16, firsts=16, rests=16)
DEEP = dict(bytes=16, starts=16, ends=16, firsts=4200, rests=4200)
passed, failed = 0, []


def check(what, found, expected):
    """One check: the words for it are shown where it fails."""
    global passed
    if found == expected:
        passed += 1
    else:
        failed.append("%s: %r, and not %r" % (what, found, expected))


def fresh(limit=TOP, sizes=SIZES):
    a = Allocator(sizes)
    a.new_limited(limit)
    return a


def holding(*seven):
    """An allocator with any record, beside lists of zeros."""
    a = Allocator(SIZES)
    a.record = Record(*seven)
    return a


# ---- document 01, what a state is


def records():
    check("new_limited gives ghosts 2, 0, 1, used 0", fresh(7).record.numbers(), [0, 0, 0, 2, 0, 1, 7])
    a = holding(1, 1, 1, 1, 1, 1, 1)
    check("a limit of 4,294,967,295", (a.answer("new_limited", 4294967295), a.record.limit), ((0, None, []), 4294967295))
    a = holding(1, 1, 1, 1, 1, 1, 1)
    check("a limit above is refused with 1", a.answer("new_limited", 4294967296), (1, NIL, []))
    check("and the record for limit 0", a.record.numbers(), [0, 0, 0, 2, 0, 1, 0])
    check("nil is 134217728", NIL, 134217728)
    check("nil is the small atom 0", small(0), 134217728)
    check("an index is below the used count", [Allocator.is_valid(n, 2, 3) for n in (2, 3, stored(1), stored(2), 3 << 26)],
          [True, False, True, False, False])


def sound_records():
    """Each limit of a sound record, and one past it, by the code of a count."""
    for what, at, past in (("used bytes", (TOP, 0, 0, 0, 0, 0, TOP), (TOP + 1, 0, 0, 0, 0, 0, TOP)),
                           ("limit", (0, 0, 0, 2, 0, 1, 4294967295), (0, 0, 0, 2, 0, 1, 4294967296)),
                           ("atoms", (0, 1, 0, 62499999, 0, 1, 9), (0, 1, 0, 62500000, 0, 1, 9)),
                           ("pairs", (0, 0, 1, 2, 62499999, 1, 9), (0, 0, 1, 2, 62500000, 1, 9)),
                           ("heap: limit + 3 x atoms", (5, 1, 0, 2, 0, 14, 10), (5, 1, 0, 2, 0, 15, 10))):
        check("sound: " + what, holding(*at).answer("atom_count")[0], 0)
        check("not sound: " + what, holding(*past).answer("atom_count"), (1, NIL, []))
    a = holding(4, 1, 1, 2, 0, 1, 50)
    a.lists["ends"][0], a.lists["firsts"][0], a.lists["rests"][0] = 4, NIL, stored(0)
    check("well-formed", a.answer("well_formed"), (0, None, ["yes"]))
    a.lists["ends"][0] = 5
    check("an atom slot: end past the used bytes", a.answer("well_formed"), (0, None, ["no"]))
    a.lists["ends"][0], a.lists["rests"][0] = 4, pair(0)
    check("a pair slot: a pair child's index at its own", a.answer("well_formed"), (0, None, ["no"]))
    a.lent["rests"] = 0
    check("used counts fit the lists lent", a.answer("next", NIL), (1, NIL, []))


# ---- document 01, the P cases


def p_cases():
    for v, value in (([], 0), ([0x00], None), ([0x7f], 127), ([0x80], None), ([0x00, 0x7f], None), ([0x00, 0x80], 128),
                     ([0x03, 0xff, 0xff, 0xff], 67108863), ([0x04, 0x00, 0x00, 0x00], None)):
        check("fits of %r" % v, fits(bytes(v)), value)
    a = fresh()
    n, _ = a.new_i64(-128)
    check("new_i64 of -128", (n, a.bytes_of(n)), (stored(0), b"\x80"))
    n, _ = a.new_i64(-129)
    check("new_i64 of -129", (n, a.bytes_of(n)), (stored(1), b"\xff\x7f"))
    n, _ = a.new_substr(small(128), 1, 2)
    check("substr(1,2) of 128 is Bytes [80]", (n, a.bytes_of(n)), (stored(2), b"\x80"))
    n, _ = a.new_concat(0, [NIL, NIL])
    check("concat of nil, nil with 0 is empty Bytes", (n, a.bytes_of(n)), (stored(3), b""))


def integers():
    """The eight thresholds, and their mirror."""
    for power in (7, 15, 23, 31, 39, 47, 55, 63):
        n = (power + 1) // 8
        check("2^%d - 1" % power, integer(2**power - 1), b"\x7f" + b"\xff" * (n - 1))
        check("2^%d" % power, integer(2**power), b"\x00\x80" + b"\x00" * (n - 1))
        check("-2^%d still takes %d bytes" % (power, n), integer(-2**power), b"\x80" + b"\x00" * (n - 1))
        check("-2^%d - 1" % power, integer(-2**power - 1), b"\xff\x7f" + b"\xff" * (n - 1))
    check("zero is empty", integer(0), b"")
    a = fresh()
    check("no small atom has 5 bytes", a.answer("len_for_value", 67108863), (0, None, [4]))
    check("over 4 bytes is not small", fits(b"\x01\x00\x00\x00\x00"), None)


# ---- document 01, the runs


def restored(first, second):
    """Fresh, checkpoint, two atoms, maybe_restore_with_node with the second: the answer, and the allocator."""
    a = fresh()
    k = a.record
    a.new_atom(b"\xff" * first)
    n, _ = a.new_atom(b"\xff" * second)
    check("savings with %d and %d" % (first, second), a.savings(k), first + second + 16)
    return a.answer("maybe_restore_with_node", k, n), a


def the_run():
    answer, a = restored(959, 48)
    check("959 and 48: savings 1023, Aborted for the second", (answer, a.record.numbers()), ((0, None, ["aborted"]), [1007, 2, 0, 2, 0, 1, TOP]))
    answer, a = restored(960, 48)
    check("960 and 48: 1024, Replace 67108864", answer, (0, 67108864, ["replace"]))
    check("used bytes 48, ghost atoms 3, ghost heap 961", (a.record.bytes, a.record.ghost_atoms, a.record.ghost_heap), (48, 3, 961))
    check("totals 4 and 1009 as before", (a.record.all_atoms, a.record.heap), (4, 1009))
    answer, a = restored(960, 49)
    check("960 and 49: Aborted", answer, (0, None, ["aborted"]))


def limit_3():
    a = fresh(3)
    check("limit 3: [00 80]", a.answer("new_atom", b"\x00\x80"), (0, small(128), []))
    check("then substr(1,2) is accepted", a.answer("new_substr", small(128), 1, 2), (0, stored(0), []))
    check("at heap 4", a.answer("heap_size"), (0, None, [4]))
    check("a new empty atom then gives 2", a.answer("new_atom", b""), (2, NIL, []))
    check("a part that fits is small", a.answer("new_substr", small(67108863), 0, 1), (0, small(3), []))
    check("heap unchanged", a.record.heap, 4)
    a = fresh(1103)
    k = a.record
    a.new_atom(b"\xff" * 1100)
    a.new_atom(b"\x00\x80")
    n, _ = a.new_substr(small(128), 1, 2)
    before = a.record
    check("the clone path: 2 if heap > limit, and nothing is changed", (a.answer("maybe_restore_with_node", k, n), a.record), ((2, NIL, []), before))


def easy_to_get_wrong():
    a = fresh()
    n, _ = a.new_concat(2, [NIL, small(128)])
    check("a concat result is never small", (n, a.bytes_of(n)), (stored(0), b"\x00\x80"))
    a = fresh()
    k = a.record
    a.new_atom(b"\xff" * 1100)
    n, _ = a.new_concat(2, [NIL, small(128)])
    heap = a.record.heap
    a.new_substr(n, 1, 2)
    check("substr(1,2) of Bytes [00 80] costs no heap byte", a.record.heap, heap)
    check("a replaced node: Bytes [00 80] comes back small", a.answer("maybe_restore_with_node", k, n), (0, small(128), ["replace"]))
    heap = a.record.heap
    a.new_substr(small(128), 1, 2)
    check("and its substr(1,2) then costs a heap byte", a.record.heap, heap + 1)
    a = fresh()
    start = a.record
    a.new_atom(b"\xff" * 100)
    dead = a.record
    a.restore_checkpoint(start)
    a.new_atom(b"\xff" * 50)
    n, _ = a.new_atom(b"\xff" * 2000)
    check("a dead checkpoint that is usable: 12", a.answer("maybe_restore_with_node", dead, n), (12, NIL, []))


def restores():
    a = fresh()
    a.add_ghost_pair(5)
    k = a.record
    a.new_atom(b"\xff" * 9)
    a.new_pair(NIL, stored(0))
    a.remove_ghost_pair(4)
    check("a transparent restore adds what was cut to the ghosts", (a.answer("restore_transparent_checkpoint", k), a.record.numbers()),
          ((0, None, []), [0, 0, 0, 3, 2, 10, TOP]))
    check("a plain one sets the ghosts, above the present ones too", (a.answer("restore_checkpoint", k), a.record), ((0, None, []), k))
    check("no slot is cleared", (a.lists["ends"][0], a.lists["rests"][0]), (9, stored(0)))
    for name in ("restore_checkpoint", "restore_transparent_checkpoint"):
        check("11: a used count above the present one", a.answer(name, k.but(atoms=1)), (11, NIL, []))
    check("11: a plain one that gives no sound record", a.answer("restore_checkpoint", k.but(ghost_atoms=MOST + 1)), (11, NIL, []))
    check("11 before the savings", a.answer("maybe_restore_with_node", k.but(pairs=1), NIL), (11, NIL, []))
    a.new_atom(b"\xff" * 60)
    a.new_substr(stored(0), 0, 9)
    k = a.record.but(bytes=9, atoms=1)
    a.new_substr(stored(0), 9, 10)
    check("status: Before, AfterOldBytes, AfterNewBytes", [a.answer("checkpoint_node_status", k, n)[2] for n in (NIL, stored(0), stored(1), stored(2))],
          [["before"], ["before"], ["after_old_bytes", 0, 9], ["after_new_bytes"]])


# ---- document 01, the codes


def codes():
    a = fresh(20)
    a.new_atom(b"abcde")
    a.new_pair(NIL, NIL)
    for call, args, code, node in (
            ("new_atom", [b"\xff" * 15], 2, NIL), ("new_concat", [2**64 - 1, [NIL]], 2, NIL), ("new_small_number", [67108864], 13, NIL),
            ("remove_ghost_pair", [1], 14, NIL), ("add_ghost_atom", [MOST - 2], 3, NIL), ("add_ghost_pair", [MOST], 4, NIL),
            ("node", [stored(1)], 5, NIL), ("object_type", [3 << 26], 5, NIL), ("new_pair", [NIL, pair(1)], 5, NIL),
            ("atom_len", [pair(0)], 6, pair(0)), ("atom_eq", [stored(0), pair(0)], 6, pair(0)), ("new_concat", [0, [pair(0)]], 6, pair(0)),
            ("new_substr", [stored(0), 6, 0], 7, stored(0)), ("new_substr", [stored(0), 5, 6], 8, stored(0)),
            ("new_substr", [stored(0), 2, 1], 9, stored(0)), ("new_concat", [1, []], 10, NIL), ("new_concat", [4, [stored(0)]], 10, NIL),
            ("new_concat", [4, [stored(0), stored(1)]], 10, stored(0)), ("new_concat", [0, [small(1), NIL]], 10, NIL),
            ("atom", [NIL, bytearray(3)], 15, NIL)):
        before = a.record
        check("%d: %s of %r" % (code, call, args), (a.answer(call, *args), a.record), ((code, node, []), before))
    check("13: not for 67,108,863", fresh().answer("new_small_number", 67108863), (0, 201326591, []))
    check("9: not for end = start", fresh().answer("new_substr", NIL, 0, 0), (0, NIL, []))
    a.lent["starts"] = 1
    check("15: no slot", a.answer("new_atom", b"\x80"), (15, NIL, []))
    check("15: a small one needs none", a.answer("new_atom", b"\x01"), (0, small(1), []))
    scratch = bytearray(4)
    check("the scratch holds the value, the part is its last bytes", (a.answer("atom", small(128), scratch), scratch),
          ((0, None, ["scratch", 2, 2]), bytearray([0, 0, 0, 128])))


def concats():
    a = fresh()
    a.new_atom(b"\xff\xfe\xfd")
    check("no nodes: nil and ghost atoms +1", (a.answer("new_concat", 0, []), a.record.ghost_atoms), ((0, NIL, []), 3))
    answer = a.answer("new_concat", 3, [stored(0)])
    check("one node: that node, ghost atoms +1, ghost heap + size", (answer, a.record.ghost_atoms, a.record.ghost_heap), ((0, stored(0), []), 4, 4))
    check("3 comes before 2", holding(0, 0, 0, MOST, 0, 1, 5).answer("new_concat", 2**64 - 1, []), (3, NIL, []))
    check("2 comes before 3 in new_atom", holding(0, 0, 0, MOST, 0, 1, 5).answer("new_atom", bytes(5)), (2, NIL, []))


# ---- document 01, the request program


def request(kind, payload=b""):
    return len(payload).to_bytes(2, "little") + kind.to_bytes(2, "little") + payload


def column(data, i):
    """A column of the rows that are printed for an input."""
    return [line.split()[i] for line in requests.text(data).splitlines()[1:-1]]


def request_program():
    example = "02 00 01 00 00 80 0c 00 03 00 80 00 00 08 01 00 00 00 02 00 00 00 08 00 02 00 00 00 00 04 00 00 00 08"
    check("the example", requests.text(bytes.fromhex(example)),
          "n code node atoms pairs heap\n1 0 134217856 3 0 3\n2 0 67108864 4 0 4\n3 0 0 4 1 4\nend 3 0\n")
    check("65,537 bytes", requests.text(bytes(65537)), "too long\n")
    check("65,536 bytes", requests.text(request(6) * 16384).splitlines()[-1], "end 16384 0")
    check("the 33rd checkpoint: 15", column(request(6) * 33, 1), ["0"] * 32 + ["15"])
    check("an untaken number: 11", column(request(7, bytes(2)) + request(9, bytes(6)), 1), ["11", "11"])
    for what, data in (("a short record", request(1, b"abc")[:-1]), ("an unknown kind", request(13)), ("kind 0", request(0)),
                       ("a wrong length", request(2, bytes(7))), ("a part of a header", b"\0\0\6")):
        check(what + ": 16 and the end", requests.text(request(6) + data).splitlines()[2:], ["2 16 - 2 0 1", "end 2 0"])
    check("32,768 bytes", column(request(1, b"\xff" * 32768) + request(1, b"\x80"), 1), ["0", "15"])
    check("2,048 atoms", column(request(1, b"\x80") * 2049, 1).count("0"), 2048)
    check("2,048 pairs", column(request(2, NIL.to_bytes(4, "little") * 2) * 2049, 1).count("0"), 2048)


def released():
    """The last line. Document 02 has the figure too: "1024 released where 968 was true, an atom of 960 and a 48-byte result"."""
    restore = request(9, b"\0\0" + stored(1).to_bytes(4, "little"))
    for first, rows in ((960, "4 0 67108864 4 0 1009\nend 4 1024\n"), (959, "4 0 - 4 0 1008\nend 4 0\n")):
        data = request(6) + request(1, b"\xff" * first) + request(1, b"\xff" * 48) + restore
        check("released with %d, Aborted not counted" % first, requests.text(data)[-len(rows):], rows)


# ---- document 02, W1


def forms():
    check("80 for the empty atom", files.form(b""), b"\x80")
    check("a byte below 80 for itself", (files.form(b"\x00"), files.form(b"\x7f")), (b"\x00", b"\x7f"))
    check("otherwise a length prefix", files.form(b"\x80"), b"\x81\x80")
    for power, longest, next_one in ((6, "bf", "c040"), (13, "dfff", "e02000"), (20, "efffff", "f0100000")):
        check("a length below 2^%d" % power, files.form(bytes(2**power - 1))[:len(longest) // 2].hex(), longest)
        check("a length of 2^%d" % power, files.form(bytes(2**power))[:len(next_one) // 2].hex(), next_one)
    check("the table", files.PREFIXES, [(0x80, 1, 64), (0xc0, 2, 8192), (0xe0, 3, 1048576), (0xf0, 4, 134217728), (0xf8, 5, 17179869184)])
    for prefix in ("83", "c003", "e00003", "f0000003", "f800000003"):
        a, file = fresh(), bytes.fromhex(prefix + "fffefd")
        check("long prefixes are accepted, the writer uses the shortest", (files.load(a, file), files.save(a, stored(0), 9)),
              ((0, stored(0), len(file)), (0, bytes.fromhex("83fffefd"))))


def loads():
    def load(file, a=None):
        return files.load(a or fresh(), bytes.fromhex(file))

    check("ff, then first, then rest", load("ff0102"), (0, pair(0), 3))
    for file, place in (("", 0), ("fc", 0), ("fd00", 0), ("fe", 0), ("81", 0), ("ff80", 2), ("8080", 1), ("ff80fe", 2), ("fbffffffff00", 0)):
        check("17 bad encoding: " + file, load(file), (17, NIL, place))
    check("the root is level 1: 4,096 levels", load("ff" * 4095 + "80" * 4096, fresh(TOP, DEEP)), (0, pair(4094), 8191))
    check("18 too deep, on entering a level", load("ff" * 4096, fresh(TOP, DEEP)), (18, NIL, 4096))
    check("one level less ends within the file: 17", load("ff" * 4095, fresh(TOP, DEEP)), (17, NIL, 4095))
    check("the first fault in file order", (load("ff81aafe", fresh(1)), load("fffe81aa", fresh(1))), ((2, NIL, 1), (17, NIL, 1)))
    a = holding(0, 0, 0, 2, MOST - 1, 1, TOP)
    before = a.record
    check("the pair limit at each pair: 4 at the second", load("ff01ff0203", a), (4, NIL, 0))
    check("the record is the old one", a.record, before)
    check("the slots past its used lengths hold what the accepted calls wrote", (a.lists["firsts"][0], a.lists["rests"][0]), (small(2), small(3)))
    a.lent["bytes"] = 0
    check("15 where there is no room", load("8180", a), (15, NIL, 0))
    check("1 for the record", load("80", holding(0, 0, 0, 2, 0, 1, TOP + 1)), (1, NIL, 0))


def saves():
    a = fresh(TOP, DEEP)
    files.load(a, bytes.fromhex("ff82008001"))
    check("save", files.save(a, pair(0), 5), (0, bytes.fromhex("ff82008001")))
    check("19 writer's slice too short", files.save(a, pair(0), 4), (19, b""))
    check("5", files.save(a, pair(1), 0), (5, b""))
    a.lists["rests"][0] = pair(0)
    check("1 for a slot, before 19", files.save(a, pair(0), 0), (1, b""))
    a = fresh(TOP, DEEP)
    files.load(a, b"\xff" * 4095 + b"\x80" * 4096)
    top, _ = a.new_pair(pair(4094), NIL)
    check("4,096 levels are written", files.save(a, pair(4094), 8191), (0, b"\xff" * 4095 + b"\x80" * 4096))
    check("18 on entering level 4,097", files.save(a, top, 9999), (18, b""))
    a.record = a.record.but(atoms=1)
    a.lists["firsts"][0], a.lists["starts"][0] = stored(0), 1
    check("18 before 1", files.save(a, top, 9999), (18, b""))
    check("1 on level 4,096", files.save(a, pair(4094), 9999), (1, b""))
    check("19 at the first byte that doesn't fit, before 18", files.save(a, top, 4095), (19, b""))


def shown_files():
    """What the panel starts from."""
    check("counts of a file", panel.loaded(bytes.fromhex("ff81c005"), 8),
          ["bytes 4", "root 0", "count used ghost total", "atoms 1 3 4", "pairs 1 0 1", "heap 1 2 3",
           "pair 0", "  bytes 67108864 c0", "  small 134217733 05"])
    check("a refused one counts nothing", panel.loaded(b"\xfe", 8),
          ["bytes 1", "refused 17 at 0: bad encoding", "count used ghost total", "atoms 0 2 2", "pairs 0 0 0", "heap 0 1 1"])


def main():
    for group in (records, sound_records, p_cases, integers, the_run, limit_3, easy_to_get_wrong, restores, codes, concats, request_program, released,
                  forms, loads, saves, shown_files):
        group()
    for line in failed:
        print("FAILED " + line)
    print("%d checks passed" % passed + (", %d failed" % len(failed) if failed else ""))
    sys.exit(1 if failed else 0)


if __name__ == "__main__":
    main()
