#!/usr/bin/env python3
# Writes the traces that the program `traces` replays, data/NAME.trace, its arguments, args, and what it must print, stdout:
# `python3 crates/traces/make.py`. The texts are reckoned by the model of documents 01 and 02 in the folder model, which shares
# nothing with the code. To see where the program prints something else, after `rt ci`: diff crates/traces/stdout crates/traces/out/stdout
#
# Codes that no input reaches: 1, since a run's record and slots stay sound (proved: machine/proofs/Kept). 2 is reached only by a
# concat's size: new_atom and new_small_number would need a heap near 2^32, and 65,536 bytes of records cannot count so much; the 2
# of a restore would need a heap above the limit.
import os
import struct
import sys

HERE = os.path.dirname(os.path.abspath(__file__))
sys.path.insert(0, os.path.join(HERE, os.pardir, os.pardir))

from model import requests
from model.allocator import MOST, NIL, stored

ATOM = stored(0)        # the first Bytes node


def rec(kind, payload=b''):
    return struct.pack('<HH', len(payload), kind) + payload


def atom(b):
    return rec(1, bytes(b))


def pair(first, rest):
    return rec(2, struct.pack('<II', first, rest))


def substr(node, start, end):
    return rec(3, struct.pack('<III', node, start, end))


def concat(size, *nodes):
    return rec(4, struct.pack('<Q', size) + b''.join(struct.pack('<I', n) for n in nodes))


def small(v):
    return rec(5, struct.pack('<I', v))


def checkpoint():
    return rec(6)


def plain(i):
    return rec(7, struct.pack('<H', i))


def transparent(i):
    return rec(8, struct.pack('<H', i))


def maybe(i, node):
    return rec(9, struct.pack('<HI', i, node))


def add_pairs(n):
    return rec(10, struct.pack('<Q', n))


def remove_pairs(n):
    return rec(11, struct.pack('<Q', n))


def add_atoms(n):
    return rec(12, struct.pack('<Q', n))


def long(n, byte=0xff):
    """An atom of n bytes that is not small."""
    return atom(bytes([byte]) * n)


cases = {}

# ---- the shape of the text
cases['empty'] = b''
cases['example'] = bytes.fromhex(
    '02 00 01 00 00 80 0c 00 03 00 80 00 00 08 01 00 00 00 02 00 00 00 08 00 02 00 00 00 00 04 00 00 00 08')
cases['every-kind'] = b''.join([
    atom(b'\x01'), atom(b'hello'), pair(NIL, ATOM), substr(ATOM, 1, 3), concat(8, ATOM, ATOM + 1, NIL + 1), small(67_108_863), checkpoint(),
    long(2000), maybe(0, ATOM), transparent(0), add_pairs(5), remove_pairs(2), add_atoms(7), plain(0), pair(0, 0)])

# ---- atoms and small numbers
cases['small-atoms'] = b''.join(atom(bytes.fromhex(h)) for h in (
    '', '00', '7f', '80', '007f', '0080', '7fff', '8000', '00ff', '000080', '008000', '7fffff', '800000', '00800000', '03ffffff', '04000000', '0000000001'))
cases['small-numbers'] = b''.join(small(v) for v in (0, 1, 127, 128, 32767, 32768, 8388607, 8388608, 67108863))
cases['too-large-13'] = small(67108864) + small(4294967295) + small(1)

# ---- pairs, 5 and 6
cases['not-valid-5'] = b''.join([
    pair(0, NIL), pair(NIL, 0), pair(ATOM, NIL), pair(3 << 26, NIL), pair(NIL, 4294967295), substr(ATOM, 0, 0), concat(0, ATOM), concat(0, NIL, ATOM),
    substr(0, 0, 0), pair(NIL, NIL), pair(0, 0), pair(1, 2), pair(1, 1)])
cases['pair-for-atom-6'] = b''.join([
    pair(NIL, NIL), substr(0, 0, 0), concat(0, 0), concat(0, NIL, 0), concat(5, 0, NIL), concat(0, NIL, NIL)])

# ---- substr: 7, 8, 9
cases['substr-7-8-9'] = b''.join([
    atom(b'abcdef'), substr(ATOM, 7, 7), substr(ATOM, 6, 7), substr(ATOM, 3, 2), substr(ATOM, 7, 0), substr(ATOM, 6, 6), substr(ATOM, 0, 6),
    substr(ATOM + 1, 0, 0), substr(NIL, 1, 1), substr(NIL + 5, 0, 2), substr(NIL + 128, 2, 1), substr(NIL + 128, 3, 0), substr(ATOM, 4294967295, 0)])
cases['substr-of-small'] = b''.join([
    small(128), substr(NIL + 128, 1, 2), substr(NIL + 128, 0, 1), substr(NIL + 128, 0, 2), substr(NIL + 128, 1, 1), small(67108863),
    substr(NIL + 67108863, 1, 4), substr(NIL + 67108863, 0, 1), substr(NIL + 67108863, 0, 4), substr(NIL, 0, 0)])

# ---- concat: 10, 2
cases['concat-10'] = b''.join([
    atom(b'abc'), concat(0), concat(1), concat(3, ATOM), concat(2, ATOM), concat(6, ATOM, ATOM), concat(5, ATOM, ATOM), concat(7, ATOM, ATOM),
    concat(2, ATOM, NIL), concat(0, NIL + 1, NIL), concat(0, NIL, NIL), concat(1, NIL + 128, NIL), concat(3, NIL + 1, ATOM), concat(4, NIL + 1, ATOM),
    concat(4, ATOM, NIL + 1), concat(3, ATOM, 5 << 26), concat(2, ATOM, 5 << 26)])
cases['out-of-memory-2'] = b''.join([
    concat(2**64 - 1), concat(2**64 - 2), concat(4294967295), concat(4294967294), concat(2**32, NIL, 0), atom(b'x' * 10), concat(4294967294),
    concat(4294967285), concat(4294967284), concat(2**63, ATOM)])

# ---- ghosts: 3, 4, 14
cases['too-many-atoms-3'] = b''.join([
    add_atoms(MOST), add_atoms(MOST - 2), atom(b''), atom(b'abc'), small(1), small(67108864), substr(NIL, 0, 0), substr(0, 0, 0), concat(0),
    concat(2**64 - 1), add_atoms(0), add_atoms(1), add_atoms(2**64 - 1), pair(NIL, NIL), checkpoint(), maybe(0, NIL)])
cases['too-many-pairs-4'] = b''.join([
    add_pairs(MOST + 1), add_pairs(MOST), pair(NIL, NIL), pair(NIL, 0), add_pairs(0), add_pairs(1), add_pairs(2**64 - 1), remove_pairs(1), pair(NIL, NIL),
    pair(NIL, NIL)])
cases['too-few-ghosts-14'] = b''.join([
    remove_pairs(0), remove_pairs(1), add_pairs(3), remove_pairs(4), remove_pairs(2**64 - 1), remove_pairs(3), remove_pairs(1), pair(NIL, NIL), remove_pairs(1)])

# ---- checkpoints: 11, 12, 15, and what is released
cases['untaken-11'] = b''.join([
    plain(0), transparent(0), maybe(0, 5 << 26), checkpoint(), plain(0), plain(1), transparent(1), maybe(1, NIL), maybe(0, 5 << 26), plain(65535)])
cases['dead-11'] = b''.join([checkpoint(), atom(b'abc'), pair(NIL, ATOM), checkpoint(), plain(0), plain(1), transparent(1), maybe(1, NIL), atom(b'abcd'), pair(NIL, NIL), plain(1)])
cases['dead-but-usable-12'] = b''.join([checkpoint(), long(100), checkpoint(), plain(0), long(50), long(2000), maybe(1, ATOM + 1), maybe(1, ATOM), plain(1)])
cases['stale-slot-11'] = b''.join([checkpoint(), long(10), checkpoint(), plain(0), long(60), long(4), plain(1), transparent(1)])
cases['stale-pair-11'] = b''.join([checkpoint(), pair(NIL, NIL), checkpoint(), plain(0), long(9), pair(NIL, ATOM), plain(1), transparent(1), maybe(1, NIL)])
cases['plain-ghosts'] = b''.join([checkpoint(), small(128), long(20), pair(NIL, ATOM), add_pairs(3), plain(0), transparent(0), small(5)])
cases['transparent-totals'] = b''.join([checkpoint(), small(128), long(20), pair(NIL, ATOM), add_pairs(3), transparent(0), plain(0)])
cases['thirty-third-15'] = b''.join([checkpoint()] * 33 + [plain(31), plain(32), transparent(32), checkpoint(), maybe(32, NIL)])

# maybe_restore_with_node: both sides of 1024, 48, and the four answers
cases['savings-1023'] = b''.join([checkpoint(), long(959), long(48), maybe(0, ATOM + 1)])
cases['savings-1024'] = b''.join([checkpoint(), long(960), long(48), maybe(0, ATOM + 1)])
cases['clone-49'] = b''.join([checkpoint(), long(960), long(49), maybe(0, ATOM + 1)])
cases['clone-small'] = b''.join([checkpoint(), long(1100), atom(b''), concat(2, NIL + 128, NIL), maybe(0, ATOM + 1), substr(NIL + 128, 1, 2)])
cases['share-old-bytes'] = b''.join([long(40), checkpoint(), long(1100), substr(ATOM, 10, 20), maybe(0, ATOM + 2), substr(ATOM + 1, 0, 10), maybe(0, ATOM + 1)])
cases['no-replace'] = b''.join([long(40), pair(ATOM, NIL), checkpoint(), long(1100), pair(0, 0), maybe(0, ATOM), long(1100), maybe(0, 0), long(1100), maybe(0, NIL + 7)])
cases['aborted-pair'] = b''.join([checkpoint(), long(1100), pair(NIL, NIL), maybe(0, 0), maybe(0, 1), maybe(0, ATOM + 1), plain(0)])
cases['by-slots-alone'] = b''.join([checkpoint()] + [pair(NIL, NIL)] * 127 + [maybe(0, NIL), pair(NIL, NIL), maybe(0, NIL)])
cases['nested'] = b''.join([checkpoint(), long(1000), checkpoint(), long(1000), checkpoint(), long(1000), maybe(2, ATOM + 2), maybe(1, NIL), long(30), maybe(0, ATOM + 1), plain(0), plain(0)])

# ---- full stores: 15
cases['bytes-full-15'] = b''.join([long(32_767), long(2), atom(b'\x80'), atom(b'\x80'), atom(b'\x01'), substr(ATOM, 0, 5), small(128), substr(NIL + 128, 1, 2), concat(5, ATOM + 1, NIL + 67108863)])
cases['atom-slots-full-15'] = b''.join([atom(b'\x80')] * 2049 + [substr(ATOM, 0, 1), concat(2, ATOM, ATOM), concat(1, ATOM), atom(b''), pair(ATOM, ATOM + 2047)])
cases['pair-slots-full-15'] = b''.join([pair(NIL, NIL)] * 2049 + [pair(2047, 2048), pair(2047, 2047), checkpoint()])

# ---- bad records: 16
for n in (1, 2, 3):
    cases[f'left-{n}-16'] = small(7) + b'\0\0\6'[:n]
cases['cut-short-16'] = small(7) + atom(b'abcdef')[:-1]
cases['cut-short-longest-16'] = struct.pack('<HH', 65535, 1) + b'\xff' * 65532
for kind in (0, 13, 256, 65535):
    cases[f'kind-{kind}-16'] = small(7) + rec(kind) + small(8)
for kind, size in sorted(requests.SIZES.items()):
    for n in (size - 1, size + 1):
        if n >= 0:
            cases[f'kind-{kind}-of-{n}-16'] = checkpoint() + rec(kind, b'\0' * n) + small(8)
for n in (0, 4, 7, 9, 10, 11, 13):
    cases[f'kind-4-of-{n}-16'] = checkpoint() + rec(4, b'\0' * n) + small(8)

# ---- the longest input: 65,536 bytes, of the shortest records, of one atom, of concats
cases['longest-checkpoints'] = checkpoint() * 16384
cases['longest-atom'] = long(65532)
cases['longest-concat'] = concat(0, *[NIL] * 16380) + checkpoint()
cases['longest-pairs'] = (checkpoint() + b''.join(atom(bytes([i % 256, i % 251, i % 13])) + pair(NIL, NIL) + maybe(0, NIL) for i in range(2400)))[:65536]


# ---- one byte more: too long
cases['too-long'] = checkpoint() * 16384 + b'\0'


def main():
    data = os.path.join(HERE, 'data')
    for old in os.listdir(data):
        os.remove(os.path.join(data, old))
    with open(os.path.join(HERE, 'args'), 'w') as args, open(os.path.join(HERE, 'stdout'), 'w') as texts:
        for name, content in cases.items():
            file = name + '.trace'
            with open(os.path.join(data, file), 'wb') as trace:
                trace.write(content)
            args.write(file + '\n')
            texts.write('trace %s\n%s' % (file, requests.text(content)))


if __name__ == '__main__':
    main()
