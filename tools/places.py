#!/usr/bin/env python3
"""Counts the places of docs/DESIGN-PASS.md in crates/*/src that no short git grep finds, comments left out.

usage: tools/places.py WHAT [COMMIT]        at the top of the repository; the commit is HEAD unless it is given

loops    `while` loops: those that count a name of their condition by one, then the others
twins    functions whose bodies are equal without the types of numbers, literals and words such as bytes, slots, u64; then, rougher,
         those from 20 tokens on whose bodies are equal once each name is a number in the order in which it comes
byhand   the functions that were found, by reading, to write by hand what derive, From, Display and their like can; a name that is
         no more is not counted, one that stays is, even if its body is new
lists    functions with two, four and all five of the parameters bytes, starts, ends, firsts, rests; with starts and ends; with
         firsts and rests; with to, out and w; with out and w; with a place in a buffer that is lent to write
clauses  parts of requires and ensures that stand in three or more functions
travel   pairs of parameters, name and type, that stand together in three or more functions: how many, and the twelve most frequent
ifs      functions with two or more tests `if kind ..`
"""

import collections
import re
import subprocess
import sys

WHAT, COMMIT = sys.argv[1] if len(sys.argv) > 1 else "", sys.argv[2] if len(sys.argv) > 2 else "HEAD"
LISTS = {"bytes", "starts", "ends", "firsts", "rests"}
KEYWORDS = set("let mut if else match while for in loop return break as true false Ok Err Some None T".split())
BY_HAND = {
    "equality": """reads::agree reads::ahead reads::same reads::same_small script::same script::begins compare::compare
        compare::compare_bytes panel::is_dash script::is_none""",
    "order, least, bounded sums": """restores::within state::fit state::total state::above script::sum script::less script::within
        script::at_most concat::capped outline::capped panel::with_digit integer::within""",
    "copies": "octets::copy concat::copy_within script::copy state::moved machine::with_state machine::with_restored machine::keep trace::close",
    "conversion: codes, words, C answers, rows": """node::number_of words::record words::of_record words::plain words::of_plain
        words::counts words::of_counts clvm_allocator::of_number clvm_allocator::of_truth clvm_allocator::of_kind
        clvm_allocator::of_small clvm_allocator::of_fits clvm_allocator::of_visitor clvm_allocator::of_sexp clvm_allocator::of_status
        clvm_allocator::of_answer clvm_allocator::of_loaded clvm_allocator::of_verdict clvm_allocator::of_maybe answers::of_number
        answers::of_plain answers::of_option answers::of_visited answers::of_children answers::of_part answers/seen::of_status
        answers/seen::of_checkpoint answers::of_answer answers::of_restored answers::of_loaded answers::counts answers::checkpoint
        answers::record answers::keep_record""",
    "conversion: one answer type to another": """reads::truth reads::small_of reads::atom_arg reads::next reads::fill
        node::object_type node::index node::is_atom node::is_pair machine::of_made machine::of_changed machine::nodeless
        machine::shown_by restores::settle load::placed load::settled panel::value panel::last trace::column""",
    "conversion: numbers and their bytes or digits": """node::wide request::wide script::wide compare::wide compare::low
        request::u16_at request::wide_u32_at request::u32_at request::u64_at request::put_u32s node::read_be node::big node::put_be
        answers::big answers::shifted integer::bits_i64 answers::signed answers::below_zero script::digit script::longer
        script::decimal script::is_digit script::is_hex script/parse::byte script::pair panel::number""",
    "printing": """text::put text::put_number text::put_shown text::put_row text::put_head text::put_end text::put_long
        outline::room outline::put_byte outline::put outline::put_spaces outline::put_number outline::put_hex_byte outline::put_hex
        outline::write outline::flush outline::put_start outline::put_cut outline::put_bytes outline::put_atom outline::put_line
        panel::put_named panel::put_number panel::put_too_long panel::put_row panel::put_counts panel::put_words panel::put_refusal
        compare::say compare::said compare::place compare::numbers script::print""",
}


def git(*words):
    return subprocess.run(("git",) + words, capture_output=True, text=True, check=True).stdout


def end(t, i):
    """Behind the bracket that opens at i."""
    n = 0
    while True:
        n += (t[i] in "([{") - (t[i] in ")]}")
        i += 1
        if n == 0:
            return i


def split(s):
    """At commas outside brackets."""
    out, n, cur = [], 0, ""
    for k, c in enumerate(s):
        n += (c in "([{<") - (c in ")]}" or (c == ">" and s[k - 1] != "-"))
        if c == "," and n == 0:
            out, cur = out + [cur], ""
        else:
            cur += c
    return [x for x in (" ".join(y.split()) for y in out + [cur]) if x]


Fn = collections.namedtuple("Fn", "crate file line name params clauses body")


def functions(file, t):
    for m in re.finditer(r"\bfn\s+(\w+)\s*(?=[<(])", t):
        i, n = m.end(), 0
        while t[i] != "(" or n:
            n += (t[i] == "<") - (t[i] == ">" and t[i - 1] != "-")
            i += 1
        j = end(t, i)
        params, clauses = split(t[i + 1 : j - 1]), []
        while t[j] not in "{;":
            c = re.compile(r"\b(requires|ensures|decreases)\b[^{]*(?=\{)").match(t, j)
            k = end(t, c.end() if c else j) if c or t[j] in "([" else j + 1
            if c:
                clauses.append(" ".join(t[c.end() + 1 : k - 1].split()))
            j = k
        body = t[j : end(t, j)] if t[j] == "{" else ""
        yield Fn(file.split("/")[1], file, t[: m.start()].count("\n") + 1, m[1], params, clauses, body)


def clean(t):
    """No line of comment, and no bracket in a literal."""
    t = re.sub(r"(?m)^([ \t]*)//.*$", r"\1", t)
    t = re.sub(r"'[][(){}<>]'", "'_'", t)
    return re.sub(r'"(?:\\.|[^"\\])*"', lambda m: re.sub(r"[][(){}]", ".", m[0]), t, flags=re.S)


FILES = [f for f in git("ls-tree", "-r", "--name-only", COMMIT, "crates").split("\n") if re.match(r"crates/[^/]+/src/.*\.rt$", f)]
TEXT = {f: clean(git("show", f"{COMMIT}:{f}")) for f in FILES}
FUNCTIONS = [fn for f in FILES for fn in functions(f, TEXT[f])]
INNER = [f for f in FUNCTIONS if f.crate != "clvm_allocator_c"]  # the exports: each is a call of the crate beneath


def names(fn):
    return {re.sub(r"^mut ", "", p.split(":")[0].strip()) for p in fn.params}


def show(label, rows, most=0):
    """How many rows there are, how many in each crate, and the first ones."""
    rows = list(rows)
    by = collections.Counter(r[0] for r in rows)
    print(f"{label}: {len(rows)}", *[f"{k} {v}" for k, v in sorted(by.items())])
    for r in rows[:most]:
        print("   ", *r[1:])


def of(test):
    return [(f.crate, f"{f.file[7:-3]}:{f.line}", f.name) for f in FUNCTIONS if test(f)]


def loops():
    found = []
    for f in FUNCTIONS:
        for m in re.finditer(r"\bwhile ([^{]+)\{", f.body):
            body = f.body[m.end() - 1 : end(f.body, m.end() - 1)]
            counts = any(re.search(rf"\b{v} [+-]= 1;", body) for v in re.findall(r"\b[a-z_]\w*\b(?![(.:])", m[1]))
            at = TEXT[f.file].index(f.body, sum(len(x) + 1 for x in TEXT[f.file].split("\n")[: f.line - 1]))
            line = TEXT[f.file][: at + m.start()].count("\n") + 1
            found.append((counts, (f.crate, f"{f.file[7:-3]}:{line}", f.name, m[1].strip())))
    show("count by one", (r for c, r in found if c), 99)
    show("others", (r for c, r in found if not c), 99)


def twins(strict):
    groups = collections.defaultdict(list)
    for f in INNER:
        b = " ".join(re.findall(r"\w+|[^\w\s]", f.body))
        b = re.sub(r"\b([ui](8|16|32|64)|usize)\b", "T", b)
        b = re.sub(r"b ?'.'|\b\d\w*\b", "0", b)
        if strict:
            b = re.sub(r"(_?(u64|i64|u32|bytes?|slots?|atoms?|pairs?|words|counts|BYTES|SLOTS))(?=\b|_)", "N", b)
        else:
            seen = {}
            b = re.sub(r"\b[A-Za-z_]\w*\b", lambda m: m[0] if m[0] in KEYWORDS else seen.setdefault(m[0], f"x{len(seen)}"), b)
        if len(b.split()) >= (14 if strict else 20):
            groups[b].append(f)
    groups = sorted((g for g in groups.values() if len(g) > 1), key=lambda g: -len(g))
    print("equal" if strict else "rougher", f"{len(groups)} groups {sum(map(len, groups))} functions")
    for g in groups:
        print("   ", *[f"{f.file[7:-3]}:{f.line} {f.name};" for f in g])


def byhand():
    for k, v in BY_HAND.items():
        show(k, of(lambda f: {f"{f.crate}::{f.name}", f"{f.crate}/{f.file[:-3].split('/')[-1]}::{f.name}"} & set(v.split())), 99)


def lists():
    for k in 2, 4, 5:
        show(f"{k} of the five lists", of(lambda f: len(names(f) & LISTS) >= k))
    for group in ("starts", "ends"), ("firsts", "rests"), ("to", "out", "w"), ("out", "w"):
        show(", ".join(group), of(lambda f: set(group) <= names(f)))
    place = re.compile(r"(file|bytes): &mut \[u8\]")
    show("a place in a lent buffer", of(lambda f: f.crate in ("save", "concat") and "at" in names(f) and any(map(place.match, f.params))), 99)


def clauses():
    who = collections.defaultdict(set)
    for f in INNER:
        for x in f.clauses:
            for p in x.split(" × "):
                who[re.sub(r"^\((.*)\)$", r"\1", p.strip())].add((f.crate, f.file, f.line))
    for p, s in sorted(who.items(), key=lambda z: -len(z[1])):
        if len(s) >= 3:
            print(len(s), *[f"{k} {v}" for k, v in sorted(collections.Counter(a for a, _, _ in s).items())], "-", p)


def travel():
    c = collections.Counter()
    for f in INNER:
        ps = sorted({re.sub(r"'\w+ |mut ", "", p) for p in f.params})
        c.update((x, y) for i, x in enumerate(ps) for y in ps[i + 1 :])
    rows = [(n, x, y) for (x, y), n in c.most_common() if n >= 3]
    print(len(rows), "pairs of parameters")
    for n, x, y in rows[:12]:
        print("   ", n, "-", x, "|", y)


def ifs():
    show("two or more `if kind`", of(lambda f: len(re.findall(r"\bif kind (?:==|<=)", f.body)) > 1), 99)


DO = {"loops": [loops], "twins": [lambda: twins(True), lambda: twins(False)], "byhand": [byhand], "lists": [lists]}
DO |= {"clauses": [clauses], "travel": [travel], "ifs": [ifs]}
for do in DO.get(WHAT, [lambda: print(__doc__)]):
    do()
