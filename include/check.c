/* Checks that clvm_allocator.h and libclvm_allocator.a fit: every call, with answers that the rules fix, and on bad input. */
#include "clvm_allocator.h"

#include <stdio.h>
#include <string.h>

#define SLOTS 64
#define TOP UINT32_C(4294967295)

/* The slices that are lent. */
static uint8_t bytes[4096];
static uint32_t starts[SLOTS], ends[SLOTS], firsts[SLOTS], rests[SLOTS];

#define BYTES bytes, sizeof bytes
#define ATOMS starts, SLOTS, ends, SLOTS
#define PAIRS firsts, SLOTS, rests, SLOTS
#define STORE BYTES, ATOMS
#define NONE NULL, 0

_Static_assert(sizeof(clvm_counts) == 3 * sizeof(size_t), "three numbers in a row");
_Static_assert(sizeof(clvm_checkpoint) == 6 * sizeof(size_t), "six numbers in a row");
_Static_assert(sizeof(clvm_allocator) == 7 * sizeof(size_t), "seven numbers in a row");
_Static_assert(offsetof(clvm_loaded, at) == offsetof(clvm_number, value), "code and node, then the place");
_Static_assert(sizeof(clvm_loaded) == sizeof(clvm_number), "nothing behind the place");

static int checks, failed;

static void check_at(int line, int holds, const char *what) {
    checks++;
    if (!holds) {
        failed++;
        printf("line %d: %s\n", line, what);
    }
}

#define CHECK(fact) check_at(__LINE__, (fact), #fact)

static int same_counts(clvm_counts x, clvm_counts y) {
    return x.atoms == y.atoms && x.pairs == y.pairs && x.bytes == y.bytes;
}

static int same_checkpoint(clvm_checkpoint x, clvm_checkpoint y) {
    return same_counts(x.used, y.used) && same_counts(x.ghosts, y.ghosts);
}

static int same_record(clvm_allocator x, clvm_allocator y) {
    return same_counts(x.used, y.used) && same_counts(x.ghosts, y.ghosts) && x.limit == y.limit;
}

static int totals(const clvm_allocator *a, size_t atoms, size_t pairs, size_t heap) {
    return clvm_atom_count(a).value == atoms && clvm_pair_count(a).value == pairs && clvm_heap_size(a).value == heap;
}

static int well_formed(const clvm_allocator *a) {
    return clvm_well_formed(a, STORE, PAIRS) == 1;
}

static clvm_allocator fresh(size_t limit) {
    clvm_allocator a;
    clvm_new_limited(&a, limit);
    return a;
}

static clvm_checkpoint checkpoint_of(const clvm_allocator *a) {
    clvm_checkpoint plain;
    CHECK(clvm_checkpoint_of(a, &plain).code == 0);
    return plain;
}

static const uint8_t zeros[2048];
static const uint8_t padded[2] = {0x00, 0x80};

/* A fresh record, whatever was there before, and what is refused. */
static void check_record(void) {
    clvm_allocator a;
    memset(&a, 0xdd, sizeof a);
    clvm_answer made = clvm_new_limited(&a, TOP);
    CHECK(made.code == 0 && made.node == CLVM_NIL);
    CHECK(totals(&a, 2, 0, 1) && a.limit == TOP);
    CHECK(clvm_allocated_atom_count(&a).value == 0);
    CHECK(clvm_allocated_pair_count(&a).value == 0);
    CHECK(clvm_allocated_heap_size(&a).value == 0);

    clvm_allocator over;
    memset(&over, 0xdd, sizeof over);
    made = clvm_new_limited(&over, (size_t)TOP + 1);
    CHECK(made.code == CLVM_UNSOUND && made.node == CLVM_NIL && same_record(over, fresh(0)));

    clvm_allocator bad = a;
    bad.used.bytes = SIZE_MAX;
    clvm_number count = clvm_heap_size(&bad);
    CHECK(count.code == CLVM_UNSOUND && count.node == CLVM_NIL && count.value == 0);
    CHECK(clvm_well_formed(&bad, STORE, PAIRS) == 0);
    CHECK(clvm_well_formed(&a, NONE, NONE, NONE, NONE, NONE) == 1);
}

/* A checkpoint is written whole, with nothing behind it; a refusal leaves it as it was. */
static void check_checkpoints(void) {
    struct {
        clvm_checkpoint k;
        size_t behind;
    } plain = {{{1, 2, 3}, {4, 5, 6}}, 7};
    struct {
        clvm_counts k;
        size_t behind;
    } mark = {{1, 2, 3}, 4};
    clvm_allocator a = fresh(TOP), bad = a;
    bad.used.bytes = SIZE_MAX;

    clvm_answer taken = clvm_checkpoint_of(&bad, &plain.k);
    CHECK(taken.code == CLVM_UNSOUND && taken.node == CLVM_NIL);
    CHECK(same_checkpoint(plain.k, (clvm_checkpoint){{1, 2, 3}, {4, 5, 6}}) && plain.behind == 7);
    taken = clvm_transparent_checkpoint(&bad, &mark.k);
    CHECK(taken.code == CLVM_UNSOUND && taken.node == CLVM_NIL);
    CHECK(same_counts(mark.k, (clvm_counts){1, 2, 3}) && mark.behind == 4);

    taken = clvm_checkpoint_of(&a, &plain.k);
    CHECK(taken.code == 0 && taken.node == CLVM_NIL && same_counts(plain.k.used, a.used));
    CHECK(same_counts(plain.k.ghosts, a.ghosts) && plain.behind == 7);
    taken = clvm_transparent_checkpoint(&a, &mark.k);
    CHECK(taken.code == 0 && taken.node == CLVM_NIL && same_counts(mark.k, a.used) && mark.behind == 4);
}

/* A node's bits, and small atoms. */
static void check_bits(void) {
    CHECK(clvm_object_type(CLVM_NIL).value == CLVM_SMALL_ATOM);
    CHECK(clvm_object_type(67108864).value == CLVM_BYTES);
    CHECK(clvm_object_type(7).value == CLVM_PAIR);
    CHECK(clvm_object_type(UINT32_MAX).code == CLVM_NOT_VALID);
    CHECK(clvm_index(67108864 + 9).value == 9);
    CHECK(clvm_is_atom(CLVM_NIL).value == 1 && clvm_is_atom(7).value == 0);
    CHECK(clvm_is_pair(CLVM_NIL).value == 0 && clvm_is_pair(7).value == 1);

    static const struct {
        uint8_t v[4];
        size_t len;
        uint32_t some, value;
    } rows[] = {
        {{0}, 0, 1, 0},
        {{0x00}, 1, 0, 0},
        {{0x7f}, 1, 1, 127},
        {{0x80}, 1, 0, 0},
        {{0x00, 0x7f}, 2, 0, 0},
        {{0x00, 0x80}, 2, 1, 128},
        {{0x03, 0xff, 0xff, 0xff}, 4, 1, 67108863},
        {{0x04, 0x00, 0x00, 0x00}, 4, 0, 0},
    };
    for (size_t i = 0; i < sizeof rows / sizeof rows[0]; i++) {
        clvm_option fit = clvm_fits_in_small_atom(rows[i].v, rows[i].len);
        CHECK(fit.code == 0 && fit.node == CLVM_NIL && fit.some == rows[i].some && fit.value == rows[i].value);
    }
    CHECK(clvm_fits_in_small_atom(NULL, 0).some == 1);
    CHECK(clvm_len_for_value(0) == 0 && clvm_len_for_value(127) == 1 && clvm_len_for_value(128) == 2);
}

/* The example trace: an atom, a part of it, a pair; then what is refused. */
static clvm_allocator check_trace(void) {
    clvm_allocator a = fresh(TOP);
    clvm_answer atom = clvm_new_atom(&a, STORE, padded, 2);
    CHECK(atom.code == 0 && atom.node == 134217856 && totals(&a, 3, 0, 3));
    clvm_answer part = clvm_new_substr(&a, STORE, atom.node, 1, 2);
    CHECK(part.code == 0 && part.node == 67108864 && totals(&a, 4, 0, 4));
    clvm_answer pair = clvm_new_pair(&a, PAIRS, part.node, CLVM_NIL);
    CHECK(pair.code == 0 && pair.node == 0 && totals(&a, 4, 1, 4));
    CHECK(well_formed(&a));

    clvm_allocator before = a;
    clvm_answer wrong = clvm_new_substr(&a, STORE, 67108864, 2, 2);
    CHECK(wrong.code == CLVM_START_OUT_OF_BOUNDS && wrong.node == 67108864 && same_record(a, before));
    wrong = clvm_new_atom(&a, bytes, 1, ATOMS, zeros, 5);
    CHECK(wrong.code == CLVM_FULL && wrong.node == CLVM_NIL && same_record(a, before));
    return a;
}

/* Every read of the example trace; none changes the record. */
static void check_found(clvm_allocator a) {
    clvm_allocator before = a;
    clvm_visited seen = clvm_node(&a, ATOMS, PAIRS, 0);
    CHECK(seen.code == 0 && seen.kind == CLVM_PAIR && seen.first == 67108864 && seen.second == CLVM_NIL);
    seen = clvm_node(&a, ATOMS, PAIRS, 67108864);
    CHECK(seen.kind == CLVM_BYTES && seen.first == 0 && seen.second == 1 && bytes[0] == 0x80);
    seen = clvm_node(&a, ATOMS, PAIRS, 134217856);
    CHECK(seen.kind == CLVM_SMALL_ATOM && seen.first == 128 && seen.second == 0);
    CHECK(clvm_node(&a, ATOMS, PAIRS, 1).code == CLVM_NOT_VALID);
    clvm_children below = clvm_sexp(&a, PAIRS, 0);
    CHECK(below.code == 0 && below.is_pair == 1 && below.first == 67108864 && below.rest == CLVM_NIL);
    CHECK(clvm_sexp(&a, PAIRS, CLVM_NIL).is_pair == 0);
    CHECK(clvm_next(&a, PAIRS, 0).is_pair == 1 && clvm_next(&a, PAIRS, 67108864).is_pair == 0);

    uint8_t scratch[4] = {9, 9, 9, 9};
    clvm_part found = clvm_atom(&a, STORE, scratch, 4, 67108864);
    CHECK(found.code == 0 && found.place == CLVM_IN_BYTES && found.offset == 0 && found.length == 1);
    CHECK(scratch[0] == 9 && scratch[3] == 9);
    found = clvm_atom(&a, STORE, scratch, 4, 134217856);
    CHECK(found.code == 0 && found.place == CLVM_IN_SCRATCH && found.offset == 2 && found.length == 2);
    CHECK(scratch[0] == 0 && scratch[1] == 0 && scratch[2] == 0 && scratch[3] == 0x80);
    found = clvm_atom(&a, STORE, scratch, 3, 134217856);
    CHECK(found.code == CLVM_FULL && found.node == CLVM_NIL && found.length == 0);
    found = clvm_atom(&a, STORE, scratch, 4, 0);
    CHECK(found.code == CLVM_EXPECTED_ATOM && found.node == 0);

    CHECK(clvm_atom_len(&a, ATOMS, 134217856).value == 2);
    CHECK(clvm_small_number(&a, STORE, 134217856).value == 128);
    CHECK(clvm_small_number(&a, STORE, 67108864).some == 0);
    CHECK(clvm_atom_eq(&a, STORE, 67108864, 67108864).value == 1);
    CHECK(clvm_atom_eq(&a, STORE, 67108864, 134217856).value == 0);
    CHECK(clvm_atom_eq(&a, STORE, 67108864, 0).code == CLVM_EXPECTED_ATOM);
    CHECK(same_record(a, before));
}

/* Integers, and concat. */
static void check_creation(void) {
    clvm_allocator a = fresh(TOP);
    clvm_answer made = clvm_new_i64(&a, STORE, -129);
    CHECK(made.code == 0 && made.node == 67108864 && bytes[0] == 0xff && bytes[1] == 0x7f);
    made = clvm_new_i64(&a, STORE, -128);
    CHECK(made.code == 0 && bytes[2] == 0x80 && a.used.bytes == 3);
    made = clvm_new_u64(&a, STORE, UINT64_MAX);
    CHECK(made.code == 0 && a.used.bytes == 12 && bytes[3] == 0 && bytes[11] == 0xff);
    made = clvm_new_small_number(&a, 67108863);
    CHECK(made.code == 0 && made.node == 134217728 + 67108863);
    clvm_allocator before = a;
    CHECK(clvm_new_small_number(&a, 67108864).code == CLVM_TOO_LARGE && same_record(a, before));

    uint32_t terms[2] = {67108864, 67108865};
    clvm_answer joined = clvm_new_concat(&a, STORE, 2, terms, 2);
    CHECK(joined.code == CLVM_INVALID_SIZE && joined.node == terms[1] && same_record(a, before));
    joined = clvm_new_concat(&a, STORE, SIZE_MAX, terms, 2);
    CHECK(joined.code == CLVM_OUT_OF_MEMORY && same_record(a, before));
    joined = clvm_new_concat(&a, STORE, 3, terms, 2);
    CHECK(joined.code == 0 && joined.node == 67108864 + 3 && memcmp(bytes + 12, "\xff\x7f\x80", 3) == 0);
    CHECK(a.used.atoms == 4 && a.used.bytes == 15);
    joined = clvm_new_concat(&a, STORE, 0, NONE);
    CHECK(joined.code == 0 && joined.node == CLVM_NIL && well_formed(&a));
}

static void check_ghosts(void) {
    clvm_allocator a = fresh(TOP);
    clvm_answer done = clvm_add_ghost_pair(&a, 62500000);
    CHECK(done.code == 0 && done.node == CLVM_NIL && clvm_pair_count(&a).value == 62500000);
    clvm_allocator before = a;
    CHECK(clvm_new_pair(&a, PAIRS, CLVM_NIL, CLVM_NIL).code == CLVM_TOO_MANY_PAIRS && same_record(a, before));
    CHECK(clvm_add_ghost_pair(&a, SIZE_MAX).code == CLVM_TOO_MANY_PAIRS && same_record(a, before));
    done = clvm_remove_ghost_pair(&a, 62500000);
    CHECK(done.code == 0 && done.node == CLVM_NIL && same_record(a, fresh(TOP)));
    CHECK(clvm_remove_ghost_pair(&a, 1).code == CLVM_TOO_FEW_GHOSTS && same_record(a, fresh(TOP)));
    done = clvm_add_ghost_atom(&a, 62499998);
    CHECK(done.code == 0 && done.node == CLVM_NIL && clvm_atom_count(&a).value == 62500000);
    before = a;
    CHECK(clvm_add_ghost_atom(&a, 1).code == CLVM_TOO_MANY_ATOMS && same_record(a, before));
    CHECK(clvm_new_small_number(&a, 0).code == CLVM_TOO_MANY_ATOMS && same_record(a, before));
}

/* Limit 3: a part may pass the limit, and then no atom is made. */
static void check_limit(void) {
    clvm_allocator a = fresh(3);
    clvm_answer atom = clvm_new_atom(&a, STORE, padded, 2);
    clvm_answer part = clvm_new_substr(&a, STORE, atom.node, 1, 2);
    CHECK(part.code == 0 && clvm_heap_size(&a).value == 4 && well_formed(&a));
    clvm_allocator before = a;
    clvm_answer empty = clvm_new_atom(&a, STORE, NONE);
    CHECK(empty.code == CLVM_OUT_OF_MEMORY && empty.node == CLVM_NIL && same_record(a, before));
}

/* Two atoms after a checkpoint, and a restore that is to keep the second. */
static clvm_restored restore_of(clvm_allocator *a, size_t first, size_t second) {
    clvm_counts mark;
    *a = fresh(TOP);
    CHECK(clvm_transparent_checkpoint(a, &mark).code == 0);
    CHECK(clvm_new_atom(a, STORE, zeros, first).code == 0);
    clvm_answer last = clvm_new_atom(a, STORE, zeros, second);
    clvm_status status = clvm_checkpoint_node_status(a, ATOMS, &mark, last.node);
    CHECK(status.code == 0 && status.status == CLVM_AFTER_NEW_BYTES);
    return clvm_maybe_restore_with_node(a, STORE, PAIRS, &mark, last.node);
}

static void check_savings(void) {
    clvm_allocator a;
    clvm_restored back = restore_of(&a, 959, 48);
    CHECK(back.code == 0 && back.outcome == CLVM_ABORTED && back.node == CLVM_NIL);
    CHECK(a.used.atoms == 2 && a.used.bytes == 1007);
    back = restore_of(&a, 960, 48);
    CHECK(back.code == 0 && back.outcome == CLVM_REPLACE && back.node == 67108864);
    CHECK(a.used.bytes == 48 && a.ghosts.atoms == 3 && a.ghosts.bytes == 961);
    CHECK(totals(&a, 4, 0, 1009) && well_formed(&a));
    back = restore_of(&a, 960, 49);
    CHECK(back.code == 0 && back.outcome == CLVM_ABORTED);
}

static void check_restores(void) {
    clvm_allocator a = fresh(TOP), grown = a;
    clvm_checkpoint plain = checkpoint_of(&a);
    CHECK(clvm_new_atom(&grown, STORE, zeros, 2000).code == 0);
    clvm_checkpoint later = checkpoint_of(&grown);

    clvm_allocator kept = grown;
    clvm_restored back = clvm_maybe_restore_with_node(&kept, STORE, PAIRS, &plain.used, CLVM_NIL);
    CHECK(back.code == 0 && back.outcome == CLVM_NO_REPLACE && back.node == CLVM_NIL && kept.used.atoms == 0);
    clvm_allocator cut = grown;
    clvm_answer done = clvm_restore_transparent_checkpoint(&cut, ATOMS, PAIRS, &plain.used);
    CHECK(done.code == 0 && done.node == CLVM_NIL && cut.used.bytes == 0 && totals(&cut, 3, 0, 2001));
    CHECK(same_record(cut, kept));
    clvm_allocator all = grown;
    done = clvm_restore_checkpoint(&all, ATOMS, PAIRS, &plain);
    CHECK(done.code == 0 && done.node == CLVM_NIL && same_record(all, a));
    done = clvm_restore_checkpoint(&all, ATOMS, PAIRS, &later);
    CHECK(done.code == CLVM_NOT_USABLE && done.node == CLVM_NIL && same_record(all, a));
}

/* A dead checkpoint that is usable: the node's bytes lie across it. */
static void check_dead(void) {
    clvm_allocator a = fresh(TOP);
    clvm_checkpoint first = checkpoint_of(&a);
    CHECK(clvm_new_atom(&a, STORE, zeros, 100).code == 0);
    clvm_checkpoint second = checkpoint_of(&a);
    CHECK(clvm_restore_checkpoint(&a, ATOMS, PAIRS, &first).code == 0);
    CHECK(clvm_new_atom(&a, STORE, zeros, 50).code == 0);
    clvm_answer last = clvm_new_atom(&a, STORE, zeros, 2000);
    clvm_status status = clvm_checkpoint_node_status(&a, ATOMS, &second.used, last.node);
    CHECK(status.status == CLVM_AFTER_OLD_BYTES && status.start == 50 && status.end == 2050);
    clvm_allocator before = a;
    clvm_restored back = clvm_maybe_restore_with_node(&a, STORE, PAIRS, &second.used, last.node);
    CHECK(back.code == CLVM_INVALID_RANGE && back.node == CLVM_NIL && same_record(a, before));
}

/* ---- program files */

#define LEVELS 4096

/* Slices and a file for the most levels. */
static uint32_t deep_firsts[LEVELS], deep_rests[LEVELS];
static uint8_t deep_file[2 * LEVELS];

#define DEEP deep_firsts, LEVELS, deep_rests, LEVELS

/* (7f . (80 80 . "hello")): a small atom, a stored one of two bytes, and one of five. */
static const uint8_t sample[] = {0xff, 0x7f, 0xff, 0x82, 0x80, 0x80, 0x85, 'h', 'e', 'l', 'l', 'o'};

static int refused_at(clvm_loaded got, uint32_t code, size_t at) {
    return got.code == code && got.node == CLVM_NIL && got.at == at;
}

static int refused_write(clvm_number got, uint32_t code) {
    return got.code == code && got.node == CLVM_NIL && got.value == 0;
}

/* A file into the slots and back. */
static void check_file(void) {
    clvm_allocator a = fresh(TOP);
    clvm_loaded got = clvm_load(&a, STORE, PAIRS, sample, sizeof sample);
    CHECK(got.code == 0 && got.node == 1 && got.at == sizeof sample);
    CHECK(a.used.atoms == 2 && a.used.pairs == 2 && a.used.bytes == 7 && totals(&a, 5, 2, 9) && well_formed(&a));
    CHECK(firsts[1] == CLVM_NIL + 127 && rests[1] == 0 && firsts[0] == 67108864 && rests[0] == 67108865);
    CHECK(memcmp(bytes, "\x80\x80hello", 7) == 0);

    uint8_t file[16];
    for (size_t room = 0; room <= sizeof file; room++) {
        memset(file, 0xdd, sizeof file);
        clvm_number put = clvm_save(&a, STORE, PAIRS, got.node, file, room);
        size_t written = room < sizeof sample ? 0 : sizeof sample;
        CHECK(written == 0 ? refused_write(put, CLVM_NO_SPACE) : put.code == 0 && put.node == CLVM_NIL && put.value == written);
        CHECK(memcmp(file, sample, written) == 0);
        for (size_t i = written; i < sizeof file; i++)
            CHECK(file[i] == 0xdd);
    }
    CHECK(refused_write(clvm_save(&a, STORE, PAIRS, got.node, NONE), CLVM_NO_SPACE));

    /* a longer prefix reads the same and is written as the shortest */
    static const uint8_t longer[] = {0xf8, 0x00, 0x00, 0x00, 0x05, 'h', 'e', 'l', 'l', 'o'};
    got = clvm_load(&a, STORE, PAIRS, longer, sizeof longer);
    CHECK(got.code == 0 && got.node == 67108866 && got.at == sizeof longer);
    clvm_number put = clvm_save(&a, STORE, PAIRS, got.node, file, sizeof file);
    CHECK(put.code == 0 && put.value == 6 && memcmp(file, "\x85hello", 6) == 0);
    put = clvm_save(&a, STORE, PAIRS, CLVM_NIL, file, 1);
    CHECK(put.code == 0 && put.value == 1 && file[0] == 0x80);
    put = clvm_save(&a, STORE, PAIRS, CLVM_NIL + 128, file, 3);
    CHECK(put.code == 0 && put.value == 3 && memcmp(file, "\x82\x00\x80", 3) == 0);
}

/* Files that are none: the record is as it was, and the code and the place are those of the first fault. */
static void check_bad_files(void) {
    static const struct {
        uint8_t file[6];
        size_t len, at;
    } rows[] = {
        {{0}, 0, 0},
        {{0xfc, 0x00, 0x00, 0x00, 0x00, 0x00}, 6, 0},
        {{0xfd, 0x00, 0x00, 0x00, 0x00, 0x00}, 6, 0},
        {{0xfe, 0x00, 0x00, 0x00, 0x00, 0x00}, 6, 0},
        {{0x82, 'a'}, 2, 0},
        {{0xc0}, 1, 0},
        {{0xfb, 0xff, 0xff, 0xff, 0xff, 'a'}, 6, 0},
        {{0xff}, 1, 1},
        {{0xff, 0x80}, 2, 2},
        {{0xff, 0x82, 'a', 'b', 0xfe}, 5, 4},
        {{0x01, 0x02}, 2, 1},
        {{0xff, 0x01, 0x02, 0xff}, 4, 3},
    };
    clvm_allocator a = fresh(TOP);
    CHECK(clvm_load(&a, STORE, PAIRS, sample, sizeof sample).code == 0);
    clvm_allocator before = a;
    for (size_t i = 0; i < sizeof rows / sizeof rows[0]; i++)
        CHECK(refused_at(clvm_load(&a, STORE, PAIRS, rows[i].file, rows[i].len), CLVM_BAD_ENCODING, rows[i].at));
    CHECK(refused_at(clvm_load(&a, STORE, PAIRS, NONE), CLVM_BAD_ENCODING, 0));
    for (size_t len = 0; len < sizeof sample; len++)
        CHECK(clvm_load(&a, STORE, PAIRS, sample, len).code == CLVM_BAD_ENCODING);
    CHECK(same_record(a, before) && well_formed(&a));
}

/* What the reader's calls refuse, in mid-file. */
static void check_file_limits(void) {
    size_t len = sizeof sample;
    clvm_allocator a = fresh(7), before = a;
    memset(bytes, 0xdd, sizeof bytes);
    CHECK(refused_at(clvm_load(&a, STORE, PAIRS, sample, len), CLVM_OUT_OF_MEMORY, 6) && same_record(a, before));
    CHECK(bytes[0] == 0x80 && bytes[1] == 0x80 && bytes[2] == 0xdd);
    a = fresh(9);
    CHECK(clvm_load(&a, STORE, PAIRS, sample, len).code == 0);

    a = before = (clvm_allocator){{0, 0, 0}, {62499998, 0, 1}, TOP};
    CHECK(refused_at(clvm_load(&a, STORE, PAIRS, sample, len), CLVM_TOO_MANY_ATOMS, 6) && same_record(a, before));
    a = before = (clvm_allocator){{0, 0, 0}, {2, 62499999, 1}, TOP};
    CHECK(refused_at(clvm_load(&a, STORE, PAIRS, sample, len), CLVM_TOO_MANY_PAIRS, 0) && same_record(a, before));

    a = before = fresh(TOP);
    CHECK(refused_at(clvm_load(&a, bytes, 6, ATOMS, PAIRS, sample, len), CLVM_FULL, 6));
    CHECK(refused_at(clvm_load(&a, BYTES, starts, 1, ends, SLOTS, PAIRS, sample, len), CLVM_FULL, 6));
    CHECK(refused_at(clvm_load(&a, BYTES, starts, SLOTS, ends, 0, PAIRS, sample, len), CLVM_FULL, 3));
    CHECK(refused_at(clvm_load(&a, STORE, firsts, 1, rests, SLOTS, sample, len), CLVM_FULL, 0));
    CHECK(refused_at(clvm_load(&a, STORE, firsts, SLOTS, rests, 0, sample, len), CLVM_FULL, 2));
    CHECK(same_record(a, before));
    CHECK(clvm_load(&a, bytes, 7, starts, 2, ends, 2, firsts, 2, rests, 2, sample, len).code == 0);

    clvm_allocator bad = a, given = a;
    bad.used.bytes = given.used.bytes = SIZE_MAX;
    CHECK(refused_at(clvm_load(&bad, STORE, PAIRS, sample, len), CLVM_UNSOUND, 0) && same_record(bad, given));
    CHECK(refused_write(clvm_save(&bad, STORE, PAIRS, 1, deep_file, sizeof deep_file), CLVM_UNSOUND));
}

/* Nodes that cannot be written: 5, and 1 for a slot that must be read. */
static void check_bad_nodes(void) {
    clvm_allocator a = fresh(TOP);
    uint8_t file[16] = {9};
    CHECK(clvm_load(&a, STORE, PAIRS, sample, sizeof sample).node == 1);
    CHECK(refused_write(clvm_save(&a, STORE, PAIRS, 2, file, sizeof file), CLVM_NOT_VALID));
    CHECK(refused_write(clvm_save(&a, STORE, PAIRS, UINT32_MAX, file, sizeof file), CLVM_NOT_VALID));
    CHECK(refused_write(clvm_save(&a, STORE, PAIRS, 2, NONE), CLVM_NOT_VALID));
    firsts[0] = 67108866;
    CHECK(refused_write(clvm_save(&a, STORE, PAIRS, 1, file, sizeof file), CLVM_UNSOUND));
    firsts[0] = 67108864;
    ends[1] = 8;
    CHECK(refused_write(clvm_save(&a, STORE, PAIRS, 1, file, sizeof file), CLVM_UNSOUND));
    CHECK(file[0] == 9 && file[1] == 0);
}

/* The most levels, and one too many: pairs along first, then along rest. */
static void check_levels(void) {
    clvm_allocator a = fresh(TOP), before = a;
    memset(deep_file, 0xff, LEVELS);
    memset(deep_file + LEVELS - 1, 0x05, LEVELS);
    clvm_loaded got = clvm_load(&a, STORE, DEEP, deep_file, 2 * LEVELS - 1);
    CHECK(got.code == 0 && got.node == LEVELS - 2 && got.at == 2 * LEVELS - 1 && a.used.pairs == LEVELS - 1);
    clvm_number put = clvm_save(&a, STORE, DEEP, got.node, deep_file, 2 * LEVELS - 1);
    CHECK(put.code == 0 && put.value == 2 * LEVELS - 1);
    clvm_answer over = clvm_new_pair(&a, DEEP, got.node, CLVM_NIL);
    put = clvm_save(&a, STORE, DEEP, over.node, deep_file, sizeof deep_file);
    CHECK(over.code == 0 && refused_write(put, CLVM_TOO_DEEP));
    put = clvm_save(&a, STORE, DEEP, over.node, deep_file, LEVELS - 1);
    CHECK(refused_write(put, CLVM_NO_SPACE));

    a = before;
    CHECK(refused_at(clvm_load(&a, STORE, DEEP, deep_file, LEVELS - 1), CLVM_BAD_ENCODING, LEVELS - 1));
    deep_file[LEVELS - 1] = 0xff;
    CHECK(refused_at(clvm_load(&a, STORE, DEEP, deep_file, LEVELS), CLVM_TOO_DEEP, LEVELS) && same_record(a, before));

    for (size_t i = 0; i < 2 * LEVELS; i += 2) {
        deep_file[i] = 0xff;
        deep_file[i + 1] = 0x05;
    }
    CHECK(refused_at(clvm_load(&a, STORE, DEEP, deep_file, 2 * LEVELS), CLVM_TOO_DEEP, 2 * LEVELS - 1));
    CHECK(same_record(a, before));
    deep_file[2 * LEVELS - 2] = 0x05;
    got = clvm_load(&a, STORE, DEEP, deep_file, 2 * LEVELS - 1);
    CHECK(got.code == 0 && got.at == 2 * LEVELS - 1 && clvm_well_formed(&a, STORE, DEEP) == 1);
}

/* ---- bad input: any numbers, and any slices with true lengths, get an answer or a code */

static uint64_t seed = 88172645463325252u;

static uint64_t next_random(void) {
    seed ^= seed << 13;
    seed ^= seed >> 7;
    seed ^= seed << 17;
    return seed;
}

/* Mostly small numbers, and those at the limits. */
static size_t any_number(void) {
    static const size_t edges[] = {0, 62499998, 62500000, 62500001, TOP, (size_t)TOP + 1, SIZE_MAX - 1, SIZE_MAX};
    uint64_t r = next_random();
    return r % 4 != 0 ? (r >> 8) % 12 : r % 8 == 0 ? edges[(r >> 8) % 8] : r >> (r >> 58);
}

static clvm_counts any_counts(void) {
    clvm_counts k = {any_number(), any_number(), any_number()};
    return k;
}

/* A node of any kind, or no node at all. */
static uint32_t any_node(void) {
    return (uint32_t)(next_random() % 5 << 26) + (uint32_t)any_number();
}

/* All that is lent: slices, each with slots behind it that are not lent, then a record and checkpoints. */
typedef struct world {
    uint8_t bytes[SLOTS];
    uint32_t starts[SLOTS], ends[SLOTS], firsts[SLOTS], rests[SLOTS];
    clvm_allocator a;
    clvm_counts mark;
    clvm_checkpoint plain;
} world;

static world lent, given;
static size_t bytes_len, starts_len, ends_len, firsts_len, rests_len;

#define LENT_ATOMS lent.starts, starts_len, lent.ends, ends_len
#define LENT_PAIRS lent.firsts, firsts_len, lent.rests, rests_len
#define LENT_STORE lent.bytes, bytes_len, LENT_ATOMS

static void any_world(void) {
    for (size_t i = 0; i < SLOTS; i++) {
        lent.bytes[i] = (uint8_t)next_random();
        lent.starts[i] = (uint32_t)any_number();
        lent.ends[i] = (uint32_t)any_number();
        lent.firsts[i] = any_node();
        lent.rests[i] = any_node();
    }
    bytes_len = next_random() % SLOTS;
    starts_len = next_random() % 16;
    ends_len = next_random() % 16;
    firsts_len = next_random() % 16;
    rests_len = next_random() % 16;
    lent.a = (clvm_allocator){any_counts(), any_counts(), any_number()};
    lent.mark = any_counts();
    lent.plain = (clvm_checkpoint){lent.mark, any_counts()};
    given = lent;
}

static int kept(const void *now, const void *before, size_t from, size_t size) {
    return memcmp((const char *)now + from * size, (const char *)before + from * size, (SLOTS - from) * size) == 0;
}

/* What was not lent is as it was; after a refusal all is. */
static int slots_kept(uint32_t code) {
    int all = code != 0;
    return kept(lent.bytes, given.bytes, all ? 0 : bytes_len, 1) && kept(lent.starts, given.starts, all ? 0 : starts_len, 4) &&
           kept(lent.ends, given.ends, all ? 0 : ends_len, 4) && kept(lent.firsts, given.firsts, all ? 0 : firsts_len, 4) &&
           kept(lent.rests, given.rests, all ? 0 : rests_len, 4);
}

/* The same, and the record is as it was after a refusal. The checkpoints, which lie behind it, always are. */
static int answered(uint32_t code) {
    return code <= CLVM_FULL && slots_kept(code) && (code == 0 || same_record(lent.a, given.a)) &&
           same_counts(lent.mark, given.mark) && same_checkpoint(lent.plain, given.plain);
}

static int read_only(uint32_t code) {
    return code <= CLVM_FULL && memcmp(&lent, &given, sizeof lent) == 0;
}

/* A refused load may have written past the used lengths, within what it was lent. */
static int unread(const void *now, const void *before, size_t used, size_t len, size_t size) {
    return used <= len && memcmp(now, before, used * size) == 0 && kept(now, before, len, size);
}

static int loaded(clvm_loaded got, size_t file_len) {
    clvm_counts used = given.a.used;
    if (got.code == 0 || got.code == CLVM_UNSOUND)
        return answered(got.code) && got.at == (got.code == 0 ? file_len : 0);
    return got.code <= CLVM_NO_SPACE && got.node == CLVM_NIL && got.at <= file_len && same_record(lent.a, given.a) &&
           unread(lent.bytes, given.bytes, used.bytes, bytes_len, 1) &&
           unread(lent.starts, given.starts, used.atoms, starts_len, 4) &&
           unread(lent.ends, given.ends, used.atoms, ends_len, 4) &&
           unread(lent.firsts, given.firsts, used.pairs, firsts_len, 4) &&
           unread(lent.rests, given.rests, used.pairs, rests_len, 4);
}

/* Bytes of which most start an item, so that some files are read far. */
static void any_file(uint8_t *file, size_t len) {
    for (size_t i = 0; i < len; i++) {
        uint64_t r = next_random();
        file[i] = r % 3 == 0 ? 0xff : r % 3 == 1 ? (uint8_t)(0x80 + (r >> 8) % 4) : (uint8_t)(r >> 8);
    }
}

static size_t smaller(size_t x, size_t y) {
    return x < y ? x : y;
}

/* A record that is sound beside the slices lent, whatever their slots hold. */
static clvm_allocator sound_record(void) {
    size_t atoms = smaller(starts_len, ends_len), pairs = smaller(firsts_len, rests_len);
    clvm_counts used = {any_number() % (atoms + 1), any_number() % (pairs + 1), any_number() % (bytes_len + 1)};
    return (clvm_allocator){used, {2, 0, 1}, next_random() % 4 == 0 ? used.bytes + 5 : TOP};
}

/* A load of any bytes, and a save of any node: also one below which the nodes go round. */
static void check_any_file(uint32_t n) {
    uint8_t file[SLOTS], written[SLOTS];
    any_file(file, sizeof file);
    memcpy(written, file, sizeof file);
    size_t room = next_random() % (next_random() % 2 == 0 ? 8 : SLOTS);
    if (next_random() % 4 != 0) {
        lent.a = sound_record();
        given = lent;
    }
    clvm_number put = clvm_save(&lent.a, LENT_STORE, LENT_PAIRS, n, written, room);
    CHECK(memcmp(&lent, &given, sizeof lent) == 0 && put.code <= CLVM_NO_SPACE && put.value <= room);
    CHECK(kept(written, file, put.value, 1));
    CHECK(loaded(clvm_load(&lent.a, LENT_STORE, LENT_PAIRS, file, room), room));
}

/* The calls that read the record alone. */
static void check_counts(void) {
    CHECK(read_only(clvm_atom_count(&lent.a).code));
    CHECK(read_only(clvm_allocated_atom_count(&lent.a).code));
    CHECK(read_only(clvm_pair_count(&lent.a).code));
    CHECK(read_only(clvm_allocated_pair_count(&lent.a).code));
    CHECK(read_only(clvm_heap_size(&lent.a).code));
    CHECK(read_only(clvm_allocated_heap_size(&lent.a).code));
    clvm_checkpoint plain = lent.plain;
    uint32_t code = clvm_checkpoint_of(&lent.a, &plain).code;
    CHECK(read_only(code) && (code == 0 ? same_counts(plain.used, lent.a.used) : same_checkpoint(plain, lent.plain)));
    clvm_counts mark = lent.mark;
    code = clvm_transparent_checkpoint(&lent.a, &mark).code;
    CHECK(read_only(code) && same_counts(mark, code == 0 ? lent.a.used : lent.mark));
}

static void check_reads(uint32_t n, uint32_t m) {
    uint8_t scratch[4];
    CHECK(clvm_well_formed(&lent.a, LENT_STORE, LENT_PAIRS) <= 1);
    CHECK(read_only(clvm_node(&lent.a, LENT_ATOMS, LENT_PAIRS, n).code));
    CHECK(read_only(clvm_sexp(&lent.a, LENT_PAIRS, n).code));
    CHECK(read_only(clvm_next(&lent.a, LENT_PAIRS, n).code));
    CHECK(read_only(clvm_atom_len(&lent.a, LENT_ATOMS, n).code));
    CHECK(read_only(clvm_small_number(&lent.a, LENT_STORE, n).code));
    CHECK(read_only(clvm_atom_eq(&lent.a, LENT_STORE, n, m).code));
    CHECK(read_only(clvm_checkpoint_node_status(&lent.a, LENT_ATOMS, &lent.mark, n).code));
    clvm_part part = clvm_atom(&lent.a, LENT_STORE, scratch, any_number() % 5, n);
    size_t room = part.place == CLVM_IN_BYTES ? bytes_len : 4;
    CHECK(read_only(part.code) && part.offset <= room && part.length <= room - part.offset);
}

#define WRITES 13

/* The code of one call that may write. */
static uint32_t write_by(int which, uint32_t n, uint32_t m) {
    uint32_t nodes[3] = {n, m, any_node()};
    size_t x = any_number();
    clvm_allocator *a = &lent.a;
    switch (which) {
    case 0: return clvm_new_atom(a, LENT_STORE, zeros, x % sizeof zeros).code;
    case 1: return clvm_new_u64(a, LENT_STORE, x).code;
    case 2: return clvm_new_i64(a, LENT_STORE, (int64_t)x).code;
    case 3: return clvm_new_pair(a, LENT_PAIRS, n, m).code;
    case 4: return clvm_new_substr(a, LENT_STORE, n, (uint32_t)x, (uint32_t)any_number()).code;
    case 5: return clvm_new_concat(a, LENT_STORE, x, nodes, x % 4).code;
    case 6: return clvm_restore_checkpoint(a, LENT_ATOMS, LENT_PAIRS, &lent.plain).code;
    case 7: return clvm_restore_transparent_checkpoint(a, LENT_ATOMS, LENT_PAIRS, &lent.mark).code;
    case 8: return clvm_new_small_number(a, (uint32_t)x).code;
    case 9: return clvm_add_ghost_pair(a, x).code;
    case 10: return clvm_remove_ghost_pair(a, x).code;
    case 11: return clvm_add_ghost_atom(a, x).code;
    default: return clvm_maybe_restore_with_node(a, LENT_STORE, LENT_PAIRS, &lent.mark, n).code;
    }
}

static void check_bad_input(void) {
    for (int round = 0; round < 30000; round++) {
        uint32_t n = any_node(), m = any_node();
        any_world();
        check_counts();
        check_reads(n, m);
        CHECK(answered(write_by(round % WRITES, n, m)));
        any_world();
        check_any_file(n);
    }
}

int main(void) {
    check_record();
    check_checkpoints();
    check_bits();
    check_found(check_trace());
    check_creation();
    check_ghosts();
    check_limit();
    check_savings();
    check_restores();
    check_dead();
    check_file();
    check_bad_files();
    check_file_limits();
    check_bad_nodes();
    check_levels();
    check_bad_input();
    printf("%d checks, %d failed\n", checks, failed);
    return failed != 0;
}
