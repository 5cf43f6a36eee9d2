/* The C declarations of libclvm_allocator.a: the allocator's record, its answers, and one function for each public call. */
#ifndef CLVM_ALLOCATOR_H
#define CLVM_ALLOCATOR_H

#include <stddef.h>
#include <stdint.h>

#ifdef __cplusplus
extern "C" {
#endif

/*
 * A state is a record of seven numbers, which stays with the caller, and five slices beside it. A call is lent the record, by a
 * pointer, and those of the slices that it needs:
 *
 *   bytes          the byte store
 *   starts, ends   one slot for each stored atom: where its bytes begin and end
 *   firsts, rests  one slot for each pair: its two nodes
 *
 * A slice is a pointer and its length in elements. A slice of length 0 may have any pointer, NULL too. A pointer to a record or
 * to a checkpoint points to a whole one, and is never NULL. What is const is only read. What is not const (a record, a
 * checkpoint or a slice) may be written in place, and must overlap nothing else that is lent to the same call. So a call that
 * may change the record *a takes no &a->used as its checkpoint, but a copy of it. No call keeps a pointer, allocates, or blocks.
 *
 * A node is a uint32_t: its kind in the top 6 bits (0 pair, 1 Bytes, 2 small atom), an index or the value in the low 26.
 *
 * Every answer that can be a refusal begins with code and node. code is 0 where the call was accepted, else the reason. On a
 * refusal node is the node that goes with the code (see below), every value is 0, and the record, the checkpoints and the
 * slices are as they were (but see clvm_new_limited and clvm_load). Where a call is accepted, node is the node that it made,
 * and CLVM_NIL where it makes none.
 *
 * No call has a precondition but these on the pointers: any numbers, in the record, the slots and a checkpoint too, get an
 * answer or a code.
 */

/* The small atom 0. */
#define CLVM_NIL UINT32_C(134217728)

/* The codes. The node is nil, but where it is named. */
enum {
    CLVM_ACCEPTED = 0,
    CLVM_UNSOUND = 1,              /* unsound record, or an unsound slot that must be read */
    CLVM_OUT_OF_MEMORY = 2,        /* the heap limit */
    CLVM_TOO_MANY_ATOMS = 3,
    CLVM_TOO_MANY_PAIRS = 4,
    CLVM_NOT_VALID = 5,            /* a node that is not valid */
    CLVM_EXPECTED_ATOM = 6,        /* a pair where an atom is due: that node */
    CLVM_START_OUT_OF_BOUNDS = 7,  /* substr, start > length: the node */
    CLVM_END_OUT_OF_BOUNDS = 8,    /* substr, end > length: the node */
    CLVM_INVALID_BOUNDS = 9,       /* substr, end < start: the node */
    CLVM_INVALID_SIZE = 10,        /* concat, wrong new_size: nil, or the Bytes term that passes it */
    CLVM_NOT_USABLE = 11,          /* a checkpoint that is not usable */
    CLVM_INVALID_RANGE = 12,       /* invalid atom byte range */
    CLVM_TOO_LARGE = 13,           /* a small number above 67,108,863 */
    CLVM_TOO_FEW_GHOSTS = 14,      /* removing more ghost pairs than there are */
    CLVM_FULL = 15,                /* the slices lent cannot hold the result: lend longer ones and call again */
    /* 16 is the request program's own: no call answers it */
    CLVM_BAD_ENCODING = 17,        /* load: no item starts there, or the file ends within one or goes on after the root */
    CLVM_TOO_DEEP = 18,            /* load and save: more than 4,096 levels */
    CLVM_NO_SPACE = 19             /* save: the slice lent for the file is too short: lend a longer one and call again */
};

/* What a node is: clvm_object_type's value, and clvm_visited's kind. */
enum { CLVM_PAIR = 0, CLVM_BYTES = 1, CLVM_SMALL_ATOM = 2 };

/* clvm_part's place. */
enum { CLVM_IN_BYTES = 0, CLVM_IN_SCRATCH = 1 };

/* clvm_status's status. */
enum { CLVM_BEFORE = 0, CLVM_AFTER_NEW_BYTES = 1, CLVM_AFTER_OLD_BYTES = 2 };

/* clvm_restored's outcome. */
enum { CLVM_NO_REPLACE = 0, CLVM_REPLACE = 1, CLVM_ABORTED = 2 };

/* How many atoms, pairs and bytes. The used counts of a record are a transparent checkpoint. */
typedef struct clvm_counts {
    size_t atoms;
    size_t pairs;
    size_t bytes;
} clvm_counts;

/* The record: what lies in the slices, what is counted as if it did, and the heap limit. */
typedef struct clvm_allocator {
    clvm_counts used;
    clvm_counts ghosts;
    size_t limit;
} clvm_allocator;

/* A plain checkpoint. */
typedef struct clvm_checkpoint {
    clvm_counts used;
    clvm_counts ghosts;
} clvm_checkpoint;

/* ---- answers */

/* A number; yes is 1 and no is 0; a kind is CLVM_PAIR and so on. */
typedef struct clvm_number {
    uint32_t code;
    uint32_t node;
    size_t value;
} clvm_number;

/* A value that may be missing: some is 1 where there is one, else 0 and value is 0. */
typedef struct clvm_option {
    uint32_t code;
    uint32_t node;
    uint32_t some;
    uint32_t value;
} clvm_option;

/* What clvm_node found, by kind: CLVM_PAIR, the two nodes; CLVM_BYTES, where its bytes begin and end in the byte store;
 * CLVM_SMALL_ATOM, the value, and 0. */
typedef struct clvm_visited {
    uint32_t code;
    uint32_t node;
    uint32_t kind;
    size_t first;
    size_t second;
} clvm_visited;

/* A pair's two nodes; is_pair is 0 for an atom. */
typedef struct clvm_children {
    uint32_t code;
    uint32_t node;
    uint32_t is_pair;
    uint32_t first;
    uint32_t rest;
} clvm_children;

/* Where an atom's bytes are: length bytes from offset on, in the byte store or in the scratch. */
typedef struct clvm_part {
    uint32_t code;
    uint32_t node;
    uint32_t place;
    size_t offset;
    size_t length;
} clvm_part;

/* Whether a node outlives a restore; start and end are those of CLVM_AFTER_OLD_BYTES. */
typedef struct clvm_status {
    uint32_t code;
    uint32_t node;
    uint32_t status;
    size_t start;
    size_t end;
} clvm_status;

/* The node that a call made. What the call did to the record stands in the record. */
typedef struct clvm_answer {
    uint32_t code;
    uint32_t node;
} clvm_answer;

/* What clvm_maybe_restore_with_node did; node is that of CLVM_REPLACE. */
typedef struct clvm_restored {
    uint32_t code;
    uint32_t node;
    uint32_t outcome;
} clvm_restored;

/* The root of a program file; at is then the file's length. On a refusal at is not 0 as a value is, but says where in the file
 * the item at fault starts: 0 with code 1, where none was read. */
typedef struct clvm_loaded {
    uint32_t code;
    uint32_t node;
    size_t at;
} clvm_loaded;

/* ---- the record */

/* Writes a fresh record, whatever *a held. A limit above 4,294,967,295 is refused with 1, and *a is the record for limit 0. */
clvm_answer clvm_new_limited(clvm_allocator *a, size_t limit);

/* The six counts: used and ghosts together, or (allocated) used alone. */
clvm_number clvm_atom_count(const clvm_allocator *a);
clvm_number clvm_allocated_atom_count(const clvm_allocator *a);
clvm_number clvm_pair_count(const clvm_allocator *a);
clvm_number clvm_allocated_pair_count(const clvm_allocator *a);
clvm_number clvm_heap_size(const clvm_allocator *a);
clvm_number clvm_allocated_heap_size(const clvm_allocator *a);

/* The present state as a checkpoint: plain, and transparent. A refusal leaves *checkpoint as it was. */
clvm_answer clvm_checkpoint_of(const clvm_allocator *a, clvm_checkpoint *checkpoint);
clvm_answer clvm_transparent_checkpoint(const clvm_allocator *a, clvm_counts *checkpoint);

/* 1 exactly where the record and all used slots are sound, else 0. */
uint32_t clvm_well_formed(
    const clvm_allocator *a,
    const uint8_t *bytes, size_t bytes_len,
    const uint32_t *starts, size_t starts_len,
    const uint32_t *ends, size_t ends_len,
    const uint32_t *firsts, size_t firsts_len,
    const uint32_t *rests, size_t rests_len);

/* ---- a node's bits, and bytes alone */

clvm_number clvm_object_type(uint32_t n);
clvm_number clvm_index(uint32_t n);
clvm_number clvm_is_atom(uint32_t n);
clvm_number clvm_is_pair(uint32_t n);

/* The value of bytes that are the shortest form of a number of 26 bits; its code is always 0. */
clvm_option clvm_fits_in_small_atom(const uint8_t *v, size_t v_len);

/* How many bytes the shortest form of a value takes. */
size_t clvm_len_for_value(uint32_t v);

/* ---- reads */

clvm_visited clvm_node(
    const clvm_allocator *a,
    const uint32_t *starts, size_t starts_len,
    const uint32_t *ends, size_t ends_len,
    const uint32_t *firsts, size_t firsts_len,
    const uint32_t *rests, size_t rests_len,
    uint32_t n);

clvm_children clvm_sexp(
    const clvm_allocator *a,
    const uint32_t *firsts, size_t firsts_len,
    const uint32_t *rests, size_t rests_len,
    uint32_t n);

clvm_children clvm_next(
    const clvm_allocator *a,
    const uint32_t *firsts, size_t firsts_len,
    const uint32_t *rests, size_t rests_len,
    uint32_t n);

/* Says where the bytes are. For a small atom the scratch, which must have length 4 (else 15), is filled with the value
 * big-endian, and the part is its last bytes; for Bytes the scratch is left as it was. */
clvm_part clvm_atom(
    const clvm_allocator *a,
    const uint8_t *bytes, size_t bytes_len,
    const uint32_t *starts, size_t starts_len,
    const uint32_t *ends, size_t ends_len,
    uint8_t *scratch, size_t scratch_len,
    uint32_t n);

clvm_number clvm_atom_len(
    const clvm_allocator *a,
    const uint32_t *starts, size_t starts_len,
    const uint32_t *ends, size_t ends_len,
    uint32_t n);

clvm_option clvm_small_number(
    const clvm_allocator *a,
    const uint8_t *bytes, size_t bytes_len,
    const uint32_t *starts, size_t starts_len,
    const uint32_t *ends, size_t ends_len,
    uint32_t n);

clvm_number clvm_atom_eq(
    const clvm_allocator *a,
    const uint8_t *bytes, size_t bytes_len,
    const uint32_t *starts, size_t starts_len,
    const uint32_t *ends, size_t ends_len,
    uint32_t lhs, uint32_t rhs);

clvm_status clvm_checkpoint_node_status(
    const clvm_allocator *a,
    const uint32_t *starts, size_t starts_len,
    const uint32_t *ends, size_t ends_len,
    const clvm_counts *checkpoint, uint32_t n);

/* ---- creation */

clvm_answer clvm_new_atom(
    clvm_allocator *a,
    uint8_t *bytes, size_t bytes_len,
    uint32_t *starts, size_t starts_len,
    uint32_t *ends, size_t ends_len,
    const uint8_t *v, size_t v_len);

clvm_answer clvm_new_small_number(clvm_allocator *a, uint32_t v);

clvm_answer clvm_new_u64(
    clvm_allocator *a,
    uint8_t *bytes, size_t bytes_len,
    uint32_t *starts, size_t starts_len,
    uint32_t *ends, size_t ends_len,
    uint64_t x);

clvm_answer clvm_new_i64(
    clvm_allocator *a,
    uint8_t *bytes, size_t bytes_len,
    uint32_t *starts, size_t starts_len,
    uint32_t *ends, size_t ends_len,
    int64_t x);

clvm_answer clvm_new_pair(
    clvm_allocator *a,
    uint32_t *firsts, size_t firsts_len,
    uint32_t *rests, size_t rests_len,
    uint32_t first, uint32_t rest);

clvm_answer clvm_add_ghost_pair(clvm_allocator *a, size_t amount);
clvm_answer clvm_remove_ghost_pair(clvm_allocator *a, size_t amount);
clvm_answer clvm_add_ghost_atom(clvm_allocator *a, size_t amount);

clvm_answer clvm_new_substr(
    clvm_allocator *a,
    uint8_t *bytes, size_t bytes_len,
    uint32_t *starts, size_t starts_len,
    uint32_t *ends, size_t ends_len,
    uint32_t n, uint32_t start, uint32_t end);

clvm_answer clvm_new_concat(
    clvm_allocator *a,
    uint8_t *bytes, size_t bytes_len,
    uint32_t *starts, size_t starts_len,
    uint32_t *ends, size_t ends_len,
    size_t new_size,
    const uint32_t *nodes, size_t nodes_len);

/* ---- restores: no slot is cleared */

clvm_answer clvm_restore_checkpoint(
    clvm_allocator *a,
    const uint32_t *starts, size_t starts_len,
    const uint32_t *ends, size_t ends_len,
    const uint32_t *firsts, size_t firsts_len,
    const uint32_t *rests, size_t rests_len,
    const clvm_checkpoint *checkpoint);

clvm_answer clvm_restore_transparent_checkpoint(
    clvm_allocator *a,
    const uint32_t *starts, size_t starts_len,
    const uint32_t *ends, size_t ends_len,
    const uint32_t *firsts, size_t firsts_len,
    const uint32_t *rests, size_t rests_len,
    const clvm_counts *checkpoint);

clvm_restored clvm_maybe_restore_with_node(
    clvm_allocator *a,
    uint8_t *bytes, size_t bytes_len,
    uint32_t *starts, size_t starts_len,
    uint32_t *ends, size_t ends_len,
    const uint32_t *firsts, size_t firsts_len,
    const uint32_t *rests, size_t rests_len,
    const clvm_counts *checkpoint, uint32_t n);

/* ---- program files
 *
 * A file holds one tree: ff, first, rest for a pair; 80 for the empty atom; a byte below 80 for itself; else a prefix with the
 * length, one to five bytes that start at 80, c0, e0, f0 or f8, and the bytes. It has at most 4,096 levels, the root being
 * level 1, and either call goes down level by level: on the deepest file it takes less than 2 MB of stack.
 */

/* Reads a whole file into the slots, as clvm_new_atom and clvm_new_pair would: first, rest, then the pair. A prefix need not be
 * the shortest. A refusal is the first fault in file order, and takes all back: the record is as it was, and so are the slots
 * within its used lengths, but those past them may hold what was read before the fault. On 15 nothing is lost by lending longer
 * slices and calling again: n bytes of file need at most n bytes more, n / 2 + 1 atoms and n / 2 pairs. */
clvm_loaded clvm_load(
    clvm_allocator *a,
    uint8_t *bytes, size_t bytes_len,
    uint32_t *starts, size_t starts_len,
    uint32_t *ends, size_t ends_len,
    uint32_t *firsts, size_t firsts_len,
    uint32_t *rests, size_t rests_len,
    const uint8_t *file, size_t file_len);

/* Writes a node's shortest form to the front of file; value is how many bytes that took. A refusal is the first fault in file
 * order, and changes no byte. A node that is met twice is written twice, so that a small store can hold a tree with a huge file;
 * the call ends at the first byte that does not fit. */
clvm_number clvm_save(
    const clvm_allocator *a,
    const uint8_t *bytes, size_t bytes_len,
    const uint32_t *starts, size_t starts_len,
    const uint32_t *ends, size_t ends_len,
    const uint32_t *firsts, size_t firsts_len,
    const uint32_t *rests, size_t rests_len,
    uint32_t n,
    uint8_t *file, size_t file_len);

#ifdef __cplusplus
}
#endif

#endif
