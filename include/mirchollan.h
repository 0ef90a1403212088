/*
 * mirchollan.h: the heap for C. Link target/staticlib/libcapi.a, which `tools/staticlib capi` proves and writes.
 *
 * A heap is a record of nineteen words and buffers that the caller lends; the library allocates nothing. For n slots
 * (1 to 65,536) and c cells (0 to 1,048,576) the buffers are
 *
 *     slots      8 n words           order      2 n 32-bit numbers
 *     scalars    8 n words           marks      n bytes
 *     list       n words             table      514 words
 *     directory  2 n words           cells      c words
 *
 * and may hold anything before the opening. Set the pointers and lengths of a mirchollan_heap, call mirchollan_open
 * and, where it is accepted, any of the other functions. What a call promises (crates/capi) rests on this: between the
 * calls nobody else writes the record, the buffers or the layout; lent buffers do not overlap; no pointer is NULL, not
 * even one whose length is 0.
 *
 * A function returns 0, or the number of the refusal; a refused call changes neither the heap nor lent memory. What is
 * answered beside it stands in a mirchollan_answer, whose other words are 0; so are all of a refused call but next,
 * which repeats the cursor.
 */
#ifndef MIRCHOLLAN_H
#define MIRCHOLLAN_H

#include <stddef.h>
#include <stdint.h>
#include <string.h>

#ifdef __cplusplus
extern "C" {
#endif

/* The refusals, by their numbers. */
enum {
    MIRCHOLLAN_ACCEPTED = 0,
    MIRCHOLLAN_NIL_TARGET = 1, /* a call on nil */
    MIRCHOLLAN_OTHER_KIND = 2, /* an object of another kind, or a word neither nil nor reference */
    MIRCHOLLAN_OUTSIDE = 3,    /* a position outside, pop of an empty array, a negative length */
    MIRCHOLLAN_BAD_TYPE = 4,   /* a type above 2, or a state above 4 */
    MIRCHOLLAN_OVER_BUDGET = 5,
    MIRCHOLLAN_NO_SLOT = 6,
    MIRCHOLLAN_NO_CELLS = 7,
    MIRCHOLLAN_TOO_SHORT = 8, /* a lent list or buffer that is too short */
    MIRCHOLLAN_SPENT = 9,     /* a map's 2^32 sequence numbers are spent */
    MIRCHOLLAN_BAD_OPENING = 10,
    MIRCHOLLAN_DEAD_REFERENCE = 11 /* a reference to an object that is not there, or no longer */
};

/* Types of items, keys, values and cells: 1 and 2 are traced. */
enum { MIRCHOLLAN_PLAIN = 0, MIRCHOLLAN_REFERENCE = 1, MIRCHOLLAN_DYNAMIC = 2 };

/* The states of a coroutine. */
enum {
    MIRCHOLLAN_FRESH = 0,
    MIRCHOLLAN_RUNNING = 1,
    MIRCHOLLAN_YIELDED = 2,
    MIRCHOLLAN_AWAITING = 3,
    MIRCHOLLAN_RETURNED = 4
};

/* The nil word. */
#define MIRCHOLLAN_NIL UINT64_C(0)

/* What mirchollan_get and mirchollan_kind_of answer of a dead reference. */
#define MIRCHOLLAN_DEAD UINT64_C(15)

/* The words that a buffer needs for n slots; the table needs MIRCHOLLAN_TABLE. */
#define MIRCHOLLAN_SLOTS(n) (8 * (size_t)(n))
#define MIRCHOLLAN_SCALARS(n) (8 * (size_t)(n))
#define MIRCHOLLAN_LIST(n) ((size_t)(n))
#define MIRCHOLLAN_DIRECTORY(n) (2 * (size_t)(n))
#define MIRCHOLLAN_MARKS(n) ((size_t)(n))
#define MIRCHOLLAN_ORDER(n) (2 * (size_t)(n))
#define MIRCHOLLAN_TABLE 514

/* What a call answers; which word holds what is said at each function. */
typedef struct {
    uint64_t word, x, y, z, u, v;
} mirchollan_answer;

/* A map's cursor. Zeros: nothing was yielded yet. It may hold anything; of epoch the low 32 bits count. */
typedef struct {
    uint64_t yielded, last, position, epoch;
} mirchollan_cursor;

/* What a coroutine is made with beside its registers and frames. */
typedef struct {
    uint64_t state, sequence, payload, key, result, signal;
} mirchollan_coroutine;

/* A frame of a coroutine. */
typedef struct {
    uint64_t function, counter, base, closure;
} mirchollan_frame;

/* The bytes that things weigh in the account, 1 to 4,096 each. */
typedef struct {
    uint64_t slot, entry, iterator, coroutine, frame;
} mirchollan_weights;

/* A heap: its record, and the memory lent to it. */
typedef struct {
    uint64_t record[19];
    uint64_t *slots, *scalars, *list, *directory, *cells;
    size_t slots_length, scalars_length, list_length, directory_length, cells_length;
    const uint8_t *layout;
    size_t layout_length;
    uint64_t *table;
    size_t table_length;
    uint8_t *marks;
    size_t marks_length;
    uint32_t *order;
    size_t order_length;
} mirchollan_heap;

/* ---- the library's functions, on the record and the buffers; those below hand them a mirchollan_heap's ---- */

uint64_t mch_truth_word(uint64_t b, mirchollan_answer *answer);
uint64_t mch_char_word(uint32_t c, mirchollan_answer *answer);
uint64_t mch_float_word(uint64_t bits, mirchollan_answer *answer);
uint64_t mch_integer_word(int64_t z, mirchollan_answer *answer);
uint64_t mch_reference_word(uint32_t slot, uint16_t tag, mirchollan_answer *answer);
uint64_t mch_read_word(uint64_t word, mirchollan_answer *answer);
uint64_t mch_same_words(uint64_t a, uint64_t b, mirchollan_answer *answer);
uint64_t mch_open(uint64_t record[19], uint64_t size, uint64_t limit, const mirchollan_weights *weights,
    const uint8_t *layout, size_t layout_length, uint64_t *table, size_t table_length, uint8_t *marks,
    size_t marks_length, uint32_t *order, size_t order_length, const uint64_t *slots, size_t slots_length,
    const uint64_t *scalars, size_t scalars_length, const uint64_t *list, size_t list_length,
    const uint64_t *directory, size_t directory_length, const uint64_t *cells, size_t cells_length);
uint64_t mch_collect(uint64_t record[19], uint64_t *slots, size_t slots_length, uint64_t *scalars,
    size_t scalars_length, uint64_t *list, size_t list_length, const uint64_t *directory, size_t directory_length,
    const uint64_t *cells, size_t cells_length, const uint8_t *layout, size_t layout_length, const uint64_t *table,
    size_t table_length, uint8_t *marks, size_t marks_length, uint32_t *order, size_t order_length,
    const uint64_t *roots, size_t roots_length, uint64_t *places, size_t places_length, mirchollan_answer *answer);
uint64_t mch_charge(uint64_t record[19], const uint64_t *slots, size_t slots_length, const uint64_t *scalars,
    size_t scalars_length, const uint64_t *list, size_t list_length, const uint64_t *directory,
    size_t directory_length, const uint64_t *cells, size_t cells_length, uint64_t bytes, mirchollan_answer *answer);
uint64_t mch_fits(const uint64_t record[19], const uint64_t *slots, size_t slots_length, const uint64_t *scalars,
    size_t scalars_length, const uint64_t *list, size_t list_length, const uint64_t *directory,
    size_t directory_length, const uint64_t *cells, size_t cells_length, uint64_t bytes, mirchollan_answer *answer);
uint64_t mch_wants_gc(const uint64_t record[19], const uint64_t *slots, size_t slots_length, const uint64_t *scalars,
    size_t scalars_length, const uint64_t *list, size_t list_length, const uint64_t *directory,
    size_t directory_length, const uint64_t *cells, size_t cells_length, uint64_t extra, mirchollan_answer *answer);
uint64_t mch_collection_count(const uint64_t record[19], const uint64_t *slots, size_t slots_length,
    const uint64_t *scalars, size_t scalars_length, const uint64_t *list, size_t list_length,
    const uint64_t *directory, size_t directory_length, const uint64_t *cells, size_t cells_length,
    mirchollan_answer *answer);
uint64_t mch_freed_count(const uint64_t record[19], const uint64_t *slots, size_t slots_length,
    const uint64_t *scalars, size_t scalars_length, const uint64_t *list, size_t list_length,
    const uint64_t *directory, size_t directory_length, const uint64_t *cells, size_t cells_length,
    mirchollan_answer *answer);
uint64_t mch_used_bytes(const uint64_t record[19], const uint64_t *slots, size_t slots_length,
    const uint64_t *scalars, size_t scalars_length, const uint64_t *list, size_t list_length,
    const uint64_t *directory, size_t directory_length, const uint64_t *cells, size_t cells_length,
    mirchollan_answer *answer);
uint64_t mch_present_count(const uint64_t record[19], const uint64_t *slots, size_t slots_length,
    const uint64_t *scalars, size_t scalars_length, const uint64_t *list, size_t list_length,
    const uint64_t *directory, size_t directory_length, const uint64_t *cells, size_t cells_length,
    mirchollan_answer *answer);
uint64_t mch_cells_in_use(const uint64_t record[19], const uint64_t *slots, size_t slots_length,
    const uint64_t *scalars, size_t scalars_length, const uint64_t *list, size_t list_length,
    const uint64_t *directory, size_t directory_length, const uint64_t *cells, size_t cells_length,
    mirchollan_answer *answer);
uint64_t mch_new_string(uint64_t record[19], uint64_t *slots, size_t slots_length, const uint64_t *scalars,
    size_t scalars_length, const uint64_t *list, size_t list_length, uint64_t *directory, size_t directory_length,
    uint64_t *cells, size_t cells_length, const uint8_t *bytes, size_t bytes_length, mirchollan_answer *answer);
uint64_t mch_new_integer(uint64_t record[19], uint64_t *slots, size_t slots_length, const uint64_t *scalars,
    size_t scalars_length, const uint64_t *list, size_t list_length, const uint64_t *directory,
    size_t directory_length, const uint64_t *cells, size_t cells_length, int64_t number, mirchollan_answer *answer);
uint64_t mch_new_cell(uint64_t record[19], uint64_t *slots, size_t slots_length, const uint64_t *scalars,
    size_t scalars_length, const uint64_t *list, size_t list_length, const uint64_t *directory,
    size_t directory_length, const uint64_t *cells, size_t cells_length, uint64_t type, uint64_t word,
    mirchollan_answer *answer);
uint64_t mch_new_error(uint64_t record[19], uint64_t *slots, size_t slots_length, const uint64_t *scalars,
    size_t scalars_length, const uint64_t *list, size_t list_length, const uint64_t *directory,
    size_t directory_length, const uint64_t *cells, size_t cells_length, uint16_t kind, uint64_t word,
    mirchollan_answer *answer);
uint64_t mch_new_box(uint64_t record[19], uint64_t *slots, size_t slots_length, const uint64_t *scalars,
    size_t scalars_length, const uint64_t *list, size_t list_length, const uint64_t *directory,
    size_t directory_length, const uint64_t *cells, size_t cells_length, uint64_t word, mirchollan_answer *answer);
uint64_t mch_new_array(uint64_t record[19], uint64_t *slots, size_t slots_length, const uint64_t *scalars,
    size_t scalars_length, const uint64_t *list, size_t list_length, uint64_t *directory, size_t directory_length,
    uint64_t *cells, size_t cells_length, uint64_t type, int64_t length, mirchollan_answer *answer);
uint64_t mch_new_map(uint64_t record[19], uint64_t *slots, size_t slots_length, uint64_t *scalars,
    size_t scalars_length, const uint64_t *list, size_t list_length, const uint64_t *directory,
    size_t directory_length, const uint64_t *cells, size_t cells_length, uint64_t keys, uint64_t values,
    mirchollan_answer *answer);
uint64_t mch_new_struct(uint64_t record[19], uint64_t *slots, size_t slots_length, const uint64_t *scalars,
    size_t scalars_length, const uint64_t *list, size_t list_length, uint64_t *directory, size_t directory_length,
    uint64_t *cells, size_t cells_length, uint64_t number, const uint64_t *fields, size_t fields_length,
    mirchollan_answer *answer);
uint64_t mch_new_function(uint64_t record[19], uint64_t *slots, size_t slots_length, const uint64_t *scalars,
    size_t scalars_length, const uint64_t *list, size_t list_length, uint64_t *directory, size_t directory_length,
    uint64_t *cells, size_t cells_length, uint64_t import, uint64_t number, const uint64_t *captures,
    size_t captures_length, mirchollan_answer *answer);
uint64_t mch_new_iter(uint64_t record[19], uint64_t *slots, size_t slots_length, uint64_t *scalars,
    size_t scalars_length, const uint64_t *list, size_t list_length, const uint64_t *directory,
    size_t directory_length, const uint64_t *cells, size_t cells_length, uint64_t source, mirchollan_answer *answer);
uint64_t mch_new_coroutine(uint64_t record[19], uint64_t *slots, size_t slots_length, uint64_t *scalars,
    size_t scalars_length, const uint64_t *list, size_t list_length, uint64_t *directory, size_t directory_length,
    uint64_t *cells, size_t cells_length, const mirchollan_coroutine *words, const uint64_t *registers,
    size_t registers_length, const uint64_t *frames, size_t frames_length, mirchollan_answer *answer);
uint64_t mch_get(const uint64_t record[19], const uint64_t *slots, size_t slots_length, const uint64_t *scalars,
    size_t scalars_length, const uint64_t *list, size_t list_length, const uint64_t *directory,
    size_t directory_length, const uint64_t *cells, size_t cells_length, uint64_t word, mirchollan_answer *answer);
uint64_t mch_deref(const uint64_t record[19], const uint64_t *slots, size_t slots_length, const uint64_t *scalars,
    size_t scalars_length, const uint64_t *list, size_t list_length, const uint64_t *directory,
    size_t directory_length, const uint64_t *cells, size_t cells_length, uint64_t word, mirchollan_answer *answer);
uint64_t mch_kind_of(const uint64_t record[19], const uint64_t *slots, size_t slots_length, const uint64_t *scalars,
    size_t scalars_length, const uint64_t *list, size_t list_length, const uint64_t *directory,
    size_t directory_length, const uint64_t *cells, size_t cells_length, uint64_t word, mirchollan_answer *answer);
uint64_t mch_string_length(const uint64_t record[19], const uint64_t *slots, size_t slots_length,
    const uint64_t *scalars, size_t scalars_length, const uint64_t *list, size_t list_length,
    const uint64_t *directory, size_t directory_length, const uint64_t *cells, size_t cells_length, uint64_t word,
    mirchollan_answer *answer);
uint64_t mch_read_string(const uint64_t record[19], const uint64_t *slots, size_t slots_length,
    const uint64_t *scalars, size_t scalars_length, const uint64_t *list, size_t list_length,
    const uint64_t *directory, size_t directory_length, const uint64_t *cells, size_t cells_length, uint64_t word,
    uint8_t *buffer, size_t buffer_length, mirchollan_answer *answer);
uint64_t mch_read_integer(const uint64_t record[19], const uint64_t *slots, size_t slots_length,
    const uint64_t *scalars, size_t scalars_length, const uint64_t *list, size_t list_length,
    const uint64_t *directory, size_t directory_length, const uint64_t *cells, size_t cells_length, uint64_t word,
    mirchollan_answer *answer);
uint64_t mch_read_cell(const uint64_t record[19], const uint64_t *slots, size_t slots_length, const uint64_t *scalars,
    size_t scalars_length, const uint64_t *list, size_t list_length, const uint64_t *directory,
    size_t directory_length, const uint64_t *cells, size_t cells_length, uint64_t word, mirchollan_answer *answer);
uint64_t mch_cell_type(const uint64_t record[19], const uint64_t *slots, size_t slots_length, const uint64_t *scalars,
    size_t scalars_length, const uint64_t *list, size_t list_length, const uint64_t *directory,
    size_t directory_length, const uint64_t *cells, size_t cells_length, uint64_t word, mirchollan_answer *answer);
uint64_t mch_error_kind(const uint64_t record[19], const uint64_t *slots, size_t slots_length,
    const uint64_t *scalars, size_t scalars_length, const uint64_t *list, size_t list_length,
    const uint64_t *directory, size_t directory_length, const uint64_t *cells, size_t cells_length, uint64_t word,
    mirchollan_answer *answer);
uint64_t mch_error_word(const uint64_t record[19], const uint64_t *slots, size_t slots_length,
    const uint64_t *scalars, size_t scalars_length, const uint64_t *list, size_t list_length,
    const uint64_t *directory, size_t directory_length, const uint64_t *cells, size_t cells_length, uint64_t word,
    mirchollan_answer *answer);
uint64_t mch_read_box(const uint64_t record[19], const uint64_t *slots, size_t slots_length, const uint64_t *scalars,
    size_t scalars_length, const uint64_t *list, size_t list_length, const uint64_t *directory,
    size_t directory_length, const uint64_t *cells, size_t cells_length, uint64_t word, mirchollan_answer *answer);
uint64_t mch_array_type(const uint64_t record[19], const uint64_t *slots, size_t slots_length,
    const uint64_t *scalars, size_t scalars_length, const uint64_t *list, size_t list_length,
    const uint64_t *directory, size_t directory_length, const uint64_t *cells, size_t cells_length, uint64_t word,
    mirchollan_answer *answer);
uint64_t mch_array_length(const uint64_t record[19], const uint64_t *slots, size_t slots_length,
    const uint64_t *scalars, size_t scalars_length, const uint64_t *list, size_t list_length,
    const uint64_t *directory, size_t directory_length, const uint64_t *cells, size_t cells_length, uint64_t word,
    mirchollan_answer *answer);
uint64_t mch_array_capacity(const uint64_t record[19], const uint64_t *slots, size_t slots_length,
    const uint64_t *scalars, size_t scalars_length, const uint64_t *list, size_t list_length,
    const uint64_t *directory, size_t directory_length, const uint64_t *cells, size_t cells_length, uint64_t word,
    mirchollan_answer *answer);
uint64_t mch_read_item(const uint64_t record[19], const uint64_t *slots, size_t slots_length, const uint64_t *scalars,
    size_t scalars_length, const uint64_t *list, size_t list_length, const uint64_t *directory,
    size_t directory_length, const uint64_t *cells, size_t cells_length, uint64_t word, uint64_t index,
    mirchollan_answer *answer);
uint64_t mch_struct_number(const uint64_t record[19], const uint64_t *slots, size_t slots_length,
    const uint64_t *scalars, size_t scalars_length, const uint64_t *list, size_t list_length,
    const uint64_t *directory, size_t directory_length, const uint64_t *cells, size_t cells_length, uint64_t word,
    mirchollan_answer *answer);
uint64_t mch_field_count(const uint64_t record[19], const uint64_t *slots, size_t slots_length,
    const uint64_t *scalars, size_t scalars_length, const uint64_t *list, size_t list_length,
    const uint64_t *directory, size_t directory_length, const uint64_t *cells, size_t cells_length, uint64_t word,
    mirchollan_answer *answer);
uint64_t mch_read_field(const uint64_t record[19], const uint64_t *slots, size_t slots_length,
    const uint64_t *scalars, size_t scalars_length, const uint64_t *list, size_t list_length,
    const uint64_t *directory, size_t directory_length, const uint64_t *cells, size_t cells_length, uint64_t word,
    uint64_t index, mirchollan_answer *answer);
uint64_t mch_is_import(const uint64_t record[19], const uint64_t *slots, size_t slots_length, const uint64_t *scalars,
    size_t scalars_length, const uint64_t *list, size_t list_length, const uint64_t *directory,
    size_t directory_length, const uint64_t *cells, size_t cells_length, uint64_t word, mirchollan_answer *answer);
uint64_t mch_function_number(const uint64_t record[19], const uint64_t *slots, size_t slots_length,
    const uint64_t *scalars, size_t scalars_length, const uint64_t *list, size_t list_length,
    const uint64_t *directory, size_t directory_length, const uint64_t *cells, size_t cells_length, uint64_t word,
    mirchollan_answer *answer);
uint64_t mch_capture_count(const uint64_t record[19], const uint64_t *slots, size_t slots_length,
    const uint64_t *scalars, size_t scalars_length, const uint64_t *list, size_t list_length,
    const uint64_t *directory, size_t directory_length, const uint64_t *cells, size_t cells_length, uint64_t word,
    mirchollan_answer *answer);
uint64_t mch_read_capture(const uint64_t record[19], const uint64_t *slots, size_t slots_length,
    const uint64_t *scalars, size_t scalars_length, const uint64_t *list, size_t list_length,
    const uint64_t *directory, size_t directory_length, const uint64_t *cells, size_t cells_length, uint64_t word,
    uint64_t index, mirchollan_answer *answer);
uint64_t mch_read_state(const uint64_t record[19], const uint64_t *slots, size_t slots_length,
    const uint64_t *scalars, size_t scalars_length, const uint64_t *list, size_t list_length,
    const uint64_t *directory, size_t directory_length, const uint64_t *cells, size_t cells_length, uint64_t word,
    mirchollan_answer *answer);
uint64_t mch_read_payload(const uint64_t record[19], const uint64_t *slots, size_t slots_length,
    const uint64_t *scalars, size_t scalars_length, const uint64_t *list, size_t list_length,
    const uint64_t *directory, size_t directory_length, const uint64_t *cells, size_t cells_length, uint64_t word,
    mirchollan_answer *answer);
uint64_t mch_read_key(const uint64_t record[19], const uint64_t *slots, size_t slots_length, const uint64_t *scalars,
    size_t scalars_length, const uint64_t *list, size_t list_length, const uint64_t *directory,
    size_t directory_length, const uint64_t *cells, size_t cells_length, uint64_t word, mirchollan_answer *answer);
uint64_t mch_read_result(const uint64_t record[19], const uint64_t *slots, size_t slots_length,
    const uint64_t *scalars, size_t scalars_length, const uint64_t *list, size_t list_length,
    const uint64_t *directory, size_t directory_length, const uint64_t *cells, size_t cells_length, uint64_t word,
    mirchollan_answer *answer);
uint64_t mch_read_signal(const uint64_t record[19], const uint64_t *slots, size_t slots_length,
    const uint64_t *scalars, size_t scalars_length, const uint64_t *list, size_t list_length,
    const uint64_t *directory, size_t directory_length, const uint64_t *cells, size_t cells_length, uint64_t word,
    mirchollan_answer *answer);
uint64_t mch_coroutine_sequence(const uint64_t record[19], const uint64_t *slots, size_t slots_length,
    const uint64_t *scalars, size_t scalars_length, const uint64_t *list, size_t list_length,
    const uint64_t *directory, size_t directory_length, const uint64_t *cells, size_t cells_length, uint64_t word,
    mirchollan_answer *answer);
uint64_t mch_coroutine_finalized(const uint64_t record[19], const uint64_t *slots, size_t slots_length,
    const uint64_t *scalars, size_t scalars_length, const uint64_t *list, size_t list_length,
    const uint64_t *directory, size_t directory_length, const uint64_t *cells, size_t cells_length, uint64_t word,
    mirchollan_answer *answer);
uint64_t mch_register_count(const uint64_t record[19], const uint64_t *slots, size_t slots_length,
    const uint64_t *scalars, size_t scalars_length, const uint64_t *list, size_t list_length,
    const uint64_t *directory, size_t directory_length, const uint64_t *cells, size_t cells_length, uint64_t word,
    mirchollan_answer *answer);
uint64_t mch_frame_count(const uint64_t record[19], const uint64_t *slots, size_t slots_length,
    const uint64_t *scalars, size_t scalars_length, const uint64_t *list, size_t list_length,
    const uint64_t *directory, size_t directory_length, const uint64_t *cells, size_t cells_length, uint64_t word,
    mirchollan_answer *answer);
uint64_t mch_read_frame(const uint64_t record[19], const uint64_t *slots, size_t slots_length,
    const uint64_t *scalars, size_t scalars_length, const uint64_t *list, size_t list_length,
    const uint64_t *directory, size_t directory_length, const uint64_t *cells, size_t cells_length, uint64_t word,
    uint64_t index, mirchollan_answer *answer);
uint64_t mch_read_register(const uint64_t record[19], const uint64_t *slots, size_t slots_length,
    const uint64_t *scalars, size_t scalars_length, const uint64_t *list, size_t list_length,
    const uint64_t *directory, size_t directory_length, const uint64_t *cells, size_t cells_length, uint64_t word,
    uint64_t index, mirchollan_answer *answer);
uint64_t mch_store_cell(const uint64_t record[19], uint64_t *slots, size_t slots_length, const uint64_t *scalars,
    size_t scalars_length, const uint64_t *list, size_t list_length, const uint64_t *directory,
    size_t directory_length, const uint64_t *cells, size_t cells_length, uint64_t word, uint64_t value,
    mirchollan_answer *answer);
uint64_t mch_store_box(const uint64_t record[19], uint64_t *slots, size_t slots_length, const uint64_t *scalars,
    size_t scalars_length, const uint64_t *list, size_t list_length, const uint64_t *directory,
    size_t directory_length, const uint64_t *cells, size_t cells_length, uint64_t word, uint64_t value,
    mirchollan_answer *answer);
uint64_t mch_store_item(const uint64_t record[19], const uint64_t *slots, size_t slots_length,
    const uint64_t *scalars, size_t scalars_length, const uint64_t *list, size_t list_length,
    const uint64_t *directory, size_t directory_length, uint64_t *cells, size_t cells_length, uint64_t word,
    uint64_t index, uint64_t value, mirchollan_answer *answer);
uint64_t mch_push(uint64_t record[19], uint64_t *slots, size_t slots_length, const uint64_t *scalars,
    size_t scalars_length, const uint64_t *list, size_t list_length, uint64_t *directory, size_t directory_length,
    uint64_t *cells, size_t cells_length, uint64_t word, uint64_t value, mirchollan_answer *answer);
uint64_t mch_pop(const uint64_t record[19], uint64_t *slots, size_t slots_length, const uint64_t *scalars,
    size_t scalars_length, const uint64_t *list, size_t list_length, const uint64_t *directory,
    size_t directory_length, const uint64_t *cells, size_t cells_length, uint64_t word, mirchollan_answer *answer);
uint64_t mch_store_field(const uint64_t record[19], const uint64_t *slots, size_t slots_length,
    const uint64_t *scalars, size_t scalars_length, const uint64_t *list, size_t list_length,
    const uint64_t *directory, size_t directory_length, uint64_t *cells, size_t cells_length, uint64_t word,
    uint64_t index, uint64_t value, mirchollan_answer *answer);
uint64_t mch_store_capture(const uint64_t record[19], const uint64_t *slots, size_t slots_length,
    const uint64_t *scalars, size_t scalars_length, const uint64_t *list, size_t list_length,
    const uint64_t *directory, size_t directory_length, uint64_t *cells, size_t cells_length, uint64_t word,
    uint64_t index, uint64_t value, mirchollan_answer *answer);
uint64_t mch_store_register(const uint64_t record[19], const uint64_t *slots, size_t slots_length,
    const uint64_t *scalars, size_t scalars_length, const uint64_t *list, size_t list_length,
    const uint64_t *directory, size_t directory_length, uint64_t *cells, size_t cells_length, uint64_t word,
    uint64_t index, uint64_t value, mirchollan_answer *answer);
uint64_t mch_store_payload(const uint64_t record[19], const uint64_t *slots, size_t slots_length, uint64_t *scalars,
    size_t scalars_length, const uint64_t *list, size_t list_length, const uint64_t *directory,
    size_t directory_length, const uint64_t *cells, size_t cells_length, uint64_t word, uint64_t value,
    mirchollan_answer *answer);
uint64_t mch_store_key(const uint64_t record[19], const uint64_t *slots, size_t slots_length, uint64_t *scalars,
    size_t scalars_length, const uint64_t *list, size_t list_length, const uint64_t *directory,
    size_t directory_length, const uint64_t *cells, size_t cells_length, uint64_t word, uint64_t value,
    mirchollan_answer *answer);
uint64_t mch_store_result(const uint64_t record[19], const uint64_t *slots, size_t slots_length, uint64_t *scalars,
    size_t scalars_length, const uint64_t *list, size_t list_length, const uint64_t *directory,
    size_t directory_length, const uint64_t *cells, size_t cells_length, uint64_t word, uint64_t value,
    mirchollan_answer *answer);
uint64_t mch_store_signal(const uint64_t record[19], const uint64_t *slots, size_t slots_length, uint64_t *scalars,
    size_t scalars_length, const uint64_t *list, size_t list_length, const uint64_t *directory,
    size_t directory_length, const uint64_t *cells, size_t cells_length, uint64_t word, uint64_t value,
    mirchollan_answer *answer);
uint64_t mch_set_state(const uint64_t record[19], uint64_t *slots, size_t slots_length, const uint64_t *scalars,
    size_t scalars_length, const uint64_t *list, size_t list_length, const uint64_t *directory,
    size_t directory_length, const uint64_t *cells, size_t cells_length, uint64_t word, uint64_t s,
    mirchollan_answer *answer);
uint64_t mch_put(uint64_t record[19], uint64_t *slots, size_t slots_length, uint64_t *scalars, size_t scalars_length,
    const uint64_t *list, size_t list_length, uint64_t *directory, size_t directory_length, uint64_t *cells,
    size_t cells_length, uint64_t word, uint64_t hash, uint64_t key, uint64_t value, mirchollan_answer *answer);
uint64_t mch_insert_entry(uint64_t record[19], uint64_t *slots, size_t slots_length, uint64_t *scalars,
    size_t scalars_length, const uint64_t *list, size_t list_length, uint64_t *directory, size_t directory_length,
    uint64_t *cells, size_t cells_length, uint64_t word, uint64_t hash, uint64_t key, uint64_t value,
    mirchollan_answer *answer);
uint64_t mch_find(const uint64_t record[19], const uint64_t *slots, size_t slots_length, const uint64_t *scalars,
    size_t scalars_length, const uint64_t *list, size_t list_length, const uint64_t *directory,
    size_t directory_length, const uint64_t *cells, size_t cells_length, uint64_t word, uint64_t hash, uint64_t key,
    mirchollan_answer *answer);
uint64_t mch_remove(uint64_t record[19], uint64_t *slots, size_t slots_length, uint64_t *scalars,
    size_t scalars_length, const uint64_t *list, size_t list_length, uint64_t *directory, size_t directory_length,
    uint64_t *cells, size_t cells_length, uint64_t word, uint64_t hash, uint64_t key, mirchollan_answer *answer);
uint64_t mch_remove_at(uint64_t record[19], uint64_t *slots, size_t slots_length, uint64_t *scalars,
    size_t scalars_length, const uint64_t *list, size_t list_length, uint64_t *directory, size_t directory_length,
    uint64_t *cells, size_t cells_length, uint64_t word, uint64_t position, mirchollan_answer *answer);
uint64_t mch_read_entry(const uint64_t record[19], const uint64_t *slots, size_t slots_length,
    const uint64_t *scalars, size_t scalars_length, const uint64_t *list, size_t list_length,
    const uint64_t *directory, size_t directory_length, const uint64_t *cells, size_t cells_length, uint64_t word,
    uint64_t position, mirchollan_answer *answer);
uint64_t mch_set_value(const uint64_t record[19], const uint64_t *slots, size_t slots_length, const uint64_t *scalars,
    size_t scalars_length, const uint64_t *list, size_t list_length, const uint64_t *directory,
    size_t directory_length, uint64_t *cells, size_t cells_length, uint64_t word, uint64_t position, uint64_t value,
    mirchollan_answer *answer);
uint64_t mch_note(const uint64_t record[19], uint64_t *slots, size_t slots_length, uint64_t *scalars,
    size_t scalars_length, const uint64_t *list, size_t list_length, const uint64_t *directory,
    size_t directory_length, const uint64_t *cells, size_t cells_length, uint64_t word, int64_t key,
    mirchollan_answer *answer);
uint64_t mch_next_key(const uint64_t record[19], const uint64_t *slots, size_t slots_length, const uint64_t *scalars,
    size_t scalars_length, const uint64_t *list, size_t list_length, const uint64_t *directory,
    size_t directory_length, const uint64_t *cells, size_t cells_length, uint64_t word, mirchollan_answer *answer);
uint64_t mch_noted_key(const uint64_t record[19], const uint64_t *slots, size_t slots_length, const uint64_t *scalars,
    size_t scalars_length, const uint64_t *list, size_t list_length, const uint64_t *directory,
    size_t directory_length, const uint64_t *cells, size_t cells_length, uint64_t word, mirchollan_answer *answer);
uint64_t mch_next(const uint64_t record[19], const uint64_t *slots, size_t slots_length, const uint64_t *scalars,
    size_t scalars_length, const uint64_t *list, size_t list_length, const uint64_t *directory,
    size_t directory_length, const uint64_t *cells, size_t cells_length, uint64_t word, mirchollan_cursor *cursor,
    mirchollan_answer *answer);
uint64_t mch_live_count(const uint64_t record[19], const uint64_t *slots, size_t slots_length,
    const uint64_t *scalars, size_t scalars_length, const uint64_t *list, size_t list_length,
    const uint64_t *directory, size_t directory_length, const uint64_t *cells, size_t cells_length, uint64_t word,
    mirchollan_answer *answer);
uint64_t mch_place_count(const uint64_t record[19], const uint64_t *slots, size_t slots_length,
    const uint64_t *scalars, size_t scalars_length, const uint64_t *list, size_t list_length,
    const uint64_t *directory, size_t directory_length, const uint64_t *cells, size_t cells_length, uint64_t word,
    mirchollan_answer *answer);
uint64_t mch_is_hashed(const uint64_t record[19], const uint64_t *slots, size_t slots_length, const uint64_t *scalars,
    size_t scalars_length, const uint64_t *list, size_t list_length, const uint64_t *directory,
    size_t directory_length, const uint64_t *cells, size_t cells_length, uint64_t word, mirchollan_answer *answer);
uint64_t mch_key_type(const uint64_t record[19], const uint64_t *slots, size_t slots_length, const uint64_t *scalars,
    size_t scalars_length, const uint64_t *list, size_t list_length, const uint64_t *directory,
    size_t directory_length, const uint64_t *cells, size_t cells_length, uint64_t word, mirchollan_answer *answer);
uint64_t mch_value_type(const uint64_t record[19], const uint64_t *slots, size_t slots_length,
    const uint64_t *scalars, size_t scalars_length, const uint64_t *list, size_t list_length,
    const uint64_t *directory, size_t directory_length, const uint64_t *cells, size_t cells_length, uint64_t word,
    mirchollan_answer *answer);
uint64_t mch_map_epoch(const uint64_t record[19], const uint64_t *slots, size_t slots_length, const uint64_t *scalars,
    size_t scalars_length, const uint64_t *list, size_t list_length, const uint64_t *directory,
    size_t directory_length, const uint64_t *cells, size_t cells_length, uint64_t word, mirchollan_answer *answer);
uint64_t mch_next_sequence(const uint64_t record[19], const uint64_t *slots, size_t slots_length,
    const uint64_t *scalars, size_t scalars_length, const uint64_t *list, size_t list_length,
    const uint64_t *directory, size_t directory_length, const uint64_t *cells, size_t cells_length, uint64_t word,
    mirchollan_answer *answer);
uint64_t mch_entry_capacity(const uint64_t record[19], const uint64_t *slots, size_t slots_length,
    const uint64_t *scalars, size_t scalars_length, const uint64_t *list, size_t list_length,
    const uint64_t *directory, size_t directory_length, const uint64_t *cells, size_t cells_length, uint64_t word,
    mirchollan_answer *answer);
uint64_t mch_index_length(const uint64_t record[19], const uint64_t *slots, size_t slots_length,
    const uint64_t *scalars, size_t scalars_length, const uint64_t *list, size_t list_length,
    const uint64_t *directory, size_t directory_length, const uint64_t *cells, size_t cells_length, uint64_t word,
    mirchollan_answer *answer);
uint64_t mch_growth_bytes(const uint64_t record[19], const uint64_t *slots, size_t slots_length,
    const uint64_t *scalars, size_t scalars_length, const uint64_t *list, size_t list_length,
    const uint64_t *directory, size_t directory_length, const uint64_t *cells, size_t cells_length, uint64_t word,
    uint64_t key, mirchollan_answer *answer);
uint64_t mch_iter_next(const uint64_t record[19], const uint64_t *slots, size_t slots_length, uint64_t *scalars,
    size_t scalars_length, const uint64_t *list, size_t list_length, const uint64_t *directory,
    size_t directory_length, const uint64_t *cells, size_t cells_length, uint64_t word, mirchollan_answer *answer);
uint64_t mch_iter_key(const uint64_t record[19], const uint64_t *slots, size_t slots_length, const uint64_t *scalars,
    size_t scalars_length, const uint64_t *list, size_t list_length, const uint64_t *directory,
    size_t directory_length, const uint64_t *cells, size_t cells_length, uint64_t word, mirchollan_answer *answer);
uint64_t mch_iter_source(const uint64_t record[19], const uint64_t *slots, size_t slots_length,
    const uint64_t *scalars, size_t scalars_length, const uint64_t *list, size_t list_length,
    const uint64_t *directory, size_t directory_length, const uint64_t *cells, size_t cells_length, uint64_t word,
    mirchollan_answer *answer);
uint64_t mch_iter_key_type(const uint64_t record[19], const uint64_t *slots, size_t slots_length,
    const uint64_t *scalars, size_t scalars_length, const uint64_t *list, size_t list_length,
    const uint64_t *directory, size_t directory_length, const uint64_t *cells, size_t cells_length, uint64_t word,
    mirchollan_answer *answer);
uint64_t mch_iter_ended(const uint64_t record[19], const uint64_t *slots, size_t slots_length,
    const uint64_t *scalars, size_t scalars_length, const uint64_t *list, size_t list_length,
    const uint64_t *directory, size_t directory_length, const uint64_t *cells, size_t cells_length, uint64_t word,
    mirchollan_answer *answer);
uint64_t mch_iter_cursor(const uint64_t record[19], const uint64_t *slots, size_t slots_length,
    const uint64_t *scalars, size_t scalars_length, const uint64_t *list, size_t list_length,
    const uint64_t *directory, size_t directory_length, const uint64_t *cells, size_t cells_length, uint64_t word,
    mirchollan_answer *answer);

/* ---- words: no heap is needed, and nothing is refused ---- */

/* The word of a truth value: no for 0, else yes. */
static inline uint64_t mirchollan_truth_word(uint64_t b)
{
    mirchollan_answer answer;
    mch_truth_word(b, &answer);
    return answer.word;
}

/* The word of a character. */
static inline uint64_t mirchollan_char_word(uint32_t c)
{
    mirchollan_answer answer;
    mch_char_word(c, &answer);
    return answer.word;
}

/* The word of a float; every NaN has one word. */
static inline uint64_t mirchollan_float_word(double x)
{
    mirchollan_answer answer;
    uint64_t bits;
    memcpy(&bits, &x, sizeof bits);
    mch_float_word(bits, &answer);
    return answer.word;
}

/* Whether an integer has a word of its own (-2^48 to 2^48 - 1), which is put into *word. */
static inline int mirchollan_integer_word(int64_t number, uint64_t *word)
{
    mirchollan_answer answer;
    mch_integer_word(number, &answer);
    *word = answer.word;
    return answer.x != 0;
}

/* The word of a reference: a slot, and a tag (the box flag 0x8000 and a 15-bit generation). */
static inline uint64_t mirchollan_reference_word(uint32_t slot, uint16_t tag)
{
    mirchollan_answer answer;
    mch_reference_word(slot, tag, &answer);
    return answer.word;
}

/* What a word reads as. Answers x: 0 nil, 1 truth, 2 integer, 3 float, 4 character, 5 reference; word: 1 or 0 for a
   truth value, the number in two's complement, the binary64 pattern, the character, tag * 2^32 + slot. */
static inline void mirchollan_read_word(uint64_t word, mirchollan_answer *answer)
{
    mch_read_word(word, answer);
}

/* Whether two words read as the same: equal kind and value, floats by IEEE equality. */
static inline int mirchollan_same_words(uint64_t a, uint64_t b)
{
    mirchollan_answer answer;
    mch_same_words(a, b, &answer);
    return answer.word != 0;
}

/* ---- opening and collecting ---- */

/* The record and the buffers that every call is lent. */
#define MIRCHOLLAN_LENT(h) \
    (h)->record, (h)->slots, (h)->slots_length, (h)->scalars, (h)->scalars_length, (h)->list, (h)->list_length, \
        (h)->directory, (h)->directory_length, (h)->cells, (h)->cells_length

/* A heap of `size` slots over the buffers that h names; its cells are as many as h->cells_length. Refused: 10. */
static inline uint64_t mirchollan_open(
    mirchollan_heap *h, uint64_t size, uint64_t limit, const mirchollan_weights *weights)
{
    return mch_open(h->record, size, limit, weights, h->layout, h->layout_length, h->table, h->table_length, h->marks,
        h->marks_length, h->order, h->order_length, h->slots, h->slots_length, h->scalars, h->scalars_length, h->list,
        h->list_length, h->directory, h->directory_length, h->cells, h->cells_length);
}

/* A collection: what the roots reach is kept; so are waiting coroutines outside it, which are finalized and listed in
   the first places of `places`, and what they reach; the other objects are freed. Refused: 8. Answers word: objects
   freed, x: coroutines listed. */
static inline uint64_t mirchollan_collect(mirchollan_heap *h, const uint64_t *roots, size_t roots_length,
    uint64_t *places, size_t places_length, mirchollan_answer *answer)
{
    return mch_collect(MIRCHOLLAN_LENT(h), h->layout, h->layout_length, h->table, h->table_length, h->marks,
        h->marks_length, h->order, h->order_length, roots, roots_length, places, places_length, answer);
}

/* ---- the heap as a whole ---- */

/* A charge of so many bytes, without an object. Refused: 5. Answers nothing. */
static inline uint64_t mirchollan_charge(mirchollan_heap *h, uint64_t bytes, mirchollan_answer *answer)
{
    return mch_charge(MIRCHOLLAN_LENT(h), bytes, answer);
}

/* Whether a charge of so many bytes would be accepted. Refused: never. Answers word: 1 yes, 0 no. */
static inline uint64_t mirchollan_fits(const mirchollan_heap *h, uint64_t bytes, mirchollan_answer *answer)
{
    return mch_fits(MIRCHOLLAN_LENT(h), bytes, answer);
}

/* Whether a collection is due before so many bytes more. Refused: never. Answers word: 1 yes, 0 no. */
static inline uint64_t mirchollan_wants_gc(const mirchollan_heap *h, uint64_t extra, mirchollan_answer *answer)
{
    return mch_wants_gc(MIRCHOLLAN_LENT(h), extra, answer);
}

/* How many collections there have been. Refused: never. Answers word. */
static inline uint64_t mirchollan_collection_count(const mirchollan_heap *h, mirchollan_answer *answer)
{
    return mch_collection_count(MIRCHOLLAN_LENT(h), answer);
}

/* How many objects the collections have freed. Refused: never. Answers word. */
static inline uint64_t mirchollan_freed_count(const mirchollan_heap *h, mirchollan_answer *answer)
{
    return mch_freed_count(MIRCHOLLAN_LENT(h), answer);
}

/* The bytes charged and not freed. Refused: never. Answers word. */
static inline uint64_t mirchollan_used_bytes(const mirchollan_heap *h, mirchollan_answer *answer)
{
    return mch_used_bytes(MIRCHOLLAN_LENT(h), answer);
}

/* How many objects are present. Refused: never. Answers word. */
static inline uint64_t mirchollan_present_count(const mirchollan_heap *h, mirchollan_answer *answer)
{
    return mch_present_count(MIRCHOLLAN_LENT(h), answer);
}

/* The cells of the objects present. Refused: never. Answers word. */
static inline uint64_t mirchollan_cells_in_use(const mirchollan_heap *h, mirchollan_answer *answer)
{
    return mch_cells_in_use(MIRCHOLLAN_LENT(h), answer);
}

/* ---- new objects ---- */

/* A string of these bytes. Refused: 5, 6, 7. Answers word: the reference. */
static inline uint64_t mirchollan_new_string(mirchollan_heap *h, const uint8_t *bytes, size_t bytes_length,
    mirchollan_answer *answer)
{
    return mch_new_string(MIRCHOLLAN_LENT(h), bytes, bytes_length, answer);
}

/* An integer object. Refused: 5, 6. Answers word: the reference. */
static inline uint64_t mirchollan_new_integer(mirchollan_heap *h, int64_t number, mirchollan_answer *answer)
{
    return mch_new_integer(MIRCHOLLAN_LENT(h), number, answer);
}

/* A cell of this type, with this word. Refused: 4, 5, 6. Answers word: the reference. */
static inline uint64_t mirchollan_new_cell(mirchollan_heap *h, uint64_t type, uint64_t word,
    mirchollan_answer *answer)
{
    return mch_new_cell(MIRCHOLLAN_LENT(h), type, word, answer);
}

/* An error of any 16-bit kind, with this word. Refused: 5, 6. Answers word: the reference. */
static inline uint64_t mirchollan_new_error(mirchollan_heap *h, uint16_t kind, uint64_t word,
    mirchollan_answer *answer)
{
    return mch_new_error(MIRCHOLLAN_LENT(h), kind, word, answer);
}

/* A box with this word. Refused: 5, 6. Answers word: the reference. */
static inline uint64_t mirchollan_new_box(mirchollan_heap *h, uint64_t word, mirchollan_answer *answer)
{
    return mch_new_box(MIRCHOLLAN_LENT(h), word, answer);
}

/* An array of this type, with so many nil items. Refused: 4, 3, 5, 6, 7. Answers word: the reference. */
static inline uint64_t mirchollan_new_array(mirchollan_heap *h, uint64_t type, int64_t length,
    mirchollan_answer *answer)
{
    return mch_new_array(MIRCHOLLAN_LENT(h), type, length, answer);
}

/* A map without entries, of these types of keys and values. Refused: 4, 5, 6. Answers word: the reference. */
static inline uint64_t mirchollan_new_map(mirchollan_heap *h, uint64_t keys, uint64_t values,
    mirchollan_answer *answer)
{
    return mch_new_map(MIRCHOLLAN_LENT(h), keys, values, answer);
}

/* A struct of the type of this number, with these fields. Refused: 5, 6, 7. Answers word: the reference. */
static inline uint64_t mirchollan_new_struct(mirchollan_heap *h, uint64_t number, const uint64_t *fields,
    size_t fields_length, mirchollan_answer *answer)
{
    return mch_new_struct(MIRCHOLLAN_LENT(h), number, fields, fields_length, answer);
}

/* A function with these captures; an import where import is not 0. Refused: 5, 6, 7. Answers word: the reference. */
static inline uint64_t mirchollan_new_function(mirchollan_heap *h, uint64_t import, uint64_t number,
    const uint64_t *captures, size_t captures_length, mirchollan_answer *answer)
{
    return mch_new_function(MIRCHOLLAN_LENT(h), import, number, captures, captures_length, answer);
}

/* An iterator over an array or a map. Refused: 1, 11, 2, 5, 6. Answers word: the reference. */
static inline uint64_t mirchollan_new_iter(mirchollan_heap *h, uint64_t source, mirchollan_answer *answer)
{
    return mch_new_iter(MIRCHOLLAN_LENT(h), source, answer);
}

/* A coroutine with these words, registers and frames. Refused: 4, 5, 6, 7. Answers word: the reference. */
static inline uint64_t mirchollan_new_coroutine(mirchollan_heap *h, const mirchollan_coroutine *words,
    const uint64_t *registers, size_t registers_length, const mirchollan_frame *frames, size_t frame_count,
    mirchollan_answer *answer)
{
    return mch_new_coroutine(MIRCHOLLAN_LENT(h), words, registers, registers_length, (const uint64_t *)frames,
        4 * frame_count, answer);
}

/* ---- readings ---- */

/* The row of the object that a word reaches: 1 string, 2 integer, 3 cell, 4 error, 5 box, 6 array, 7 map, 8 struct, 9
   function, 10 iterator, 11 coroutine; MIRCHOLLAN_DEAD for a dead reference, 0 for any other word. Refused: never.
   Answers word. */
static inline uint64_t mirchollan_get(const mirchollan_heap *h, uint64_t word, mirchollan_answer *answer)
{
    return mch_get(MIRCHOLLAN_LENT(h), word, answer);
}

/* A word seen through a box. Refused: never. Answers word. */
static inline uint64_t mirchollan_deref(const mirchollan_heap *h, uint64_t word, mirchollan_answer *answer)
{
    return mch_deref(MIRCHOLLAN_LENT(h), word, answer);
}

/* The number of a word's kind. Refused: never. Answers word: 0 nil, an object's row 1 to 11, 12 truth, 13 float,
   14 character, MIRCHOLLAN_DEAD dead reference; integer 2. */
static inline uint64_t mirchollan_kind_of(const mirchollan_heap *h, uint64_t word, mirchollan_answer *answer)
{
    return mch_kind_of(MIRCHOLLAN_LENT(h), word, answer);
}

/* The length of a string in bytes. Refused: 1, 11, 2. Answers word. */
static inline uint64_t mirchollan_string_length(const mirchollan_heap *h, uint64_t word, mirchollan_answer *answer)
{
    return mch_string_length(MIRCHOLLAN_LENT(h), word, answer);
}

/* A string's bytes, into the buffer's first places; 8 where the buffer is shorter. Refused: 1, 11, 2, 8. Answers word:
   the length. */
static inline uint64_t mirchollan_read_string(const mirchollan_heap *h, uint64_t word, uint8_t *buffer,
    size_t buffer_length, mirchollan_answer *answer)
{
    return mch_read_string(MIRCHOLLAN_LENT(h), word, buffer, buffer_length, answer);
}

/* An integer object's number. Refused: 1, 11, 2. Answers word: the number, two's complement. */
static inline uint64_t mirchollan_read_integer(const mirchollan_heap *h, uint64_t word, mirchollan_answer *answer)
{
    return mch_read_integer(MIRCHOLLAN_LENT(h), word, answer);
}

/* A cell's word. Refused: 1, 11, 2. Answers word. */
static inline uint64_t mirchollan_read_cell(const mirchollan_heap *h, uint64_t word, mirchollan_answer *answer)
{
    return mch_read_cell(MIRCHOLLAN_LENT(h), word, answer);
}

/* A cell's type. Refused: 1, 11, 2. Answers word. */
static inline uint64_t mirchollan_cell_type(const mirchollan_heap *h, uint64_t word, mirchollan_answer *answer)
{
    return mch_cell_type(MIRCHOLLAN_LENT(h), word, answer);
}

/* An error's kind. Refused: 1, 11, 2. Answers word. */
static inline uint64_t mirchollan_error_kind(const mirchollan_heap *h, uint64_t word, mirchollan_answer *answer)
{
    return mch_error_kind(MIRCHOLLAN_LENT(h), word, answer);
}

/* An error's word. Refused: 1, 11, 2. Answers word. */
static inline uint64_t mirchollan_error_word(const mirchollan_heap *h, uint64_t word, mirchollan_answer *answer)
{
    return mch_error_word(MIRCHOLLAN_LENT(h), word, answer);
}

/* A box's word. Refused: 1, 11, 2. Answers word. */
static inline uint64_t mirchollan_read_box(const mirchollan_heap *h, uint64_t word, mirchollan_answer *answer)
{
    return mch_read_box(MIRCHOLLAN_LENT(h), word, answer);
}

/* The type of an array's items. Refused: 1, 11, 2. Answers word. */
static inline uint64_t mirchollan_array_type(const mirchollan_heap *h, uint64_t word, mirchollan_answer *answer)
{
    return mch_array_type(MIRCHOLLAN_LENT(h), word, answer);
}

/* The length of an array. Refused: 1, 11, 2. Answers word. */
static inline uint64_t mirchollan_array_length(const mirchollan_heap *h, uint64_t word, mirchollan_answer *answer)
{
    return mch_array_length(MIRCHOLLAN_LENT(h), word, answer);
}

/* The capacity of an array. Refused: 1, 11, 2. Answers word. */
static inline uint64_t mirchollan_array_capacity(const mirchollan_heap *h, uint64_t word, mirchollan_answer *answer)
{
    return mch_array_capacity(MIRCHOLLAN_LENT(h), word, answer);
}

/* An item of an array, as it was stored. Refused: 1, 11, 2, 3. Answers word. */
static inline uint64_t mirchollan_read_item(const mirchollan_heap *h, uint64_t word, uint64_t index,
    mirchollan_answer *answer)
{
    return mch_read_item(MIRCHOLLAN_LENT(h), word, index, answer);
}

/* A struct's type. Refused: 1, 11, 2. Answers word. */
static inline uint64_t mirchollan_struct_number(const mirchollan_heap *h, uint64_t word, mirchollan_answer *answer)
{
    return mch_struct_number(MIRCHOLLAN_LENT(h), word, answer);
}

/* How many fields a struct has. Refused: 1, 11, 2. Answers word. */
static inline uint64_t mirchollan_field_count(const mirchollan_heap *h, uint64_t word, mirchollan_answer *answer)
{
    return mch_field_count(MIRCHOLLAN_LENT(h), word, answer);
}

/* A field of a struct. Refused: 1, 11, 2, 3. Answers word. */
static inline uint64_t mirchollan_read_field(const mirchollan_heap *h, uint64_t word, uint64_t index,
    mirchollan_answer *answer)
{
    return mch_read_field(MIRCHOLLAN_LENT(h), word, index, answer);
}

/* Whether a function is an import. Refused: 1, 11, 2. Answers word: 1 yes, 0 no. */
static inline uint64_t mirchollan_is_import(const mirchollan_heap *h, uint64_t word, mirchollan_answer *answer)
{
    return mch_is_import(MIRCHOLLAN_LENT(h), word, answer);
}

/* A function's number. Refused: 1, 11, 2. Answers word. */
static inline uint64_t mirchollan_function_number(const mirchollan_heap *h, uint64_t word, mirchollan_answer *answer)
{
    return mch_function_number(MIRCHOLLAN_LENT(h), word, answer);
}

/* How many captures a function has. Refused: 1, 11, 2. Answers word. */
static inline uint64_t mirchollan_capture_count(const mirchollan_heap *h, uint64_t word, mirchollan_answer *answer)
{
    return mch_capture_count(MIRCHOLLAN_LENT(h), word, answer);
}

/* A capture of a function. Refused: 1, 11, 2, 3. Answers word. */
static inline uint64_t mirchollan_read_capture(const mirchollan_heap *h, uint64_t word, uint64_t index,
    mirchollan_answer *answer)
{
    return mch_read_capture(MIRCHOLLAN_LENT(h), word, index, answer);
}

/* A coroutine's state. Refused: 1, 11, 2. Answers word. */
static inline uint64_t mirchollan_read_state(const mirchollan_heap *h, uint64_t word, mirchollan_answer *answer)
{
    return mch_read_state(MIRCHOLLAN_LENT(h), word, answer);
}

/* A coroutine's payload. Refused: 1, 11, 2. Answers word. */
static inline uint64_t mirchollan_read_payload(const mirchollan_heap *h, uint64_t word, mirchollan_answer *answer)
{
    return mch_read_payload(MIRCHOLLAN_LENT(h), word, answer);
}

/* A coroutine's key. Refused: 1, 11, 2. Answers word. */
static inline uint64_t mirchollan_read_key(const mirchollan_heap *h, uint64_t word, mirchollan_answer *answer)
{
    return mch_read_key(MIRCHOLLAN_LENT(h), word, answer);
}

/* A coroutine's result. Refused: 1, 11, 2. Answers word. */
static inline uint64_t mirchollan_read_result(const mirchollan_heap *h, uint64_t word, mirchollan_answer *answer)
{
    return mch_read_result(MIRCHOLLAN_LENT(h), word, answer);
}

/* A coroutine's signal. Refused: 1, 11, 2. Answers word. */
static inline uint64_t mirchollan_read_signal(const mirchollan_heap *h, uint64_t word, mirchollan_answer *answer)
{
    return mch_read_signal(MIRCHOLLAN_LENT(h), word, answer);
}

/* A coroutine's sequence number. Refused: 1, 11, 2. Answers word. */
static inline uint64_t mirchollan_coroutine_sequence(const mirchollan_heap *h, uint64_t word,
    mirchollan_answer *answer)
{
    return mch_coroutine_sequence(MIRCHOLLAN_LENT(h), word, answer);
}

/* Whether a coroutine is finalized. Refused: 1, 11, 2. Answers word: 1 yes, 0 no. */
static inline uint64_t mirchollan_coroutine_finalized(const mirchollan_heap *h, uint64_t word,
    mirchollan_answer *answer)
{
    return mch_coroutine_finalized(MIRCHOLLAN_LENT(h), word, answer);
}

/* How many registers a coroutine has. Refused: 1, 11, 2. Answers word. */
static inline uint64_t mirchollan_register_count(const mirchollan_heap *h, uint64_t word, mirchollan_answer *answer)
{
    return mch_register_count(MIRCHOLLAN_LENT(h), word, answer);
}

/* How many frames a coroutine has. Refused: 1, 11, 2. Answers word. */
static inline uint64_t mirchollan_frame_count(const mirchollan_heap *h, uint64_t word, mirchollan_answer *answer)
{
    return mch_frame_count(MIRCHOLLAN_LENT(h), word, answer);
}

/* A frame of a coroutine. Refused: 1, 11, 2, 3. Answers word: function, x: counter, y: base, z: closure. */
static inline uint64_t mirchollan_read_frame(const mirchollan_heap *h, uint64_t word, uint64_t index,
    mirchollan_answer *answer)
{
    return mch_read_frame(MIRCHOLLAN_LENT(h), word, index, answer);
}

/* A register of a coroutine. Refused: 1, 11, 2, 3. Answers word. */
static inline uint64_t mirchollan_read_register(const mirchollan_heap *h, uint64_t word, uint64_t index,
    mirchollan_answer *answer)
{
    return mch_read_register(MIRCHOLLAN_LENT(h), word, index, answer);
}

/* ---- stores, and arrays that grow and shrink ---- */

/* A new word for a cell. Refused: 1, 11, 2. Answers nothing. */
static inline uint64_t mirchollan_store_cell(mirchollan_heap *h, uint64_t word, uint64_t value,
    mirchollan_answer *answer)
{
    return mch_store_cell(MIRCHOLLAN_LENT(h), word, value, answer);
}

/* A new word for a box. Refused: 1, 11, 2. Answers nothing. */
static inline uint64_t mirchollan_store_box(mirchollan_heap *h, uint64_t word, uint64_t value,
    mirchollan_answer *answer)
{
    return mch_store_box(MIRCHOLLAN_LENT(h), word, value, answer);
}

/* A new item of an array; outside the length nothing changes. Refused: 1, 11, 2, 5. Answers nothing. */
static inline uint64_t mirchollan_store_item(mirchollan_heap *h, uint64_t word, uint64_t index, uint64_t value,
    mirchollan_answer *answer)
{
    return mch_store_item(MIRCHOLLAN_LENT(h), word, index, value, answer);
}

/* An item behind the last of an array. Refused: 1, 11, 2, 5, 7. Answers nothing. */
static inline uint64_t mirchollan_push(mirchollan_heap *h, uint64_t word, uint64_t value, mirchollan_answer *answer)
{
    return mch_push(MIRCHOLLAN_LENT(h), word, value, answer);
}

/* The last item of an array, taken off. Refused: 1, 11, 2, 3, 5. Answers word: the item. */
static inline uint64_t mirchollan_pop(mirchollan_heap *h, uint64_t word, mirchollan_answer *answer)
{
    return mch_pop(MIRCHOLLAN_LENT(h), word, answer);
}

/* A new word for a field of a struct. Refused: 1, 11, 2, 3. Answers nothing. */
static inline uint64_t mirchollan_store_field(mirchollan_heap *h, uint64_t word, uint64_t index, uint64_t value,
    mirchollan_answer *answer)
{
    return mch_store_field(MIRCHOLLAN_LENT(h), word, index, value, answer);
}

/* A new word for a capture of a function. Refused: 1, 11, 2, 3. Answers nothing. */
static inline uint64_t mirchollan_store_capture(mirchollan_heap *h, uint64_t word, uint64_t index, uint64_t value,
    mirchollan_answer *answer)
{
    return mch_store_capture(MIRCHOLLAN_LENT(h), word, index, value, answer);
}

/* A new word for a register of a coroutine. Refused: 1, 11, 2, 3. Answers nothing. */
static inline uint64_t mirchollan_store_register(mirchollan_heap *h, uint64_t word, uint64_t index, uint64_t value,
    mirchollan_answer *answer)
{
    return mch_store_register(MIRCHOLLAN_LENT(h), word, index, value, answer);
}

/* A new payload for a coroutine. Refused: 1, 11, 2. Answers nothing. */
static inline uint64_t mirchollan_store_payload(mirchollan_heap *h, uint64_t word, uint64_t value,
    mirchollan_answer *answer)
{
    return mch_store_payload(MIRCHOLLAN_LENT(h), word, value, answer);
}

/* A new key for a coroutine. Refused: 1, 11, 2. Answers nothing. */
static inline uint64_t mirchollan_store_key(mirchollan_heap *h, uint64_t word, uint64_t value,
    mirchollan_answer *answer)
{
    return mch_store_key(MIRCHOLLAN_LENT(h), word, value, answer);
}

/* A new result for a coroutine. Refused: 1, 11, 2. Answers nothing. */
static inline uint64_t mirchollan_store_result(mirchollan_heap *h, uint64_t word, uint64_t value,
    mirchollan_answer *answer)
{
    return mch_store_result(MIRCHOLLAN_LENT(h), word, value, answer);
}

/* A new signal for a coroutine. Refused: 1, 11, 2. Answers nothing. */
static inline uint64_t mirchollan_store_signal(mirchollan_heap *h, uint64_t word, uint64_t value,
    mirchollan_answer *answer)
{
    return mch_store_signal(MIRCHOLLAN_LENT(h), word, value, answer);
}

/* A new state for a coroutine. Refused: 4, 1, 11, 2. Answers nothing. */
static inline uint64_t mirchollan_set_state(mirchollan_heap *h, uint64_t word, uint64_t s, mirchollan_answer *answer)
{
    return mch_set_state(MIRCHOLLAN_LENT(h), word, s, answer);
}

/* ---- maps and iterators ---- */

/* The value of a key: overwritten where the key is found, else an entry is added. Refused: 1, 11, 2, 9, 5, 7. Answers
   nothing. */
static inline uint64_t mirchollan_put(mirchollan_heap *h, uint64_t word, uint64_t hash, uint64_t key, uint64_t value,
    mirchollan_answer *answer)
{
    return mch_put(MIRCHOLLAN_LENT(h), word, hash, key, value, answer);
}

/* An entry added, whatever is there. Refused: 1, 11, 2, 9, 5, 7. Answers nothing. */
static inline uint64_t mirchollan_insert_entry(mirchollan_heap *h, uint64_t word, uint64_t hash, uint64_t key,
    uint64_t value, mirchollan_answer *answer)
{
    return mch_insert_entry(MIRCHOLLAN_LENT(h), word, hash, key, value, answer);
}

/* The position of a key: of an entry with this hash and key word. Refused: 1, 11, 2. Answers x: 1 where the key is
   there, word: its position. */
static inline uint64_t mirchollan_find(const mirchollan_heap *h, uint64_t word, uint64_t hash, uint64_t key,
    mirchollan_answer *answer)
{
    return mch_find(MIRCHOLLAN_LENT(h), word, hash, key, answer);
}

/* The entry of a key removed. Refused: 1, 11, 2, 7. Answers nothing. */
static inline uint64_t mirchollan_remove(mirchollan_heap *h, uint64_t word, uint64_t hash, uint64_t key,
    mirchollan_answer *answer)
{
    return mch_remove(MIRCHOLLAN_LENT(h), word, hash, key, answer);
}

/* The entry at a position removed. Refused: 1, 11, 2, 7. Answers nothing. */
static inline uint64_t mirchollan_remove_at(mirchollan_heap *h, uint64_t word, uint64_t position,
    mirchollan_answer *answer)
{
    return mch_remove_at(MIRCHOLLAN_LENT(h), word, position, answer);
}

/* The entry at a position, live or dead. Refused: 1, 11, 2, 3. Answers word: value, x: hash, y: key, z: sequence
   number, u: 1 live, 0 dead. */
static inline uint64_t mirchollan_read_entry(const mirchollan_heap *h, uint64_t word, uint64_t position,
    mirchollan_answer *answer)
{
    return mch_read_entry(MIRCHOLLAN_LENT(h), word, position, answer);
}

/* A new value at a position; outside nothing changes. Refused: 1, 11, 2. Answers nothing. */
static inline uint64_t mirchollan_set_value(mirchollan_heap *h, uint64_t word, uint64_t position, uint64_t value,
    mirchollan_answer *answer)
{
    return mch_set_value(MIRCHOLLAN_LENT(h), word, position, value, answer);
}

/* An integer key noted. Refused: 1, 11, 2. Answers nothing. */
static inline uint64_t mirchollan_note(mirchollan_heap *h, uint64_t word, int64_t key, mirchollan_answer *answer)
{
    return mch_note(MIRCHOLLAN_LENT(h), word, key, answer);
}

/* The integer key after the greatest noted one. Refused: 1, 11, 2. Answers word: the key, two's complement; x: 1 where
   the next is past 2^63 - 1. */
static inline uint64_t mirchollan_next_key(const mirchollan_heap *h, uint64_t word, mirchollan_answer *answer)
{
    return mch_next_key(MIRCHOLLAN_LENT(h), word, answer);
}

/* The greatest noted key. Refused: 1, 11, 2. Answers x: 1 where a key is noted, word: the key, two's complement. */
static inline uint64_t mirchollan_noted_key(const mirchollan_heap *h, uint64_t word, mirchollan_answer *answer)
{
    return mch_noted_key(MIRCHOLLAN_LENT(h), word, answer);
}

/* The next live entry's position, or the end; the cursor is moved, unless the call is refused. Refused: 1, 11, 2.
   Answers x: 1 where there is an entry, word: its position; y, z, u, v: the cursor. */
static inline uint64_t mirchollan_next(const mirchollan_heap *h, uint64_t word, mirchollan_cursor *cursor,
    mirchollan_answer *answer)
{
    return mch_next(MIRCHOLLAN_LENT(h), word, cursor, answer);
}

/* How many live entries a map has. Refused: 1, 11, 2. Answers word. */
static inline uint64_t mirchollan_live_count(const mirchollan_heap *h, uint64_t word, mirchollan_answer *answer)
{
    return mch_live_count(MIRCHOLLAN_LENT(h), word, answer);
}

/* How many places a map has, dead ones included. Refused: 1, 11, 2. Answers word. */
static inline uint64_t mirchollan_place_count(const mirchollan_heap *h, uint64_t word, mirchollan_answer *answer)
{
    return mch_place_count(MIRCHOLLAN_LENT(h), word, answer);
}

/* Whether a map is hashed. Refused: 1, 11, 2. Answers word: 1 yes, 0 no. */
static inline uint64_t mirchollan_is_hashed(const mirchollan_heap *h, uint64_t word, mirchollan_answer *answer)
{
    return mch_is_hashed(MIRCHOLLAN_LENT(h), word, answer);
}

/* The type of a map's keys. Refused: 1, 11, 2. Answers word. */
static inline uint64_t mirchollan_key_type(const mirchollan_heap *h, uint64_t word, mirchollan_answer *answer)
{
    return mch_key_type(MIRCHOLLAN_LENT(h), word, answer);
}

/* The type of a map's values. Refused: 1, 11, 2. Answers word. */
static inline uint64_t mirchollan_value_type(const mirchollan_heap *h, uint64_t word, mirchollan_answer *answer)
{
    return mch_value_type(MIRCHOLLAN_LENT(h), word, answer);
}

/* How often a map was compacted, in 32 bits. Refused: 1, 11, 2. Answers word. */
static inline uint64_t mirchollan_map_epoch(const mirchollan_heap *h, uint64_t word, mirchollan_answer *answer)
{
    return mch_map_epoch(MIRCHOLLAN_LENT(h), word, answer);
}

/* The next entry's sequence number. Refused: 1, 11, 2. Answers word. */
static inline uint64_t mirchollan_next_sequence(const mirchollan_heap *h, uint64_t word, mirchollan_answer *answer)
{
    return mch_next_sequence(MIRCHOLLAN_LENT(h), word, answer);
}

/* The capacity of a map's entry list. Refused: 1, 11, 2. Answers word. */
static inline uint64_t mirchollan_entry_capacity(const mirchollan_heap *h, uint64_t word, mirchollan_answer *answer)
{
    return mch_entry_capacity(MIRCHOLLAN_LENT(h), word, answer);
}

/* The length of a map's index. Refused: 1, 11, 2. Answers word. */
static inline uint64_t mirchollan_index_length(const mirchollan_heap *h, uint64_t word, mirchollan_answer *answer)
{
    return mch_index_length(MIRCHOLLAN_LENT(h), word, answer);
}

/* The bytes that an insertion of this key would be charged. Refused: 1, 11, 2. Answers word. */
static inline uint64_t mirchollan_growth_bytes(const mirchollan_heap *h, uint64_t word, uint64_t key,
    mirchollan_answer *answer)
{
    return mch_growth_bytes(MIRCHOLLAN_LENT(h), word, key, answer);
}

/* The next item of an iterator, or its end. Refused: 1, 11, 2. Answers x: 1 where there is an item, word: the item. */
static inline uint64_t mirchollan_iter_next(mirchollan_heap *h, uint64_t word, mirchollan_answer *answer)
{
    return mch_iter_next(MIRCHOLLAN_LENT(h), word, answer);
}

/* The key of the item visited last. Refused: 1, 11, 2. Answers x: 1 where an item was visited, word: its key. */
static inline uint64_t mirchollan_iter_key(const mirchollan_heap *h, uint64_t word, mirchollan_answer *answer)
{
    return mch_iter_key(MIRCHOLLAN_LENT(h), word, answer);
}

/* The word of the array or map that an iterator goes over. Refused: 1, 11, 2. Answers word. */
static inline uint64_t mirchollan_iter_source(const mirchollan_heap *h, uint64_t word, mirchollan_answer *answer)
{
    return mch_iter_source(MIRCHOLLAN_LENT(h), word, answer);
}

/* The type of an iterator's keys. Refused: 1, 11, 2. Answers word. */
static inline uint64_t mirchollan_iter_key_type(const mirchollan_heap *h, uint64_t word, mirchollan_answer *answer)
{
    return mch_iter_key_type(MIRCHOLLAN_LENT(h), word, answer);
}

/* Whether an iterator has ended. Refused: 1, 11, 2. Answers word: 1 yes, 0 no. */
static inline uint64_t mirchollan_iter_ended(const mirchollan_heap *h, uint64_t word, mirchollan_answer *answer)
{
    return mch_iter_ended(MIRCHOLLAN_LENT(h), word, answer);
}

/* An iterator's cursor. Refused: 1, 11, 2. Answers over an array, x: 6, word: index; over a map, x: 7, word: position,
   y: 1 where an entry was yielded, z: its sequence number, u: epoch. */
static inline uint64_t mirchollan_iter_cursor(const mirchollan_heap *h, uint64_t word, mirchollan_answer *answer)
{
    return mch_iter_cursor(MIRCHOLLAN_LENT(h), word, answer);
}

#undef MIRCHOLLAN_LENT

#ifdef __cplusplus
}
#endif

#endif
