/* A small line controller: parcels wait in a queue and are known by their codes; one leaves, a collection frees it, and
   its reference opens nothing any more, though its slot is in use again. */
#include "mirchollan.h"
#include <inttypes.h>
#include <stdio.h>
#include <stdlib.h>

enum { SLOTS = 16, CELLS = 256, NAME = 0, GRAMS = 1 };

static uint64_t slots[MIRCHOLLAN_SLOTS(SLOTS)], scalars[MIRCHOLLAN_SCALARS(SLOTS)], list[MIRCHOLLAN_LIST(SLOTS)];
static uint64_t directory[MIRCHOLLAN_DIRECTORY(SLOTS)], cells[CELLS], table[MIRCHOLLAN_TABLE];
static uint8_t marks[MIRCHOLLAN_MARKS(SLOTS)];
static uint32_t order[MIRCHOLLAN_ORDER(SLOTS)];

/* One struct type, whose field NAME is traced. */
static const uint8_t layout[] = { 0x01, 0x02, NAME, 0x00, 0x00 };

static mirchollan_heap heap = {
    .slots = slots, .slots_length = sizeof slots / sizeof *slots,
    .scalars = scalars, .scalars_length = sizeof scalars / sizeof *scalars,
    .list = list, .list_length = sizeof list / sizeof *list,
    .directory = directory, .directory_length = sizeof directory / sizeof *directory,
    .cells = cells, .cells_length = sizeof cells / sizeof *cells,
    .layout = layout, .layout_length = sizeof layout,
    .table = table, .table_length = sizeof table / sizeof *table,
    .marks = marks, .marks_length = sizeof marks / sizeof *marks,
    .order = order, .order_length = sizeof order / sizeof *order,
};

/* Ends the program where a call that has to be accepted is refused. */
static void accepted(const char *call, uint64_t refusal)
{
    if (refusal != MIRCHOLLAN_ACCEPTED) {
        fprintf(stderr, "%s: refused with %" PRIu64 "\n", call, refusal);
        exit(1);
    }
}

static uint64_t new_parcel(const char *name, int64_t grams)
{
    mirchollan_answer a;
    uint64_t fields[2];
    accepted("new_string", mirchollan_new_string(&heap, (const uint8_t *)name, strlen(name), &a));
    fields[NAME] = a.word;
    if (!mirchollan_integer_word(grams, &fields[GRAMS]))
        exit(1);
    accepted("new_struct", mirchollan_new_struct(&heap, 0, fields, 2, &a));
    return a.word;
}

static void show_parcel(uint64_t parcel)
{
    mirchollan_answer a;
    uint8_t name[32];
    accepted("read_field", mirchollan_read_field(&heap, parcel, NAME, &a));
    accepted("read_string", mirchollan_read_string(&heap, a.word, name, sizeof name, &a));
    int length = (int)a.word;
    accepted("read_field", mirchollan_read_field(&heap, parcel, GRAMS, &a));
    mirchollan_read_word(a.word, &a);
    printf("  %.*s, %" PRId64 " g\n", length, (const char *)name, (int64_t)a.word);
}

static void show_counts(const char *when)
{
    mirchollan_answer present, used;
    mirchollan_present_count(&heap, &present);
    mirchollan_used_bytes(&heap, &used);
    printf("%s: %" PRIu64 " objects, %" PRIu64 " bytes\n", when, present.word, used.word);
}

int main(void)
{
    static const char *names[] = { "tiles", "seed", "lamps" };
    static const int64_t grams[] = { 12500, 300, 2250 };
    static const uint64_t codes[] = { 7001, 7002, 7003 };
    const mirchollan_weights weights = { 64, 40, 80, 160, 32 };
    mirchollan_answer a;
    uint64_t queue, known, places[1];

    accepted("open", mirchollan_open(&heap, SLOTS, 1 << 20, &weights));
    accepted("new_array", mirchollan_new_array(&heap, MIRCHOLLAN_REFERENCE, 0, &a));
    queue = a.word;
    accepted("new_map", mirchollan_new_map(&heap, MIRCHOLLAN_PLAIN, MIRCHOLLAN_REFERENCE, &a));
    known = a.word;
    for (int i = 0; i < 3; i++) {
        uint64_t parcel = new_parcel(names[i], grams[i]);
        accepted("push", mirchollan_push(&heap, queue, parcel, &a));
        accepted("put", mirchollan_put(&heap, known, codes[i], codes[i], parcel, &a));
    }
    show_counts("filled");

    accepted("pop", mirchollan_pop(&heap, queue, &a));
    uint64_t gone = a.word;
    accepted("remove", mirchollan_remove(&heap, known, codes[2], codes[2], &a));
    const uint64_t roots[] = { queue, known };
    accepted("collect", mirchollan_collect(&heap, roots, 2, places, 1, &a));
    printf("collected: %" PRIu64 " freed\n", a.word);
    show_counts("afterwards");

    accepted("new_iter", mirchollan_new_iter(&heap, queue, &a));
    uint64_t iterator = a.word;
    printf("in the queue:\n");
    for (;;) {
        accepted("iter_next", mirchollan_iter_next(&heap, iterator, &a));
        if (!a.x)
            break;
        show_parcel(a.word);
    }
    accepted("find", mirchollan_find(&heap, known, codes[1], codes[1], &a));
    accepted("read_entry", mirchollan_read_entry(&heap, known, a.word, &a));
    printf("code %" PRIu64 ":\n", a.y);
    show_parcel(a.word);

    printf("the slot of the parcel that left is in use again: %s\n", (uint32_t)iterator == (uint32_t)gone ? "yes" : "no");
    uint64_t refusal = mirchollan_read_field(&heap, gone, NAME, &a);
    printf("the parcel that left: refused with %" PRIu64 "\n", refusal);
    return refusal == MIRCHOLLAN_DEAD_REFERENCE ? 0 : 1;
}
