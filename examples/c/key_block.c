/*
 * The key block from C, on the small drive of document 01: its map and its states are
 * read; its table of handles is made, and a handle rotated; a key is loaded, and an
 * erasure refused while it is held; the engine does not answer to the load of another
 * key, and a clear recovers; an erasure is cut by a power failure, the drive restarts,
 * the next erasure ends it, and the drive is asked why it offers no key. Each step prints
 * a line or two; one that fails ends the program with a failing status. main, at the end,
 * tells the story; the mailbox and the engine are in mailbox.c.
 *
 * From the root of the repository, once the archive is built and there is a folder target:
 *   cc -std=c99 -I include examples/c/key_block.c examples/c/mailbox.c \
 *     crates/sciambrunola/out/libsciambrunola.a -o target/key_block
 *   target/key_block
 * Arguments are stuck marks for cells 1 and 5, in hexadecimal. With 0F word 0 gets 60
 * of its 64 ones, which is enough; with 1F it gets 59, and the slot is not erased. With
 * 0 1F the indicator gets 59, and the slot is erased all the same.
 */
#include "drive.h"

#include <inttypes.h>
#include <stdio.h>
#include <stdlib.h>
#include <string.h>

#define SLOT 0 /* the partition that holds the secret seed */
#define SLOT_FLAGS (SCI_FLAG_ZEROIZABLE + SCI_FLAG_SECRET + SCI_FLAG_SLOT)

/* The map says what lies where in the fuses. All but kind and flags are numbers
 * of two bytes, low byte first. */
const uint8_t map[MAP_BYTES] = {
    2, 0,  /* partitions */
    12, 0, /* cells */
    60, 0, /* bound: a pair of cells with fewer ones is short */
    8, 0,  /* the entries begin at byte 8 */
    0, 0, 6, 0, SCI_KIND_HARDWARE, SLOT_FLAGS, 0, 0, /* from cell 0 on 6 cells */
    6, 0, 6, 0, SCI_KIND_SOFTWARE, 0, 0, 0           /* from cell 6 on 6 cells; no flags */
};

/* The library has no memory of its own. The fuses, one of them set, their stuck marks,
 * and the context, in which it keeps the key cache, here empty, whether the engine's reply
 * is awaited, and the table of handles, which is still to be made, are ours, and lent to
 * it for each call. */
uint32_t cells[CELLS] = {1};
uint32_t marks[CELLS];
sci_context context = {0};

/* A step that was not answered as it should have been; most likely it was refused. */
bool failed(const char *step, uint32_t refusal)
{
    fprintf(stderr, "%s: refusal %" PRIu32 "\n", step, refusal);
    return false;
}

static bool read_partition(uint32_t i)
{
    sci_fields fields = sci_partition(map, sizeof map, i);
    if (fields.refusal != 0) {
        return failed("partition", fields.refusal);
    }
    printf("partition %" PRIu32 ": first cell %" PRIu32 ", %" PRIu32 " cells, kind %" PRIu32
           ", flags %" PRIu32 "\n",
           i, fields.first, fields.length, fields.kind, fields.flags);
    return true;
}

static bool read_map(void)
{
    sci_fields fields = sci_partition(map, sizeof map, 0);
    uint32_t i;
    if (fields.refusal != 0) {
        return failed("map", fields.refusal);
    }
    printf("map: %" PRIu32 " partitions, %" PRIu32 " cells, bound %" PRIu32 "\n",
           fields.partitions, fields.cells, fields.bound);
    for (i = 0; i < fields.partitions; i++) {
        if (!read_partition(i)) {
            return false;
        }
    }
    return true;
}

static bool list_states(void)
{
    static const char *const names[] = {
        [SCI_STATE_ERASED] = "erased", [SCI_STATE_TORN] = "torn",
        [SCI_STATE_BLANK] = "blank", [SCI_STATE_PROGRAMMED] = "programmed"
    };
    uint32_t states[SCI_PARTITIONS], short_pairs[SCI_PARTITIONS], i;
    sci_listing listing = sci_states(map, sizeof map, cells, CELLS, marks, CELLS,
                                     states, short_pairs);
    if (listing.refusal != 0) {
        return failed("states", listing.refusal);
    }
    printf("states:");
    for (i = 0; i < listing.partitions; i++) {
        printf("%s %" PRIu32 " %s, %" PRIu32 " short", i == 0 ? "" : ";", i,
               names[states[i]], short_pairs[i]);
    }
    printf("\n");
    return true;
}

/* Why the drive offers no key, for whoever has to judge it. */
static bool tell_why(void)
{
    sci_reason reason = sci_why(map, sizeof map, cells, CELLS, marks, CELLS);
    switch (reason.kind) {
    case SCI_REASON_AVAILABLE:
        printf("why: the key is available\n");
        return true;
    case SCI_REASON_NO_SLOT:
        printf("why: the map has no slot\n");
        return true;
    case SCI_REASON_ALL_ERASED:
        printf("why: every slot is erased\n");
        return true;
    case SCI_REASON_BLANK:
        printf("why: slot %" PRIu32 " is blank\n", reason.partition);
        return true;
    case SCI_REASON_TORN:
        printf("why: slot %" PRIu32 " is torn, its pair at cell %" PRIu32 " has %" PRIu32
               " ones\n", reason.partition, reason.cell, reason.ones);
        return true;
    default:
        return failed("why", reason.refusal);
    }
}

/* Once for each drive, before its first mailbox command. Here a drive saves the context,
 * which has the table; whenever the power is back it loads that, then calls sci_restart. */
static bool make_table(void)
{
    static const uint32_t handles[] = {1, 2};
    static const uint32_t algorithms[] = {0x1, 0x2}; /* of document 003, a bit for each */
    uint32_t refusal = sci_make_table(&context, handles, 2, algorithms, 2);
    if (refusal != 0) {
        return failed("table", refusal);
    }
    printf("table: made\n");
    return true;
}

/* The charge that the burns drew is the number of new fuses times that of one fuse. */
static sci_erasure erase(void)
{
    sci_erasure erasure = sci_erase(map, sizeof map, cells, CELLS, marks, CELLS, &context, SLOT);
    if (erasure.kind == SCI_ENDED) {
        printf("erasure: %" PRIu32 " short, %" PRIu32 " burns, %" PRIu32 " new fuses\n",
               erasure.short_pairs, erasure.burns, erasure.new_fuses);
    } else {
        printf("erasure: refused %" PRIu32 "\n", erasure.refusal);
    }
    return erasure;
}

/* While a key is held the slot must not change; nor while a place waits or is unsure. */
static bool erase_with_key_held(void)
{
    sci_erasure erasure = erase();
    if (erasure.kind != SCI_ERASURE_REFUSED || erasure.refusal != SCI_REFUSAL_KEYS_HELD) {
        return failed("erasure with a key held", erasure.refusal);
    }
    return true;
}

/* What a power failure leaves that comes at burn 1, the first data word, when its
 * low half has burned: for trying out what the drive does when it is back. */
static bool erase_slot_cut(void)
{
    sci_erasure erasure = sci_erase_cut(map, sizeof map, cells, CELLS, marks, CELLS, &context,
                                        SLOT, 1, UINT32_C(0xFFFFFFFF));
    if (erasure.kind != SCI_CUT) {
        return failed("cut erasure", erasure.refusal);
    }
    printf("erasure cut: %" PRIu32 " burns, %" PRIu32 " new fuses\n", erasure.burns,
           erasure.new_fuses);
    return true;
}

/* The drive is back, and the engine with it: no key is held, and no reply is awaited; the
 * table of handles is what it was. A drive that goes on unloads its keys by KUNL or CLKC,
 * which have an order for the engine. */
static bool restart(void)
{
    sci_restart(&context);
    printf("restart\n");
    return (list_places() == 0 || failed("restart", 0)) && list_handles();
}

/* An erasure of the slot that ended has erased it exactly if no pair is short or the
 * first short cell is the indicator's. That is the last pair: no other is short then. */
static bool is_erased(sci_erasure erasure)
{
    sci_fields slot = sci_partition(map, sizeof map, SLOT);
    return erasure.short_pairs == 0 || erasure.first_short == slot.first + slot.length - 2;
}

/* Erases the slot. That the erasure ended is not enough: with a short pair besides the
 * indicator it is torn, its seed may still be there, and the reason names that pair. */
static bool erase_slot(void)
{
    sci_erasure erasure = erase();
    bool told = list_states() && tell_why();
    if (erasure.kind != SCI_ENDED) {
        return failed("erasure", erasure.refusal);
    }
    if (!is_erased(erasure)) {
        fprintf(stderr, "erasure: the slot is torn, its seed may still be there\n");
        return false;
    }
    return told;
}

/* A mark is 1 to 8 hexadecimal digits and nothing else. */
static bool is_mark(const char *text)
{
    size_t digits = strspn(text, "0123456789ABCDEFabcdef");
    return digits >= 1 && digits <= 8 && text[digits] == '\0';
}

/* Puts the marks on cells 1 and 5 that the arguments name, as many as there are. */
static bool take_marks(int argc, char **argv)
{
    int i;
    for (i = 1; i < argc; i++) {
        if (i > 2 || !is_mark(argv[i])) {
            fprintf(stderr, "usage: key_block [mark of cell 1 [mark of cell 5]], in hexadecimal\n");
            return false;
        }
        marks[i == 1 ? 1 : 5] = (uint32_t)strtoul(argv[i], NULL, 16);
    }
    return true;
}

int main(int argc, char **argv)
{
    uint8_t mek[MEK_BYTES];
    bool done;
    memset(mek, 0x4B, sizeof mek); /* stands for a key */
    done = take_marks(argc, argv) && read_map() && list_states()
           /* a table of handles is made; one handle is rotated */
           && make_table() && list_handles() && rotate_handle(1) && list_handles()
           && ask_for_status(true)
           /* a key is loaded, and held once the engine is done */
           && load_key(1, mek, 0) && engine_replies(SCI_ENGINE_DONE) && erase_with_key_held()
           /* the engine is silent until the timer runs out; meanwhile FSTA alone is answered */
           && load_key(2, mek, 0) && clear_keys(SCI_REFUSAL_AWAITING) && ask_for_status(true)
           && engine_replies(SCI_ENGINE_TIMED_OUT) && load_key(3, mek, SCI_REFUSAL_UNSURE)
           /* a clear that is done recovers */
           && clear_keys(0) && engine_replies(SCI_ENGINE_DONE)
           /* the slot is erased */
           && erase_slot_cut() && restart() && list_states() && erase_slot()
           && ask_for_status(false);
    return done ? EXIT_SUCCESS : EXIT_FAILURE;
}
