/* Document 01, "The small drive", from C: the direct commands, which the example does not
 * show, and every field of their answers, of a mailbox's reply, an erasure that is refused and
 * one that ends with a short indicator and, by document 02, P1, P2 and P5 to P8, of reasons, of
 * maps that are written, of a place after each reply of the engine, of a table of handles, of
 * ZEROIZE on the older guide, and of new fuses. */
#include "sciambrunola.h"

#include <inttypes.h>
#include <stdio.h>
#include <string.h>

#define CELLS 12
#define DRIVE image, sizeof image, cells, CELLS, marks, CELLS, &context
#define WEAK image, sizeof image, weak_cells, CELLS, weak_marks, CELLS, &context

static const uint8_t image[] = {
    2, 0, 12, 0, 60, 0, 8, 0, /* P, C, B, E */
    0, 0, 6, 0, 0, 7, 0, 0,   /* entry 0, the slot */
    6, 0, 6, 0, 1, 0, 0, 0    /* entry 1, software */
};
static uint32_t cells[CELLS] = {1};
static const uint32_t marks[CELLS] = {0, 0, 0, 0, 0xFFFFFFFF, 0xFFFFFFFF};
/* Another drive: its indicator cannot have more than 59 ones. */
static uint32_t weak_cells[CELLS] = {1};
static const uint32_t weak_marks[CELLS] = {0, 0, 0, 0, 0, 0x1F};
static const uint32_t torn[CELLS] = {
    0xFFFFFFFF, 0xFFFFFFFF, /* data, erased */
    0x80000000, 0x00000011, /* the digest, short */
    0xFFFFFFFF, 0xFFFFFFFF  /* the indicator */
};
static sci_context context = {0};
static uint8_t response[SCI_LEAST_RESPONSE];

static void print_bytes(const uint8_t *bytes, size_t count)
{
    size_t i;
    for (i = 0; i < count; i++) {
        printf(" %02X", bytes[i]);
    }
    printf("\n");
}

static void print_answer(const char *name, sci_answer answer)
{
    printf("%s: kind %" PRIu32 ", refusal %" PRIu32 ", word %" PRIu64 ", new fuses %" PRIu32
           "\n", name, answer.kind, answer.refusal, answer.word, answer.new_fuses);
}

/* A board on the older guide, with stuck fuses in cells 1, 3 and 7. */
static void print_older(void)
{
    static const uint8_t older[] = {
        2, 0, 12, 0, 60, 0, 8, 0, /* P, C, B, E */
        0, 0, 6, 0, SCI_KIND_HARDWARE,
        SCI_FLAG_ZEROIZABLE + SCI_FLAG_SECRET + SCI_FLAG_SLOT + SCI_FLAG_OLDER_GUIDE, 0, 0,
        6, 0, 6, 0, SCI_KIND_SOFTWARE, SCI_FLAG_ZEROIZABLE + SCI_FLAG_OLDER_GUIDE, 0, 0
    };
    static uint32_t fuses[CELLS] = {1};
    static const uint32_t stuck[CELLS] = {0, 0x0F, 0, 0x1F, 0, 0, 0, 0x1F};
    static const uint32_t words[] = {0, 2, 7};
    size_t i;
    for (i = 0; i < sizeof words / sizeof words[0]; i++) {
        printf("older guide, ");
        print_answer("ZEROIZE", sci_zeroize(older, sizeof older, fuses, CELLS, stuck, CELLS,
                                            &context, words[i]));
    }
    printf("cells 1, 3 and 7: %" PRIX32 " %" PRIX32 " %" PRIX32 "\n", fuses[1], fuses[3], fuses[7]);
}

static void print_erasure(sci_erasure erasure)
{
    printf("erasure: kind %" PRIu32 ", refusal %" PRIu32 ", short %" PRIu32 ", first %" PRIu32
           ", burns %" PRIu32 ", new fuses %" PRIu32 "\n", erasure.kind, erasure.refusal,
           erasure.short_pairs, erasure.first_short, erasure.burns, erasure.new_fuses);
}

static void print_reason(const char *name, const uint32_t *these, size_t count)
{
    sci_reason reason = sci_why(image, sizeof image, these, count, marks, CELLS);
    printf("%s: kind %" PRIu32 ", refusal %" PRIu32 ", partition %" PRIu32 ", cell %" PRIu32
           ", ones %" PRIu32 "\n", name, reason.kind, reason.refusal, reason.partition,
           reason.cell, reason.ones);
}

static void print_place(void)
{
    sci_place place = sci_cache_place(&context, 0);
    printf("; place 0: kind %" PRIu32 ", tag %" PRIX64 "\n", place.kind, place.tag);
}

static uint32_t print_mail(const char *name, uint32_t code, const uint8_t *request, size_t bytes)
{
    uint8_t block[SCI_BLOCK_BYTES];
    sci_reply reply = sci_mailbox(DRIVE, code, request, bytes, response, sizeof response, block,
                                  sizeof block);
    printf("%s: refusal %" PRIu32 ", length %" PRIu32 ", order %" PRIu32 ", place %" PRIu32
           ", timeout %" PRIu32, name, reply.refusal, reply.length, reply.order, reply.place,
           reply.timeout);
    print_place();
    return reply.length;
}

static void print_response(const char *name, uint32_t code, const uint8_t *request, size_t bytes)
{
    uint32_t length = print_mail(name, code, request, bytes);
    printf("response:");
    print_bytes(response, length);
}

static void print_reply(uint32_t reply)
{
    printf("reply %" PRIu32 ": refusal %" PRIu32, reply, sci_engine_reply(&context, reply, 7));
    print_place();
}

/* A key is loaded; then the cache is cleared, with each of these replies. */
static void print_keys(void)
{
    static const uint8_t klod[84] = {
        0xBC, 0xFE, 0xFF, 0xFF, [8] = 6, [12] = 5, [16] = 7, [20] = 8
    };
    static const uint8_t clkc[12] = {0xF8, 0xFD, 0xFF, 0xFF, [8] = 0xE8, [9] = 3};
    static const uint32_t replies[] = {
        SCI_ENGINE_TIMED_OUT, SCI_ENGINE_FAILED, 0, 4, 0xFFFFFFFF, SCI_ENGINE_DONE
    };
    size_t i;
    (void)print_mail("KLOD", SCI_KLOD, klod, sizeof klod);
    (void)print_mail("KLOD", SCI_KLOD, klod, sizeof klod);
    print_reply(SCI_ENGINE_DONE);
    print_reply(SCI_ENGINE_DONE);
    for (i = 0; i < sizeof replies / sizeof replies[0]; i++) {
        (void)print_mail("CLKC", SCI_CLKC, clkc, sizeof clkc);
        print_reply(replies[i]);
    }
}

static void print_table(const uint32_t *handles, size_t handle_count, size_t algorithm_count)
{
    static const uint32_t algorithms[SCI_HANDLES + 1] = {0x12345678, 2, 2, 4};
    printf("table of %zu, %zu: refusal %" PRIu32 "\n", handle_count, algorithm_count,
           sci_make_table(&context, handles, handle_count, algorithms, algorithm_count));
}

/* Tables that are none, one that is made, and a second. */
static void print_tables(void)
{
    static const uint32_t handles[SCI_HANDLES + 1] = {0xFFFFFFFD, 5, 9, 7};
    static const uint32_t equal[SCI_HANDLES] = {5, 9, 5};
    print_table(handles, 0, 0);
    print_table(handles, SCI_HANDLES + 1, SCI_HANDLES + 1);
    print_table(handles, 2, 1);
    print_table(handles, 2, 3);
    print_table(equal, SCI_HANDLES, SCI_HANDLES);
    print_table(handles, SCI_HANDLES, SCI_HANDLES);
    print_table(handles, 1, 1);
}

/* The handles are listed, and rotated until the numbers are used up. */
static void print_handles(void)
{
    static const uint8_t ehdl[8] = {0xE3, 0xFE, 0xFF, 0xFF};
    static const uint8_t rhpk[][12] = {
        {0xC6, 0xFE, 0xFF, 0xFF, [8] = 5}, /* the second */
        {0xC6, 0xFE, 0xFF, 0xFF, [8] = 5}, /* which is there no longer */
        {0xC2, 0xFE, 0xFF, 0xFF, [8] = 9}, /* the third, by the last number */
        {0xD1, 0xFA, 0xFF, 0xFF, [8] = 0xFD, 0xFF, 0xFF, 0xFF} /* the first */
    };
    size_t i;
    (void)print_mail("EHDL", SCI_EHDL, ehdl, sizeof ehdl);
    print_tables();
    print_response("EHDL", SCI_EHDL, ehdl, sizeof ehdl);
    for (i = 0; i < sizeof rhpk / sizeof rhpk[0]; i++) {
        print_response("RHPK", SCI_RHPK, rhpk[i], sizeof rhpk[i]);
    }
    print_response("EHDL", SCI_EHDL, ehdl, sizeof ehdl);
}

/* The map of a text, with this room; the byte behind it must stay. */
static void print_map(const char *text, size_t room)
{
    uint8_t written[SCI_LONGEST_IMAGE + 1];
    sci_written map;
    memset(written, 0xA5, sizeof written);
    map = sci_write_map((const uint8_t *)text, strlen(text), written, room);
    printf("map: refusal %" PRIu32 ", bytes %" PRIu32 ",", map.refusal, map.bytes);
    print_bytes(written, map.bytes + 1);
}

int main(void)
{
    print_answer("READ 0", sci_read(DRIVE, 0));
    print_answer("WRITE 7", sci_write(DRIVE, 7, 0x81));
    print_answer("WRITE 7", sci_write(DRIVE, 7, 0x89));
    print_answer("READ 7", sci_read(DRIVE, 7));
    print_answer("WRITE 0", sci_write(DRIVE, 0, 5));
    print_answer("ZEROIZE 4", sci_zeroize(WEAK, 4));
    print_answer("ZEROIZE 6", sci_zeroize(DRIVE, 6));
    print_older();
    print_erasure(sci_erase(DRIVE, 0));
    print_erasure(sci_erase(WEAK, 0));
    print_handles();
    print_keys();
    print_reason("why", cells, CELLS);
    print_reason("why, torn", torn, CELLS);
    print_reason("why, a cell too few", torn, CELLS - 1);
    print_map("12 60\n0 6 0 7\n6 6 1 0\n", SCI_LONGEST_IMAGE);
    print_map("64 33\n0 64 2 0\n", 16);
    print_map("64 33\n0 64 2 0\n", 15);
    print_map("12 60\n0 6 0 7\n6 6 1 0", SCI_LONGEST_IMAGE);
    print_map("12 60\n0 6 0 5\n6 6 1 0\n", SCI_LONGEST_IMAGE);
    return 0;
}
