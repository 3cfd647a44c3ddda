/*
 * The mailbox of the example, and the loop that its orders take:
 *   1. a command of the host goes to sci_mailbox, here by ask;
 *   2. where the answer has an order, that goes to the engine with the block, here by
 *      start_engine. Until the reply every command but FSTA is refused (17);
 *   3. the engine's reply goes to sci_engine_reply, here by engine_replies. After any
 *      other than done KLOD and KUNL are refused (18), until a CLKC is done.
 * The numbers are 17 and 18 unless one of 1 to 14 applies.
 */
#include "drive.h"

#include <inttypes.h>
#include <stdio.h>
#include <string.h>

#define TIMEOUT 1000 /* the engine's, in the unit that host and drive have agreed on */

/* The mailbox's buffers are ours, as all that is lent. */
static uint8_t response[SCI_LEAST_RESPONSE];
static uint8_t block[SCI_BLOCK_BYTES];

/* The fields of requests and responses: four bytes each, low byte first. */
static void put_field(uint8_t *bytes, uint32_t value)
{
    int i;
    for (i = 0; i < 4; i++) {
        bytes[i] = (uint8_t)(value >> (8 * i));
    }
}

static uint32_t field(const uint8_t *bytes)
{
    return bytes[0] + ((uint32_t)bytes[1] << 8) + ((uint32_t)bytes[2] << 16)
           + ((uint32_t)bytes[3] << 24);
}

/* Puts the chksum into a request and hands it to the mailbox. The chksum is 0 minus
 * the sum of the code's four bytes and of every byte of the request behind it. */
static sci_reply ask(uint32_t code, uint8_t *request, size_t request_bytes)
{
    uint32_t sum = (code & 0xFF) + (code >> 8 & 0xFF) + (code >> 16 & 0xFF) + (code >> 24);
    size_t i;
    for (i = 4; i < request_bytes; i++) {
        sum += request[i];
    }
    put_field(request, 0 - sum);
    return sci_mailbox(map, MAP_BYTES, cells, CELLS, marks, CELLS, &context, code,
                       request, request_bytes, response, sizeof response, block, sizeof block);
}

/* A command without an order for the engine has to be carried out. */
static bool carried_out(const char *command, sci_reply reply)
{
    return (reply.refusal == 0 && reply.order == SCI_ORDER_NONE) || failed(command, reply.refusal);
}

/* What a place is called, an empty one apart. A kind that is not known is no better than
 * unsure. */
static const char *kind_name(uint32_t kind)
{
    switch (kind) {
    case SCI_PLACE_WAITING: return "waiting";
    case SCI_PLACE_HELD: return "held";
    default: return "unsure";
    }
}

/* Prints the places that are not empty, and answers how many there are. */
uint32_t list_places(void)
{
    uint32_t i, listed = 0;
    printf("places:");
    for (i = 0; i < SCI_PLACES; i++) {
        sci_place place = sci_cache_place(&context, i);
        if (place.kind != SCI_PLACE_EMPTY) {
            printf("%s %" PRIu32 " %s", listed == 0 ? "" : ",", i, kind_name(place.kind));
            listed++;
        }
    }
    printf("%s\n", listed == 0 ? " all empty" : "");
    return listed;
}

/* Hands an order to the engine. Here a drive writes the block to the engine's registers
 * from 00h on and the order to CTRL, starts a timer with the order's timeout, and wipes
 * the block, which may hold a key. This engine is pretended: nothing is written. */
static bool start_engine(const char *command, sci_reply order)
{
    static const char *const names[] = {
        [SCI_ORDER_CLEAR] = "clear", [SCI_ORDER_LOAD] = "load", [SCI_ORDER_UNLOAD] = "unload"
    };
    if (order.order == SCI_ORDER_NONE) {
        return failed(command, 0);
    }
    printf("%s: %s", command, names[order.order]);
    if (order.order != SCI_ORDER_CLEAR) {
        printf(" place %" PRIu32, order.place);
    }
    printf(", timeout %" PRIu32 "\n", order.timeout);
    (void)list_places();
    return true;
}

/* What a reply is called. Any other number than the first two counts as failed. */
static const char *reply_name(uint32_t reply)
{
    switch (reply) {
    case SCI_ENGINE_DONE: return "done";
    case SCI_ENGINE_TIMED_OUT: return "timed out";
    default: return "failed";
    }
}

/* For when the engine has replied to its order, or the drive's timer has run out, which
 * is SCI_ENGINE_TIMED_OUT. Only what the engine itself calls done is SCI_ENGINE_DONE, and
 * only to this order: a drive drops the late reply to one that has timed out. A number
 * that the engine failed with would stand in place of the 0; it is not kept. */
bool engine_replies(uint32_t reply)
{
    uint32_t refusal = sci_engine_reply(&context, reply, 0);
    if (refusal != 0) {
        return failed("engine's reply", refusal);
    }
    printf("engine: %s\n", reply_name(reply));
    (void)list_places();
    return true;
}

/* A command with an order for the engine: starts it, unless the command is refused as
 * it has to be. */
static bool order_engine(const char *command, sci_reply reply, uint32_t refusal)
{
    if (reply.refusal != refusal) {
        return failed(command, reply.refusal);
    }
    if (refusal != 0) {
        printf("%s: refused %" PRIu32 "\n", command, refusal);
        return true;
    }
    return start_engine(command, reply);
}

bool load_key(uint64_t tag, const uint8_t mek[MEK_BYTES], uint32_t refusal)
{
    uint8_t request[20 + MEK_BYTES] = {0};
    /* chksum, at 0, is put in by ask */
    put_field(request + 4, 0); /* reserved */
    put_field(request + 8, TIMEOUT);
    put_field(request + 12, (uint32_t)tag);
    put_field(request + 16, (uint32_t)(tag >> 32));
    memcpy(request + 20, mek, MEK_BYTES);
    /* Here a drive wipes the request afterwards, which holds the key. */
    return order_engine("KLOD", ask(SCI_KLOD, request, sizeof request), refusal);
}

bool clear_keys(uint32_t refusal)
{
    uint8_t request[12] = {0}; /* chksum, reserved, cmd_timeout */
    put_field(request + 8, TIMEOUT);
    return order_engine("CLKC", ask(SCI_CLKC, request, sizeof request), refusal);
}

/* Which slot is active, SCI_NO_SLOT if none is, and whether its key is available:
 * it must be as long as the slot has its seed, and not after. */
bool ask_for_status(bool must_be_available)
{
    uint8_t request[8] = {0}; /* chksum, reserved */
    if (!carried_out("FSTA", ask(SCI_FSTA, request, sizeof request))) {
        return false;
    }
    printf("FSTA: active slot 0x%08" PRIX32 ", HEK available %" PRIu32 "\n",
           field(response + 12), field(response + 16));
    if (field(response + 16) != (must_be_available ? 1 : 0)) {
        fprintf(stderr, "FSTA: the HEK should%s be available\n", must_be_available ? "" : " not");
        return false;
    }
    return true;
}

/* Prints the handles of the table, each with its algorithm. */
bool list_handles(void)
{
    uint8_t request[8] = {0}; /* chksum, reserved */
    uint32_t i;
    if (!carried_out("EHDL", ask(SCI_EHDL, request, sizeof request))) {
        return false;
    }
    printf("EHDL:");
    for (i = 0; i < field(response + 12); i++) {
        printf("%s handle %" PRIu32 " algorithm %" PRIu32, i == 0 ? "" : ",",
               field(response + 16 + 8 * i), field(response + 20 + 8 * i));
    }
    printf("\n");
    return true;
}

/* Gives a handle its next number, which is all that the key block does. Here a drive rotates
 * the keypair, and saves the context before the response goes to the host, so that the
 * number is not given again after a loss of power. */
bool rotate_handle(uint32_t handle)
{
    uint8_t request[12] = {0}; /* chksum, reserved, hpke_handle */
    put_field(request + 8, handle);
    if (!carried_out("RHPK", ask(SCI_RHPK, request, sizeof request))) {
        return false;
    }
    printf("RHPK: handle %" PRIu32 " becomes %" PRIu32 "\n", handle, field(response + 12));
    return true;
}
