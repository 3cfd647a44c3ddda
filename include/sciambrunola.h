/*
 * The proved key block of a drive controller: the map of its fuses, read and
 * written, the states of its partitions, why it offers no key, direct commands on
 * its fuses, the erasure of a partition, the key cache of 16 places, the table of
 * transport handles, the mailbox, and the engine's reply to its orders. Link
 * libsciambrunola.a: it is built for x86-64 Linux (System V calling convention),
 * position-independent, with no heap, no C library and no undefined symbol. Call it
 * from ordinary threads and not from an interrupt handler: it uses the red zone below
 * the stack pointer and the SSE registers. It has no unwind tables, so no exception and
 * no cancellation may pass through a call of it, and a backtrace ends there.
 *
 * Any bytes, texts, cells, marks, contexts, handles, requests and lengths get an answer,
 * and every call ends. What the caller must see to, and all of it:
 *   - every pointer is valid for its count (and not null, even for a count of
 *     0) and aligned for its type; a count is in elements of that type;
 *   - context points to one sci_context; states and short_pairs are arrays of
 *     SCI_PARTITIONS elements;
 *   - a buffer that a call may write, that is one whose pointer is not const
 *     (cells, but for sci_states and sci_why; context, but for sci_cache_place;
 *     for sci_mailbox also response and block; for sci_states states and
 *     short_pairs; for sci_write_map image), overlaps no other buffer of the call.
 *     Buffers that are const may overlap.
 * The archive has no memory of its own: all that a call knows is what it is lent,
 * and all that is kept between calls is the caller's.
 *
 * What is lent to every function, save that sci_partition gets the image only,
 * sci_write_map a text and a buffer for the image, sci_engine_reply, sci_restart and
 * sci_cache_place the context only, sci_make_table the context and the handles with
 * their algorithms, and sci_states and sci_why no context:
 *   image, image_bytes  the map of the fuses, as below; only read, but for
 *                       sci_write_map, which writes it
 *   cells, cell_count   the fuse cells, 32 fuses each; written by sci_write,
 *                       sci_zeroize, sci_erase, sci_erase_cut and, for FERS
 *                       alone, sci_mailbox. Only read by sci_read, though the
 *                       pointer is not const there either, and by sci_states and
 *                       sci_why
 *   marks, mark_count   the stuck marks, one number for each cell: a fuse whose
 *                       bit is set here will not burn; if it is set, it stays
 *                       so. Only read
 *   context             what the key block keeps from call to call: the key
 *                       cache, SCI_PLACES places, each empty or with a 64-bit
 *                       tag, whether the engine's reply is awaited, and the table
 *                       of handles, as below. Have one sci_context for each
 *                       drive, all zeros before its first call (sci_context
 *                       context = {0};), which is an empty cache, no reply
 *                       awaited and no table. Then make its table, by
 *                       sci_make_table: before that every mailbox command is
 *                       refused. Keep the context between calls, and over
 *                       restarts and cuts too, for the table's sake. Do not change
 *                       or interpret its words: later releases may add to them
 *                       and lay them out otherwise, so compile with the header of
 *                       the archive that you link. sci_cache_place tells what a
 *                       place has, EHDL what the table has. Changed by
 *                       sci_mailbox, sci_engine_reply, sci_make_table,
 *                       sci_erase_cut and sci_restart alone. sci_read, sci_write,
 *                       sci_zeroize and sci_erase leave it as it was, though the
 *                       pointer is not const there either
 *
 * The map, each u16 little-endian:
 *   header      four u16: partitions P (1 to 16), cells C (4 to 2,048), bound B
 *               (33 to 64), offset E of the entries (8 to 128)
 *   8 up to E   zeros
 *   E on        P entries of 8 bytes, and nothing behind them: u16 first cell,
 *               u16 cells n, u8 kind (SCI_KIND_: 0 hardware, 1 software, 2 life
 *               cycle), u8 flags (SCI_FLAG_: 1 zeroizable, 2 secret, 4 HEK slot, 8
 *               older guide, by which ZEROIZE answers all ones, see sci_zeroize;
 *               higher bits zero), two zero bytes
 * First and n are even, n at least 4, and at least 6 if zeroizable. Entries
 * ascend without overlap and end by C; gaps are allowed. Life cycle is never
 * zeroizable, secret needs kind 0, a slot is zeroizable and secret, and a partition on
 * the older guide is zeroizable.
 *
 * Words. An even cell and the next are a pair, low half first. A zeroizable
 * partition ends with its indicator, a pair, and before it the digest, a pair;
 * any other ends with the digest. The cells before are data. A word is a pair;
 * only a data word of kind 1 is one cell. It is named by its first cell, counted
 * in the whole array.
 *
 * States. A pair is short when it has fewer ones than B. A partition is marked (which
 * has nothing to do with the stuck marks) when it is zeroizable and its indicator has
 * at least one set fuse. It is
 *   erased      if it is marked and no pair of it but the indicator is short
 *   torn        if it is marked and some other pair of it is short
 *   blank       if it is not marked and every data cell is zero
 *   programmed  if it is not marked and some data fuse is set
 * The active slot is the first slot in map order that is not erased. The HEK is
 * available when there is an active slot and it is programmed.
 *
 * New fuses. A fuse is new when a burn set it and it was not set before. WRITE, ZEROIZE,
 * erasures, cut ones too, and FERS tell how many of the fuses that they burned are new:
 * the set fuses after the call minus those before it. A stuck fuse is never new, nor one
 * that was set already. The charge that a call drew from the supply is this number times
 * the charge of one fuse. Over any erasures of a partition, cut and refused ones and
 * FERS among them, with restarts between them, the sum is the set fuses of all cells
 * after the last minus those before the first, while nothing else changes the cells.
 * The limits. In a secret partition WRITE and ZEROIZE do not tell it, since it would tell
 * how many fuses of a word of the seed were unset; 0 stands in its place, though the call
 * may have drawn charge. An erasure and FERS do tell it of a secret partition: how many
 * fuses of all its words together, the seed's among them, were unset before, stuck ones
 * aside. So does sci_erase_cut, see there. A call that is refused has no new fuse.
 *
 * The key cache and the engine. CLKC, KLOD and KUNL have an order for the encryption
 * engine, and the engine's reply to it is awaited until the drive hands it in; also the
 * reply to a CLKC of an empty cache. A place of the cache is
 *   empty    at first, after done to the unload of its tag or to a clear, and after a
 *            cut or a restart; nothing is kept of a tag that it had
 *   waiting  from a load or an unload of its tag, or a clear, until the reply
 *   held     after done to the load of its tag: the engine has the key
 *   unsure   after a reply that was not done: the engine may have the key, or not
 * So the drive does this with every command that it hands to sci_mailbox:
 *   1. Where the answer has an order, hand it to the engine, with the block, and
 *      start a timer with the order's timeout.
 *   2. Take the engine's reply: done, or failed with a number of its vendor. If the
 *      timer runs out first, the reply is timed out; an engine that never answers is
 *      told by that timer alone, the key block has none.
 *   3. Hand the reply in by sci_engine_reply.
 * In C, on a context with a table, where run_engine is the drive's own and answers a
 * SCI_ENGINE_ number:
 *   reply = sci_mailbox(..., &context, code, request, ..., block, sizeof block);
 *   if (reply.refusal == 0 && reply.order != SCI_ORDER_NONE) {
 *       uint32_t vendor = 0, said = run_engine(&reply, block, &vendor);
 *       refusal = sci_engine_reply(&context, said, vendor);
 *   }
 * Until the reply has come every mailbox command but FSTA is refused, with 17 unless one
 * of 1 to 14 applies, so that one order at most is open. The response tells that the
 * order was given, and not that the engine carried it out: the reply tells that.
 * To recover: after a reply that was not done the places that waited are unsure, and
 * while one is, KLOD and KUNL are refused, with 18 unless one of 1 to 14 applies. CLKC is
 * not. Give its order to the engine; done to it empties every place, and after any other
 * reply they are unsure again, and CLKC can be asked for again. It clears every key, those
 * of held places too: load them again. Or restart the drive, and the engine with it:
 * sci_restart.
 * A late reply, to an order that the drive has already handed in as timed out, is
 * refused with 19 if no reply is awaited; but if another order is open by then, it would
 * be taken for that order's. A reply carries nothing by which the key block could tell:
 * the drive must match replies to orders, and drop a late one.
 * Warning: never hand in as done what was not the engine's own done to this order. A
 * place would be told as held whose key the engine has not, or, worse, as empty whose
 * key it still has, and the slot could then be erased under it.
 *
 * The table of handles. The host lists the drive's transport handles by EHDL, and
 * rotates one by RHPK. They are numbers only: the key block keeps no HPKE keypair, and a
 * rotation gives a number; the drive's own firmware rotates the keypair, and knows which
 * one a number is for. The table has one to SCI_HANDLES handles, an algorithm for each,
 * and the greatest number ever given. RHPK puts one above the greatest in the handle's
 * place, and that is then the greatest; the algorithm stays. A restart and a cut leave
 * the table, whatever becomes of the keypairs.
 * The drive maker makes it once for each drive, before the first mailbox command: until
 * then every mailbox command is refused, with 2 unless 1 applies. In C:
 *   sci_context context = {0};
 *   static const uint32_t handles[] = {1, 2}, algorithms[] = {0x1, 0x2};
 *   refusal = sci_make_table(&context, handles, 2, algorithms, 2);
 * RHPK then gives the numbers above the largest of these handles, one after the other, up
 * to 2^32 - 1.
 * From a fresh table, while only our calls change it, no number is given twice: the
 * handles that it was made of and all that RHPK gave since are distinct, and every handle
 * of the table is one of them. The limits of that: the table is kept in the context, and
 * the drive has to keep the context, over a loss of power too. Save it, whole, after
 * sci_make_table and after each accepted RHPK, before a response goes to the host. Loaded
 * again it has the key cache of then: call sci_restart. Numbers can be given again from a
 * context that is an older copy, that was saved without its table, that was made anew from
 * zeros, or whose words another version laid out. Where one has to be made anew, make its
 * table of handles above every number that was ever given.
 *
 * Refusal numbers, each with the rest of its name behind SCI_REFUSAL_. A call checks
 * those that its own text names, in ascending order, and answers the first that
 * applies. Two calls have another order: sci_write_map checks 16, then 1; sci_mailbox
 * checks 1 to 14 ascending, then 17, 18, 20 and 21, and 15 last, since FERS's run gives
 * it, before which no fuse has burned. A refused call leaves everything that is lent as
 * it was.
 *       SCI_REFUSAL_
 *    1  MAP              the map breaks a rule above
 *    2  LENGTHS          cells or marks are not as many as the map says; for the
 *                        mailbox also the block is not SCI_BLOCK_BYTES long, the
 *                        response buffer is under SCI_LEAST_RESPONSE bytes, or the
 *                        context has no table, or one whose count is not 1 to
 *                        SCI_HANDLES; for sci_make_table what its text says
 *    3  CODE             unknown code
 *    4  REQUEST_LENGTH   the request has not its exact length
 *    5  CHKSUM           wrong chksum
 *    6  RESERVED         reserved is not zero
 *    7  NOT_FOUND        no such partition, or the cell starts no word
 *    8  FORBIDDEN        the command may not touch it
 *    9  CLEARS_FUSE      WRITE would clear a fuse
 *   10  KEYS_HELD        slot change while keys are held: a place of the cache is not
 *                        empty. In 10, 12, 13 and 14 waiting and unsure places count
 *                        as held
 *   11  NO_HEK           KLOD, HEK not available
 *   12  TAG_HELD         KLOD, tag held already
 *   13  NO_PLACE         KLOD, no empty place
 *   14  TAG_NOT_HELD     KUNL, tag not held
 *   15  INDICATOR_UNSET  the erasure's indicator has no set fuse after its burn:
 *                        every fuse of it is stuck, and none was set before. The
 *                        erasure stops before the data: the seed is still there,
 *                        and asking again gives 15 again
 *   16  TEXT             the map's text has not its form, or the buffer for the
 *                        image is too short
 *   17  AWAITING         a mailbox command other than FSTA while a reply of the engine
 *                        is awaited or a place waits: hand in the reply first
 *   18  UNSURE           KLOD or KUNL while a place is unsure: CLKC first
 *   19  NOT_AWAITED      a reply of the engine, and none is awaited
 *   20  NO_HANDLE        RHPK, no handle of the table is the one that is asked for
 *   21  NUMBERS_USED_UP  RHPK, the greatest number ever given is 2^32 - 1, or more, as
 *                        only a damaged context has it: there is no next one
 */
#ifndef SCIAMBRUNOLA_H
#define SCIAMBRUNOLA_H

#include <stddef.h>
#include <stdint.h>

#ifdef __cplusplus
extern "C" {
#endif

/* The version of this header and of the archive that goes with it: it grows by one
 * whenever something changes for a caller. docs/CHANGES.md says what. */
#define SCI_VERSION 12

/* Of a function whose answer has to be looked at: a warning where it is not, if the
 * compiler has one. An erasure that ended is not yet an erased partition. */
#ifdef __GNUC__
#define SCI_ANSWER __attribute__((warn_unused_result))
#else
#define SCI_ANSWER
#endif

/* Places of the key cache. */
#define SCI_PLACES 16
/* The most handles that the table has. */
#define SCI_HANDLES 3
/* Words of a sci_context. */
#define SCI_CONTEXT_WORDS 38
/* Bytes of the engine block: MEK at 00h, METD at 40h, AUX at 60h. */
#define SCI_BLOCK_BYTES 128
/* The shortest response buffer that any command accepts: the longest response, EHDL's. */
#define SCI_LEAST_RESPONSE 40
/* The most partitions that a map has. */
#define SCI_PARTITIONS 16
/* The bytes of the longest image that is written: 8, and 8 for each of SCI_PARTITIONS. */
#define SCI_LONGEST_IMAGE 136

/* sci_fields.kind, and the kind in the map */
#define SCI_KIND_HARDWARE 0
#define SCI_KIND_SOFTWARE 1
#define SCI_KIND_LIFE_CYCLE 2

/* Of these sci_fields.flags is the sum, and the flags in the map. */
#define SCI_FLAG_ZEROIZABLE 1
#define SCI_FLAG_SECRET 2
#define SCI_FLAG_SLOT 4
#define SCI_FLAG_OLDER_GUIDE 8

/* The refusal of any answer; 0 is none. The table above says what each means. */
#define SCI_REFUSAL_MAP 1
#define SCI_REFUSAL_LENGTHS 2
#define SCI_REFUSAL_CODE 3
#define SCI_REFUSAL_REQUEST_LENGTH 4
#define SCI_REFUSAL_CHKSUM 5
#define SCI_REFUSAL_RESERVED 6
#define SCI_REFUSAL_NOT_FOUND 7
#define SCI_REFUSAL_FORBIDDEN 8
#define SCI_REFUSAL_CLEARS_FUSE 9
#define SCI_REFUSAL_KEYS_HELD 10
#define SCI_REFUSAL_NO_HEK 11
#define SCI_REFUSAL_TAG_HELD 12
#define SCI_REFUSAL_NO_PLACE 13
#define SCI_REFUSAL_TAG_NOT_HELD 14
#define SCI_REFUSAL_INDICATOR_UNSET 15
#define SCI_REFUSAL_TEXT 16
#define SCI_REFUSAL_AWAITING 17
#define SCI_REFUSAL_UNSURE 18
#define SCI_REFUSAL_NOT_AWAITED 19
#define SCI_REFUSAL_NO_HANDLE 20
#define SCI_REFUSAL_NUMBERS_USED_UP 21

/* states[i] of sci_states */
#define SCI_STATE_ERASED 0
#define SCI_STATE_TORN 1
#define SCI_STATE_BLANK 2
#define SCI_STATE_PROGRAMMED 3

/* sci_reason.kind. Why the call was refused is in sci_reason.refusal. */
#define SCI_REASON_AVAILABLE 0
#define SCI_REASON_NO_SLOT 1
#define SCI_REASON_ALL_ERASED 2
#define SCI_REASON_BLANK 3
#define SCI_REASON_TORN 4
#define SCI_REASON_REFUSED 5

/* sci_place.kind */
#define SCI_PLACE_EMPTY 0
#define SCI_PLACE_HELD 1
#define SCI_PLACE_WAITING 2
#define SCI_PLACE_UNSURE 3

/* sci_answer.kind. Why a command was refused is in sci_answer.refusal. */
#define SCI_WORD 0
#define SCI_DONE 1
#define SCI_WITHHELD 2
#define SCI_REFUSED 3

/* sci_erasure.kind. SCI_ENDED says that the erasure ran to its end, and no more:
 * the partition is erased exactly if short_pairs is 0 or first_short is its
 * indicator's cell; otherwise it is torn, and its seed may still be there. */
#define SCI_ENDED 0
#define SCI_CUT 1
#define SCI_ERASURE_REFUSED 2
/* sci_erasure.first_short, and the first short cell in FERS's response, where no pair
 * is short. */
#define SCI_NO_CELL UINT32_C(0xFFFFFFFF)
/* The active slot's partition in FSTA's response, where no slot is active. */
#define SCI_NO_SLOT UINT32_C(0xFFFFFFFF)

/* sci_reply.order */
#define SCI_ORDER_NONE 0
#define SCI_ORDER_CLEAR 1
#define SCI_ORDER_LOAD 2
#define SCI_ORDER_UNLOAD 3

/* reply of sci_engine_reply. Any other number counts as failed, 0 among them, so that
 * zeroed memory is not taken for done. */
#define SCI_ENGINE_DONE 1
#define SCI_ENGINE_TIMED_OUT 2
#define SCI_ENGINE_FAILED 3

/* Codes of the mailbox commands. */
#define SCI_CLKC UINT32_C(0x434C4B43)
#define SCI_KLOD UINT32_C(0x4B4C4F44)
#define SCI_KUNL UINT32_C(0x4B554E4C)
#define SCI_FERS UINT32_C(0x46455253)
#define SCI_FSTA UINT32_C(0x46535441)
#define SCI_EHDL UINT32_C(0x4548444C)
#define SCI_RHPK UINT32_C(0x5248504B)

/* What the key block keeps between calls, all zeros at first; then its table is made. The
 * caller keeps it for the key block, and neither changes nor interprets its words. */
typedef struct {
    uint64_t words[SCI_CONTEXT_WORDS];
} sci_context;

/* What the map says of a partition, and of the whole array. On refusal all but
 * the refusal's number is 0. */
typedef struct {
    uint32_t refusal;    /* the refusal's number, else 0 */
    uint32_t partitions; /* P, the map's partitions, numbered from 0 */
    uint32_t cells;      /* C, the cells of the whole array */
    uint32_t bound;      /* B, the ones of a pair that is not short */
    uint32_t first;      /* the partition's first cell, in the whole array */
    uint32_t length;     /* n, its number of cells */
    uint32_t kind;       /* SCI_KIND_HARDWARE, _SOFTWARE or _LIFE_CYCLE */
    uint32_t flags;      /* the sum of SCI_FLAG_ZEROIZABLE, _SECRET, _SLOT, _OLDER_GUIDE */
} sci_fields;

/* What sci_write_map answers beside the image. */
typedef struct {
    uint32_t refusal; /* the refusal's number, 0 where an image was written */
    uint32_t bytes;   /* the image's length; 0 on refusal */
} sci_written;

/* What sci_states answers beside its two arrays. */
typedef struct {
    uint32_t refusal;    /* the refusal's number, else 0 */
    uint32_t partitions; /* P, the states that were written; 0 on refusal */
} sci_listing;

/* Why a drive offers no key. */
typedef struct {
    uint32_t kind;      /* SCI_REASON_AVAILABLE, _NO_SLOT, _ALL_ERASED, _BLANK, _TORN
                           or _REFUSED */
    uint32_t refusal;   /* the refusal's number, 0 unless refused */
    uint32_t partition; /* the active slot's partition where it is blank or torn,
                           else 0 */
    uint32_t cell;      /* torn: the first cell, numbered in the whole array, of its
                           first short pair, which is the lowest, and never the
                           indicator; else 0 */
    uint32_t ones;      /* torn: that pair's ones, fewer than the bound; else 0 */
} sci_reason;

/* What sci_cache_place answers. */
typedef struct {
    uint32_t kind; /* SCI_PLACE_EMPTY, _WAITING, _HELD or _UNSURE */
    uint64_t tag;  /* the place's tag, 0 where it is empty */
} sci_place;

/* What a direct command answers. */
typedef struct {
    uint32_t kind;      /* SCI_WORD, SCI_DONE, SCI_WITHHELD or SCI_REFUSED */
    uint32_t refusal;   /* the refusal's number, 0 unless refused */
    uint64_t word;      /* the word, by ZEROIZE on the older guide all ones; 0 unless one
                           is answered */
    uint32_t new_fuses; /* the fuses of the word that WRITE or ZEROIZE newly set, where
                           a word is answered and its partition is not secret; 0 in
                           every other answer: of READ, of a secret partition, done,
                           withheld, refused */
} sci_answer;

/* What an erasure answers. Look at the kind first. SCI_ENDED: the partition is erased
 * exactly if short_pairs is 0 or first_short is its indicator's cell, which is first +
 * length - 2 by sci_partition: the indicator is the last pair, so that no other is
 * short then. Otherwise it is torn, and its seed may still be there. To ask for no
 * short pair at all fails good drives; to ask for SCI_ENDED alone passes torn ones. Cut
 * or refused, short_pairs is 0 and says nothing: sci_states does. */
typedef struct {
    uint32_t kind;        /* SCI_ENDED, SCI_CUT or SCI_ERASURE_REFUSED */
    uint32_t refusal;     /* the refusal's number, 0 unless refused */
    uint32_t short_pairs; /* pairs with fewer ones than the bound, those of digest and
                             indicator included; 0 unless ended */
    uint32_t first_short; /* ended: the first cell of the lowest short pair,
                             numbered in the whole array, or SCI_NO_CELL if there
                             is none; else 0 */
    uint32_t burns;       /* burns carried out: all of them if ended; k + 1 if cut;
                             1 if refused with 15, which set no fuse; else 0 */
    uint32_t new_fuses;   /* the fuses that these burns newly set, in a secret partition
                             too; 0 if refused, with 15 too */
} sci_erasure;

/* What the mailbox answers. */
typedef struct {
    uint32_t refusal; /* the refusal's number, 0 where the command was carried out */
    uint32_t length;  /* bytes of the response, 0 on refusal */
    uint32_t order;   /* for the engine: SCI_ORDER_NONE, _CLEAR, _LOAD or _UNLOAD; its
                         reply is awaited unless there is none */
    uint32_t place;   /* of a load or unload, else 0 */
    uint32_t timeout; /* of a clear, load or unload, else 0 */
} sci_reply;

/*
 * The fields of the partition of this number, read from the image in place;
 * only the image is needed. Partition 0 of a map that is not refused is always
 * there, and its answer tells how many there are. Changes nothing.
 * Refused: 1; 7 if there is no such partition.
 */
SCI_ANSWER
sci_fields sci_partition(const uint8_t *image, size_t image_bytes, uint32_t partition);

/*
 * Writes the map that a text says to the front of the buffer image, and answers how
 * many bytes it has: 8, and 8 for each partition, so that a buffer of
 * SCI_LONGEST_IMAGE bytes is enough for any map. The entries begin at byte 8, E = 8.
 * The bytes of the buffer past the image keep their values, and nothing else changes.
 *
 * The text is that of the chip planners. A first line has C and B, then each
 * partition has a line: first cell, cells, kind and flags. All are decimal numbers
 * without leading zeros, 0 to 65,535, with a single space between two of them; each
 * line ends with a line feed, the last one too, and there is nothing else. No zero
 * byte ends the text: its length does. As strings in C:
 *   "12 60\n0 6 0 7\n6 6 1 0\n"  12 cells, bound 60; a slot in cells 0 to 5, software
 *                               in cells 6 to 11: 24 bytes
 *   "64 33\n0 64 2 0\n"          64 cells, bound 33; life cycle in all: 16 bytes
 * An image is written exactly when the text has this form, the buffer has the room, and
 * a map with these fields keeps every rule; sci_partition then reads these fields from
 * it. A kind or flags over 255 have the form, but no map has them (1); likewise a text
 * with no partition or with more than SCI_PARTITIONS, if the buffer has the room that
 * is asked for.
 * Refused, in this order: 16 if the text has not this form, or image_bytes is less than
 * 8 and 8 more for each partition's line; 1 if the map would break a rule. Nothing is
 * written then.
 */
SCI_ANSWER
sci_written sci_write_map(const uint8_t *text, size_t text_bytes,
                          uint8_t *image, size_t image_bytes);

/*
 * The state and the short pairs of every partition: those of partition i are
 * written to states[i], as a SCI_STATE_ number, and to short_pairs[i], which
 * counts digest and indicator too, so that an erased one has 0, or 1 where its
 * indicator is short. Answers how many partitions there are; the elements past
 * them keep their numbers, and nothing else changes. The states do not depend on
 * the marks, but marks of another count are refused too.
 * Refused: 1, 2; nothing is written.
 */
SCI_ANSWER
sci_listing sci_states(const uint8_t *image, size_t image_bytes,
                       const uint32_t *cells, size_t cell_count,
                       const uint32_t *marks, size_t mark_count,
                       uint32_t states[SCI_PARTITIONS], uint32_t short_pairs[SCI_PARTITIONS]);

/*
 * Why the drive offers no key. Walks the slots in map order until the first that is
 * not erased, the active slot. Answers exactly one of these: SCI_REASON_AVAILABLE
 * where that slot is programmed, and there is no reason to give; _NO_SLOT where the
 * map has no slot; _ALL_ERASED where it has some and all are erased; _BLANK or _TORN
 * by the active slot's state, with its partition. A torn slot is told with its first
 * short pair, which is the lowest, in its data or its digest, and with that pair's
 * ones: after an erasure that was cut at its indicator they are those of a word of the
 * seed. The indicator, which may be short too, is passed over. Changes nothing. The
 * reason does not depend on the marks, but marks of another count are refused too.
 * Refused: 1, 2.
 */
SCI_ANSWER
sci_reason sci_why(const uint8_t *image, size_t image_bytes,
                   const uint32_t *cells, size_t cell_count,
                   const uint32_t *marks, size_t mark_count);

/*
 * What the key cache has in the place of this number, 0 to SCI_PLACES - 1: whether it
 * is empty, waiting, held or unsure, and its tag. There is no place past these, and it
 * is told as an empty one. In a context that no calls left, a place with words of none
 * of these kinds is told as unsure, and counts as one. Changes nothing. It cannot be
 * refused.
 */
SCI_ANSWER
sci_place sci_cache_place(const sci_context *context, uint32_t place);

/*
 * READ of the word that starts at this cell. Answers the word; one of 32 bits
 * has zeros above them. Changes nothing.
 * Refused: 1, 2, 7; 8 in a secret partition.
 */
SCI_ANSWER
sci_answer sci_read(const uint8_t *image, size_t image_bytes,
                    uint32_t *cells, size_t cell_count,
                    const uint32_t *marks, size_t mark_count,
                    sci_context *context, uint32_t cell);

/*
 * WRITE of a value to the data word that starts at this cell. Burns each fuse
 * of the value that is not stuck, and leaves all others. Answers the word as it
 * then stands, with its new fuses, or done in a secret partition.
 * Refused: 1, 2, 7; 8 for digest, indicator, life cycle, a marked partition, a
 * value over 32 bits for a 32-bit word; 9 where the value lacks a set fuse; 10.
 * While a place of the cache is not empty, 9 or 10 tells whether the value lacks a set
 * fuse of a word of a slot: who may WRITE to a slot can find its fuses, though no word
 * is shown.
 */
SCI_ANSWER
sci_answer sci_write(const uint8_t *image, size_t image_bytes,
                     uint32_t *cells, size_t cell_count,
                     const uint32_t *marks, size_t mark_count,
                     sci_context *context, uint32_t cell, uint64_t value);

/*
 * ZEROIZE of the word that starts at this cell. Burns each of its fuses that
 * is not stuck, and leaves all others. Answers the word as it then stands, with its new
 * fuses; in a secret partition the word alone, and only if its ones reach the map's
 * bound, otherwise withheld.
 * In a partition on the older guide (SCI_FLAG_OLDER_GUIDE) all ones at the word's
 * width, 0xFFFFFFFF or 0xFFFFFFFFFFFFFFFF, are answered in the word's place; what burns,
 * the new fuses, what is withheld (by the ones of the word as it stands) and what is
 * refused are the same.
 * Warning: on the older guide the answered word tells nothing of stuck fuses; in a
 * secret partition, only that the word's ones reach the bound. Whether a partition is
 * erased its state tells, by sci_states, and not this word.
 * Refused: 1, 2, 7; 8 in a partition that is not zeroizable; 10.
 */
SCI_ANSWER
sci_answer sci_zeroize(const uint8_t *image, size_t image_bytes,
                       uint32_t *cells, size_t cell_count,
                       const uint32_t *marks, size_t mark_count,
                       sci_context *context, uint32_t cell);

/*
 * Erasure of the partition of this number. Burns, in this order, every fuse
 * that is not stuck of the indicator, of each data word ascending, and of the
 * digest; no other fuse changes. A short word does not stop it, nor does a short
 * indicator; an indicator without a set fuse does, with 15. Answers SCI_ENDED, the
 * short pairs that are left, those of digest and indicator included, the first cell
 * of the lowest of them, the number of burns, one for each word, and the new fuses.
 * The partition is erased exactly if short_pairs is 0 or first_short is its
 * indicator's cell; otherwise it is torn, and its seed may still be there.
 * Asked for again, after a cut too, it begins at the indicator. But for the new fuses
 * it answers as the first time, or as it would have if that one was cut, where every
 * place of the cache is empty both times, the image and the marks are the same, and
 * since then no other call or writer has changed the cells: only this one,
 * sci_erase_cut and FERS, each of this partition. An awaited reply of the engine
 * does not stop it. The context stays as it was.
 * Refused: 1, 2; 7 if there is no such partition; 8 if it is not zeroizable;
 * 10; 15.
 */
SCI_ANSWER
sci_erasure sci_erase(const uint8_t *image, size_t image_bytes,
                      uint32_t *cells, size_t cell_count,
                      const uint32_t *marks, size_t mark_count,
                      sci_context *context, uint32_t partition);

/*
 * The erasure of sci_erase, cut by a power failure at burn k, counted from 0:
 * the burns before it are whole, burn k has the mask in place of all ones (its
 * low half for the first cell of a pair; its low 32 bits for a 32-bit word), and
 * nothing follows. Then every place of the cache is empty, and a reply that was
 * awaited is so no longer; the table stays. Answers SCI_CUT, k + 1 burns, and the new
 * fuses, of burn k those that it set itself. In a secret partition too, so that a mask of
 * one fuse tells whether that fuse was unset: it is for trying out what a drive does
 * after a power failure, and not for a host.
 * If the erasure would end before burn k, at the end of its order or with 15,
 * it is sci_erase: the answer and the cells are the same, and the context stays
 * as it was.
 * A cut at k = 0 is never refused with 15.
 * Refused: as sci_erase; the context stays as it was.
 */
SCI_ANSWER
sci_erasure sci_erase_cut(const uint8_t *image, size_t image_bytes,
                          uint32_t *cells, size_t cell_count,
                          const uint32_t *marks, size_t mark_count,
                          sci_context *context, uint32_t partition, uint32_t k, uint64_t mask);

/*
 * Call it when the drive has restarted, and the engine with it. Empties every
 * place of the cache, drops an awaited reply of the engine, and changes nothing
 * else: the table stays. It cannot be refused.
 * No order is given to the engine, which would keep its keys if it had not
 * restarted: to free a slot in operation use KUNL or CLKC, and have it answered done.
 */
void sci_restart(sci_context *context);

/*
 * The engine's reply to the order that sci_mailbox answered last: SCI_ENGINE_DONE,
 * _TIMED_OUT or _FAILED; any other number counts as failed. vendor is the number that
 * the engine failed with, or any other where it did not; it is not looked at and not
 * kept. Then no reply is awaited, and every place that waited is
 *   held    if the engine is done with a load
 *   empty   if it is done with an unload or a clear
 *   unsure  if it timed out or failed; the place keeps its tag
 * All other places stay as they were. What done means, and what a late reply does, is
 * said above.
 * Answers 0 where the reply was taken, else the refusal's number.
 * Refused: 19 where no reply is awaited.
 */
SCI_ANSWER
uint32_t sci_engine_reply(sci_context *context, uint32_t reply, uint32_t vendor);

/*
 * Makes the table of a context that has none: handles[i] and algorithms[i] at place i,
 * and the largest handle as the greatest number ever given. Any number can be a handle or
 * an algorithm, and algorithms may be equal. Nothing else of the context changes. It is
 * made once for each drive, before its first mailbox command, and kept, as said above.
 * Answers 0 where the table was made, else the refusal's number.
 * Refused: 2 if the context has a table, also one whose count is not 1 to SCI_HANDLES; if
 * there are not one to SCI_HANDLES handles, or not as many algorithms; or if two handles
 * are equal.
 */
SCI_ANSWER
uint32_t sci_make_table(sci_context *context,
                        const uint32_t *handles, size_t handle_count,
                        const uint32_t *algorithms, size_t algorithm_count);

/*
 * A mailbox command. Fields are little-endian u32, but for the 64 MEK bytes.
 *
 *   code      request                                      response
 *   SCI_CLKC  chksum, reserved, cmd_timeout                chksum, fips_status,
 *             12 bytes                                     reserved: 12 bytes
 *   SCI_KLOD  chksum, reserved, cmd_timeout, tag low,      ..., place
 *             tag high, 64 MEK bytes: 84 bytes             16 bytes
 *   SCI_KUNL  chksum, reserved, cmd_timeout, tag low,      as CLKC
 *             tag high: 20 bytes                           12 bytes
 *   SCI_FERS  chksum, reserved, partition                  ..., short pairs,
 *             12 bytes                                     first short cell or
 *                                                          SCI_NO_CELL, new fuses
 *                                                          24 bytes
 *   SCI_FSTA  chksum, reserved                             ..., active slot's
 *             8 bytes                                      partition or
 *                                                          SCI_NO_SLOT, HEK
 *                                                          available 1 or 0
 *                                                          20 bytes
 *   SCI_EHDL  chksum, reserved                             ..., hpke_handle_count;
 *             8 bytes                                      for each of them: handle,
 *                                                          hpke_algorithm
 *                                                          24, 32 or 40 bytes
 *   SCI_RHPK  chksum, reserved, hpke_handle                ..., hpke_handle
 *             12 bytes                                     16 bytes
 *
 * A request's chksum is 0 minus the sum of the four bytes of the code and of
 * every request byte after chksum, in 32 bits; a response's is the same
 * without the code. fips_status and reserved are 0.
 *
 * CLKC has every place wait that is not empty; the engine is to clear, and the block
 * is all zero.
 * KLOD puts the tag into the lowest empty place, which waits; the engine is to load,
 * and the block has the MEK, the tag in the first 8 bytes of METD, and zeros.
 * KUNL has the lowest place wait that has the tag; the engine is to unload, and the
 * block is as for a load with the MEK zero.
 * A place that waits keeps its tag. None is held, and none is emptied, before the
 * engine's reply is handed in by sci_engine_reply.
 * FERS is sci_erase of the partition that it names: it is erased exactly if the
 * response's short pairs are 0 or its first short cell is the indicator's;
 * otherwise it is torn, and its seed may still be there. The new fuses are told to the
 * host, of a secret partition too. The block and the context are unchanged, and there is
 * no order for the engine.
 * FSTA changes nothing but the response; there is no order for the engine.
 * EHDL tells the handles of the table, in its order, with their algorithms. It changes
 * nothing but the response; there is no order for the engine.
 * RHPK replaces the handle that it names by the number after the greatest ever given, and
 * tells that. Where the handle is there more than once, the lowest place is meant. The
 * algorithm and the block are unchanged, and there is no order for the engine.
 *
 * The response buffer has SCI_LEAST_RESPONSE bytes or more, the block has
 * SCI_BLOCK_BYTES: the engine's registers from 00h on, without CTRL at 80h. Where
 * there is an order, the caller hands it to the engine with the block, and the
 * engine's reply to sci_engine_reply.
 * No command but FERS changes a cell. Response bytes past the response keep
 * their values.
 * Refused, in this order: 1 to 6; 7, 8, 10 (FERS); 11, 12, 13 (KLOD); 14 (KUNL); 17
 * (all but FSTA); 18 (KLOD, KUNL); 20, 21 (RHPK); 15 (FERS).
 */
SCI_ANSWER
sci_reply sci_mailbox(const uint8_t *image, size_t image_bytes,
                      uint32_t *cells, size_t cell_count,
                      const uint32_t *marks, size_t mark_count,
                      sci_context *context, uint32_t code,
                      const uint8_t *request, size_t request_bytes,
                      uint8_t *response, size_t response_bytes,
                      uint8_t *block, size_t block_bytes);

#ifdef __cplusplus
}
#endif

#endif
