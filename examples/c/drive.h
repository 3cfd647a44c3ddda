/*
 * What the two files of the example share: the drive that is lent to the key block, and
 * the steps on its mailbox.
 */
#ifndef DRIVE_H
#define DRIVE_H

#include "sciambrunola.h"

#include <stdbool.h>

#define MAP_BYTES 24
#define CELLS 12
#define MEK_BYTES 64

/* key_block.c */
extern const uint8_t map[MAP_BYTES];
extern uint32_t cells[CELLS];
extern uint32_t marks[CELLS];
extern sci_context context;
bool failed(const char *step, uint32_t refusal);

/* mailbox.c. A command has to be refused with the number that is named, or with none
 * if it is 0. */
bool ask_for_status(bool must_be_available);
bool list_handles(void);
bool rotate_handle(uint32_t handle);
bool load_key(uint64_t tag, const uint8_t mek[MEK_BYTES], uint32_t refusal);
bool clear_keys(uint32_t refusal);
bool engine_replies(uint32_t reply);
uint32_t list_places(void);

#endif
