/* What the driver calls of the C baseline. */
#ifndef RUNS_H
#define RUNS_H

#include "baseline.h"

/* CHECKING: one message. Each gives 0 or the refusal's number, and fills in as the function of the same name in kitsoriqu.h does. */
uint32_t c_check_read(uint32_t version, uint32_t in_block, const uint8_t *bytes, size_t length, uint64_t out[16]);
uint32_t c_check_write_back(uint32_t version, uint32_t in_block, const uint8_t *bytes, size_t length, uint8_t *out, size_t room, uint64_t *result);
void c_check_session_start(uint32_t version);
uint32_t c_check_session_give(const uint8_t *bytes, size_t length, uint64_t tag, uint64_t answer[4]);
void c_check_keeper_start(uint32_t version, uint8_t *buffer, size_t room);
uint32_t c_check_keeper_give(const uint8_t *bytes, size_t length, uint64_t tag, uint8_t *out, size_t room, uint64_t reply[5]);

/* RUNS over a list of messages. */
typedef struct { uint64_t accepted, refused, sum; } totals;
void c_run_read(uint32_t version, const span *messages, size_t count, totals *t);
void c_run_session(uint32_t version, const span *messages, size_t count, totals *t);

/* Over a batch of messages that was read before: `c_fill` reads them, from inside a block where *in_block is set. */
#define BATCH 128
void c_fill(uint32_t version, uint32_t *in_block, const span *messages, size_t count);
void c_run_write(uint32_t version, uint8_t *out, size_t room, totals *t);
void c_run_steps(totals *t);

/* Over its binary values, by the types of each message's columns: `c_fill_values` reads them and gives how many there are. `c_check_value`
 * gives one of them, `c_check_written_value` what one of those that were accepted is written back to. */
#define MOST_VALUES 8192
typedef struct { const uint32_t *at; size_t count; } type_list;
size_t c_fill_values(const type_list *types);
uint32_t c_check_value(size_t index, uint64_t out[3]);
uint32_t c_check_written_value(size_t index, uint8_t *out, size_t room, uint64_t *result);
void c_run_values(const type_list *types, totals *t);
void c_run_write_values(uint8_t *out, size_t room, totals *t);

/* Over copies of a session: `c_copy_session` copies the one that `c_check_session_give` was given to. */
#define COPIES 32
void c_copy_session(void);
void c_run_copies(span message, totals *t);

/* By the session and keeper that `c_check_keeper_start` started; or by a copy of them, with a buffer of its own. */
void c_run_keeper(const span *messages, size_t count, uint8_t *out, size_t room, totals *t);
void c_copy_keeper(uint8_t *buffer);
void c_run_keeper_copy(span message, uint8_t *out, size_t room, totals *t);

#endif
