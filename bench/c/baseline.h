/* A hand-written decoder, writer, session and keeper in C: the same layouts, checks, refusals and rules as Kitsoriqu. */
#ifndef BASELINE_H
#define BASELINE_H

#include <stdbool.h>
#include <stddef.h>
#include <stdint.h>

#define LARGEST 1073741823u
#define MOST_COLUMNS 1600
#define MOST_RELATIONS 256

/* The refusals, numbered as in kitsoriqu.h. */
enum { VERSION = 1, SHORT, KIND, FIELD, LEFT_OVER, RANGE, PLACE, TRANSACTION, RELATION, SHAPE, ANNOUNCEMENTS, STREAMS, OUTPUT, KEEPER,
       VALUE = 17 };

typedef struct { uint32_t number; size_t offset; } refusal;
typedef struct { const uint8_t *at; size_t length; } span;
typedef struct { uint16_t count; span bytes; } tuple;   /* its bytes, from the count on */

typedef struct {
    uint8_t letter;
    uint32_t xid;                                       /* 0: none */
    union {
        struct { uint64_t final_lsn, time; } begin;
        struct { uint64_t commit_lsn, end_lsn, time; } commit;  /* Commit and Stream Commit */
        struct { uint64_t lsn; span name; } origin;
        struct { uint32_t oid; uint16_t count; uint8_t identity; span namespace, name, columns; } relation;
        struct { uint32_t oid; span namespace, name; } type;
        struct { uint32_t oid; uint8_t old_letter; tuple old, new; } change;  /* Insert, Update, Delete */
        struct { uint8_t options; uint32_t count; span oids; } truncate;
        struct { uint8_t flags; uint64_t lsn; span prefix, content; } logical;
        struct { uint8_t first; } stream_start;
        struct { uint32_t sub_xid; } stream_abort;
    };
} message;

/* Each gives true, or false and why. */
bool c_read(uint32_t version, bool in_block, const uint8_t *bytes, size_t length, message *m, refusal *why);
bool c_write(uint32_t version, bool in_block, const message *m, uint8_t *out, size_t room, size_t *length, refusal *why);

/* A binary value by its type's OID; RAW of any other type. */
enum { RAW = 0, BOOL = 16, INT8 = 20, INT2 = 21, INT4 = 23, FLOAT4 = 700, FLOAT8 = 701, TIMESTAMPTZ = 1184 };
typedef struct {
    uint32_t type;
    union { bool truth; int16_t int2; int32_t int4; int64_t int8; float float4; double float8; span raw; };  /* a timestamptz is an int8 */
} typed_value;
bool c_read_value(uint32_t type_oid, span bytes, typed_value *v, refusal *why);
bool c_write_value(const typed_value *v, uint8_t *out, size_t room, size_t *length, refusal *why);

typedef enum { IDLE, TRANSACTION_OPEN, BLOCK } place;
typedef struct { uint64_t tag; uint8_t identity; uint16_t columns; } announcement;
typedef struct {
    uint32_t version;
    place place;
    uint32_t xid;                                       /* of the block */
    uint64_t final_lsn;
    bool changed;
    size_t open;
    uint32_t stream_xids[16];
    bool stream_changed[16];
    size_t live;
    uint64_t keys[256];                                 /* owner (0: common) and OID */
    announcement rows[256];
} session;

typedef struct { bool change; announcement of; } answer;
void c_session_start(session *s, uint32_t version);
bool c_session_give(session *s, const uint8_t *bytes, size_t length, uint64_t tag, answer *a, refusal *why);

/* `released`: how many bytes went to the start of out. */
typedef struct { uint8_t *buffer; size_t room, held; } keeper;
bool c_keeper_give(session *s, keeper *k, const uint8_t *bytes, size_t length, uint64_t tag, uint8_t *out, size_t room, answer *a,
                   size_t *released, refusal *why);

#endif
