/* Kitsoriqu: PostgreSQL's logical replication messages (pgoutput, protocol versions 1 and 2), read, written and judged in sequence.
 *
 * Every function answers every input. It returns 0, or the number of a refusal (KQ_VERSION to KQ_VALUE) with the offset at which it
 * arose as the first number of what it fills in. It reads the bytes it is lent and writes what its comment names, nothing else.
 * A pointer must be good for the length that comes with it (or for the numbers its type names), and what is written must not overlap
 * anything else that is lent; a length of 0 may come with any pointer that is not NULL. That is all a caller can do wrong.
 *
 * `version` is any number; one that is not 1 or 2 is refused with KQ_VERSION. `in_block` is 0 outside a stream block and anything else
 * inside one. */
#ifndef KITSORIQU_H
#define KITSORIQU_H

#include <stddef.h>
#include <stdint.h>

#ifdef __cplusplus
extern "C" {
#endif

/* The refusals. */
enum {
    KQ_VERSION = 1,       /* version not 1 or 2; or version 1 inside a block */
    KQ_SHORT = 2,         /* a field, text or value goes past the message's end; in writing, past the source */
    KQ_KIND = 3,          /* the first byte is no kind of this version */
    KQ_FIELD = 4,         /* a field holds what its layout forbids; a tuple asked for that the message lacks */
    KQ_LEFT_OVER = 5,     /* bytes are left after the last field */
    KQ_RANGE = 6,         /* a count is outside its range, or the message is too long (then at 0) */
    KQ_PLACE = 7,         /* the kind can't stand here */
    KQ_TRANSACTION = 8,   /* an xid or LSN doesn't fit what is open */
    KQ_RELATION = 9,      /* a named relation has no visible announcement */
    KQ_SHAPE = 10,        /* the shape differs from the announcement */
    KQ_ANNOUNCEMENTS = 11, /* no room for an announcement */
    KQ_STREAMS = 12,      /* no room for a streamed transaction */
    KQ_OUTPUT = 13,       /* the output is shorter than the message or value to be written, or than the records to be released */
    KQ_KEEPER = 14,       /* no room in the keeper's buffer for a change */
    KQ_VALUE = 17         /* a binary value has the wrong length for its type, or is a bool that is neither 0 nor 1 */
};

/* What kq_column_step and kq_value_step return when there is nothing left: no refusal. */
enum { KQ_OVER = 255 };

/* The kinds of messages: the first number of the flat form. */
enum {
    KQ_BEGIN = 1,
    KQ_COMMIT = 2,
    KQ_ORIGIN = 3,
    KQ_RELATION_MESSAGE = 4,
    KQ_TYPE = 5,
    KQ_INSERT = 6,
    KQ_UPDATE = 7,
    KQ_DELETE = 8,
    KQ_TRUNCATE = 9,
    KQ_MESSAGE = 10,
    KQ_STREAM_START = 11,
    KQ_STREAM_STOP = 12,
    KQ_STREAM_COMMIT = 13,
    KQ_STREAM_ABORT = 14
};

/* THE FLAT FORM of a message: its kind, its fields in the order of its layout, and zeros to KQ_FLAT numbers.
 *
 *   Begin          final LSN, time, xid
 *   Commit         flags, commit LSN, end LSN, time
 *   Origin         LSN, name start, name length
 *   Relation       xid, relation OID, namespace start, length, name start, length, identity, column count, columns' start
 *   Type           xid, type OID, namespace start, length, name start, length
 *   Insert         xid, relation OID, new tuple's start
 *   Update         xid, relation OID, old tuple's letter ('K', 'O' or 0), its start (or 0), new tuple's start
 *   Delete         xid, relation OID, tuple's letter ('K' or 'O'), its start
 *   Truncate       xid, relation count, options, OIDs' start
 *   Message        xid, flags, LSN, prefix start, length, content start, length
 *   Stream Start   xid, first
 *   Stream Stop    -
 *   Stream Commit  xid, flags, commit LSN, end LSN, time
 *   Stream Abort   xid, sub-xid
 *
 * Starts are offsets in the message's bytes (in writing: in the source). A text's length is without its zero byte. A time is the 64 bits
 * of a signed number of microseconds since 2000-01-01. The xid of a kind that has one only inside a stream block is 0 outside. */
#define KQ_FLAT 16

/* Reads one message. 0: out is its flat form. Else a refusal: out is its offset and zeros. */
uint32_t kq_read(uint32_t version, uint32_t in_block, const uint8_t *bytes, size_t len, uint64_t out[KQ_FLAT]);

/* Writes the message of a flat form, whose texts, content, tuples, columns and OIDs lie in source, to the front of out.
 * 0: *result is its length, and out's bytes behind it are as they were. Else a refusal: *result is its offset (in the message being
 * written), and out is as it was. Numbers that are no message's flat form (no such kind, too big for a field, not 0 behind the last)
 * are refused with KQ_FIELD at 0 before all else. */
uint32_t kq_write(uint32_t version, uint32_t in_block, const uint64_t fields[KQ_FLAT], const uint8_t *source, size_t source_len,
                  uint8_t *out, size_t out_len, uint64_t *result);

/* What can be stepped through. A Delete's tuple is its old one. */
enum { KQ_NEW_TUPLE = 0, KQ_OLD_TUPLE = 1, KQ_COLUMNS = 2, KQ_OIDS = 3 };

/* Reads the whole message and starts stepping through one of its sections. 0: position is the offset of the first column and how many
 * are left. Else a refusal (KQ_FIELD at 0 for a number that is no section, before all else; the message's own; KQ_FIELD at 0 for a
 * section that it lacks): position is the offset and 0. */
uint32_t kq_column_start(uint32_t version, uint32_t in_block, const uint8_t *bytes, size_t len, uint32_t section, uint64_t position[2]);

/* Steps past what stands at a position, which may be made up.
 * 0: position has moved on, and out is
 *     of a tuple     the column's letter ('n' null, 'u' unchanged, 't' text, 'b' binary), its value's start and length (or 0 and 0)
 *     of KQ_COLUMNS  the key flag, the name's start and length, the type OID, the 32 bits of the type modifier
 *     of KQ_OIDS     the relation OID
 * and zeros behind. KQ_OVER: none are left; out is zeros. Else a refusal (KQ_FIELD at 0 for a number that is no section): out is its
 * offset and zeros. Unless 0 is returned, position is as it was. */
#define KQ_STEP 5
uint32_t kq_column_step(uint32_t section, const uint8_t *bytes, size_t len, uint64_t position[2], uint64_t out[KQ_STEP]);

/* A session: numbers that nobody names, and every content of them is answered. Start it with one of the two functions below. It may be
 * moved and copied; one session must not be given two messages at once. Its size may differ in another version of the library: compile
 * against the header of the archive that is linked. */
#define KQ_SESSION_WORDS 624
#define KQ_SESSION_SIZE 4992
typedef struct kq_session {
    uint64_t opaque[KQ_SESSION_WORDS];
} kq_session;

/* Starts a session of a version. With a version that is not 1 or 2 it answers KQ_VERSION at 0 to every message. */
void kq_session_start(kq_session *session, uint32_t version);

/* Starts a session with no version named: version 1. */
void kq_session_start_default(kq_session *session);

/* Gives a session one message, with a tag of the caller's choice that an announcement (an accepted Relation) keeps.
 * 0: accepted; answer is 1 and its announcement's tag, replica identity and column count for an Insert, Update, Delete or Truncate (its
 * first relation's), and four zeros for any other kind. Else a refusal: answer is its offset and zeros, and the session is as it was.
 * A Message with flags 0 may stand anywhere, one with flags 1 (transactional) in a transaction or stream block, else KQ_PLACE. */
#define KQ_ANSWER 4
uint32_t kq_session_give(kq_session *session, const uint8_t *bytes, size_t len, uint64_t tag, uint64_t answer[KQ_ANSWER]);

/* A KEEPER holds what a streamed transaction changes until it commits: each accepted Insert, Update, Delete or Truncate in a stream
 * block, as a record of 14 + n bytes: the mark C3 4D, then the block's xid, the xid that the message carries and its length n, each 32
 * bits big-endian, then the message. The records stand packed, in the order of their arrival, at the front of the caller's buffer, and
 * *held is how many bytes they have: 0 at the start. Hand both back as the last call left them; the buffer may be longer then.
 *
 * Gives a session with a keeper one message, with a tag, as kq_session_give does; reply is its answer and one number more.
 * An accepted Stream Commit moves its transaction's records, in their order, to the start of out: reply[4] is how many bytes they have,
 * and out's bytes behind them are as they were. After any other message reply[4] is 0 and out is as it was. An accepted Stream Abort
 * drops its transaction's records, or, of a subtransaction, those whose message carries its xid. What is left is packed; the buffer's
 * bytes behind the records are as they were.
 * After the session's own refusals: KQ_KEEPER at 0 where a change's record would go past the buffer's end, and KQ_OUTPUT at 0 where out
 * is shorter than what a Stream Commit releases. After any refusal session, buffer, *held and out are as they were: the caller may go
 * on, or give the message again with a longer buffer or out.
 * Any buffer and any *held are answered: held bytes that are no whole record are nobody's, and stay.
 * Two neighbouring blocks (Stream Start to Stream Stop) of different xids may be exchanged: if every message of both is accepted, then it
 * is in the other order too, and each of them and each message afterwards, given with the same tag and out and buffers of one length, gets
 * the same reply and leaves the same out. So it is with kq_session_give and its answers.
 * This function is in an archive of its own, libcapi_keeper.a. */
#define KQ_REPLY 5
uint32_t kq_keeper_give(kq_session *session, const uint8_t *bytes, size_t len, uint64_t tag, uint8_t *buffer, size_t buffer_len,
                        size_t *held, uint8_t *out, size_t out_len, uint64_t reply[KQ_REPLY]);

/* The types whose binary values are read as numbers: their OIDs. All others are raw. */
enum {
    KQ_BOOL = 16,
    KQ_INT8 = 20,
    KQ_INT2 = 21,
    KQ_INT4 = 23,
    KQ_FLOAT4 = 700,
    KQ_FLOAT8 = 701,
    KQ_TIMESTAMPTZ = 1184
};

/* THE FLAT FORM of a binary value: the type's OID, the value's bits and 0. A raw value's: 0, its start and its length.
 *
 *   bool            0 or 1
 *   int2 int4 int8  16, 32 or 64 bits: (int16_t)(uint16_t)value[1], (int32_t)(uint32_t)value[1] or (int64_t)value[1] is the number
 *   float4 float8   the 32 or 64 bits of the IEEE pattern: put them into a uint32_t or uint64_t, and memcpy that to a float or double
 *   timestamptz     64 bits: (int64_t)value[1] is in microseconds since 2000-01-01 UTC; INT64_MAX is infinity, INT64_MIN -infinity
 *
 * A pattern is kept bit for bit, also a NaN's. The start is an offset in the message's bytes (in writing: in the source).
 * The two functions below are in an archive of their own, libcapi_values.a; all but these and kq_keeper_give are in libcapi.a. */
#define KQ_VALUE_FLAT 3

/* Steps past the 'b' column at a position, which may be made up, and reads its value by a type OID, such as KQ_COLUMNS gives.
 * 0: position has moved on, and value is the value's flat form. KQ_OVER: none are left; value is zeros. Else a refusal (KQ_FIELD at the
 * letter where another stands; as kq_column_step for a length or value; KQ_VALUE at the value's first byte): value is its offset and
 * zeros. Unless 0 is returned, position is as it was: kq_column_step steps past any column from there. */
uint32_t kq_value_step(const uint8_t *bytes, size_t len, uint64_t position[2], uint32_t type_oid, uint64_t value[KQ_VALUE_FLAT]);

/* Writes the value of a flat form, whose bytes lie in source where it is raw, to the front of out: the value alone, without letter and
 * length. 0: *result is how many bytes it has, and out's bytes behind them are as they were. Else a refusal: *result is its offset, 0,
 * and out is as it was. Numbers that are no value's flat form (an OID that is neither listed nor 0, a number too big for the type, not 0
 * behind them) are refused with KQ_FIELD before all else, then a raw value past the source with KQ_SHORT, then a short out with
 * KQ_OUTPUT. */
uint32_t kq_value_write(const uint64_t value[KQ_VALUE_FLAT], const uint8_t *source, size_t source_len, uint8_t *out, size_t out_len,
                        uint64_t *result);

#ifdef __cplusplus
}
#endif

#endif
