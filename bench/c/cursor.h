/* Fields read from left to right: each gives true and moves on, or false with the refusal in the cursor. */
#ifndef CURSOR_H
#define CURSOR_H

#include "baseline.h"
#include <string.h>

typedef struct { const uint8_t *bytes; size_t length, at; refusal why; } cursor;

static inline bool refuse(cursor *c, uint32_t number, size_t offset)
{
    c->why = (refusal){number, offset};
    return false;
}

static inline bool has(cursor *c, size_t n)
{
    return c->length - c->at >= n || refuse(c, SHORT, c->at);
}

static inline uint32_t load32(const uint8_t *p)
{
    uint32_t v;
    memcpy(&v, p, 4);
    return __builtin_bswap32(v);
}

static inline uint64_t load64(const uint8_t *p)
{
    uint64_t v;
    memcpy(&v, p, 8);
    return __builtin_bswap64(v);
}

static inline bool byte(cursor *c, uint8_t *v)
{
    if (!has(c, 1)) return false;
    *v = c->bytes[c->at++];
    return true;
}

static inline bool number32(cursor *c, uint32_t *v)
{
    if (!has(c, 4)) return false;
    *v = load32(c->bytes + c->at);
    c->at += 4;
    return true;
}

static inline bool number64(cursor *c, uint64_t *v)
{
    if (!has(c, 8)) return false;
    *v = load64(c->bytes + c->at);
    c->at += 8;
    return true;
}

static inline bool up_to(cursor *c, uint8_t *v, uint8_t high)
{
    return byte(c, v) && (*v <= high || refuse(c, FIELD, c->at - 1));
}

static inline bool letter_of(cursor *c, uint8_t *v, const char *set)
{
    return byte(c, v) && ((*v && strchr(set, *v)) || refuse(c, FIELD, c->at - 1));
}

static inline bool id(cursor *c, uint32_t *v)
{
    return number32(c, v) && (*v || refuse(c, FIELD, c->at - 4));
}

static inline bool text(cursor *c, span *t)
{
    const uint8_t *start = c->bytes + c->at;
    const uint8_t *zero = memchr(start, 0, c->length - c->at);
    if (!zero) return refuse(c, SHORT, c->at);
    *t = (span){start, (size_t)(zero - start)};
    c->at += t->length + 1;
    return true;
}

static inline bool value(cursor *c, span *v)
{
    uint32_t n;
    if (!number32(c, &n)) return false;
    if (n >> 31) return refuse(c, FIELD, c->at - 4);
    if (!has(c, n)) return false;
    *v = (span){c->bytes + c->at, n};
    c->at += n;
    return true;
}

static inline bool count16(cursor *c, uint16_t *n)
{
    if (!has(c, 2)) return false;
    *n = (uint16_t)(c->bytes[c->at] << 8 | c->bytes[c->at + 1]);
    if (*n > MOST_COLUMNS) return refuse(c, RANGE, c->at);
    c->at += 2;
    return true;
}

static inline bool tuple_of(cursor *c, tuple *t)
{
    const uint8_t *start = c->bytes + c->at;
    if (!count16(c, &t->count)) return false;
    for (uint16_t i = 0; i < t->count; i++) {
        uint8_t letter;
        span v;
        if (!byte(c, &letter)) return false;
        switch (letter) {
        case 'n': case 'u': break;
        case 't': case 'b': if (!value(c, &v)) return false; break;
        default: return refuse(c, FIELD, c->at - 1);
        }
    }
    t->bytes = (span){start, (size_t)(c->bytes + c->at - start)};
    return true;
}

/* `n` columns of a Relation. */
static inline bool relation_columns(cursor *c, uint16_t n, span *columns)
{
    const uint8_t *start = c->bytes + c->at;
    for (uint16_t i = 0; i < n; i++) {
        uint8_t key;
        span name;
        uint32_t type, modifier;
        if (!(up_to(c, &key, 1) && text(c, &name) && number32(c, &type) && number32(c, &modifier))) return false;
    }
    *columns = (span){start, (size_t)(c->bytes + c->at - start)};
    return true;
}

/* `n` OIDs of a Truncate. */
static inline bool relation_oids(cursor *c, uint32_t n, span *oids)
{
    const uint8_t *start = c->bytes + c->at;
    for (uint32_t i = 0, oid; i < n; i++)
        if (!id(c, &oid)) return false;
    *oids = (span){start, 4 * (size_t)n};
    return true;
}

/* Stepping through a tuple that was read: a column's letter, and its value where it has one. */
typedef struct { const uint8_t *at; uint16_t left; } column_cursor;
typedef struct { uint8_t letter; span value; } column;

static inline column_cursor columns_of(tuple t)
{
    return (column_cursor){t.bytes.at + 2, t.count};
}

static inline bool next_column(column_cursor *c, column *out)
{
    if (c->left == 0) return false;
    c->left--;
    *out = (column){*c->at++, {0, 0}};
    if (out->letter == 't' || out->letter == 'b') {
        out->value = (span){c->at + 4, load32(c->at)};
        c->at += 4 + out->value.length;
    }
    return true;
}

static inline bool allows(uint32_t version, bool in_block)
{
    return version == 2 || (version == 1 && !in_block);
}

static inline bool is_stream_kind(uint8_t letter)
{
    return letter == 'S' || letter == 'E' || letter == 'c' || letter == 'A';
}

#endif
