/* A message is judged from left to right, which gives its length; then the room is tested, once; then it is stored. */
#include "cursor.h"

/* The length so far, or the refusal. */
typedef struct { size_t length; refusal why; } measure;

static bool deny(measure *l, uint32_t number, size_t offset)
{
    l->why = (refusal){number, offset};
    return false;
}

static bool add(measure *l, size_t n)
{
    if (n > LARGEST - l->length) return deny(l, RANGE, 0);
    l->length += n;
    return true;
}

static bool add_id(measure *l, uint32_t id) { return id ? add(l, 4) : deny(l, FIELD, l->length); }
static bool add_up_to(measure *l, uint8_t v, uint8_t high) { return v <= high ? add(l, 1) : deny(l, FIELD, l->length); }
static bool add_letter(measure *l, uint8_t v, const char *set) { return v && strchr(set, v) ? add(l, 1) : deny(l, FIELD, l->length); }
static bool add_text(measure *l, span t) { return memchr(t.at, 0, t.length) ? deny(l, FIELD, l->length) : add(l, t.length + 1); }

static bool add_xid(measure *l, bool in_block, uint32_t xid)
{
    if (in_block) return add_id(l, xid);
    return xid == 0 || deny(l, FIELD, 1);
}

/* A refusal inside a part, at its offset in the message. */
static bool moved(measure *l, const cursor *c)
{
    return c->why.offset > LARGEST - l->length ? deny(l, RANGE, 0) : deny(l, c->why.number, l->length + c->why.offset);
}

static bool add_tuple(measure *l, tuple t)
{
    cursor c = {t.bytes.at, t.bytes.length, 0, {0, 0}};
    tuple again;
    return tuple_of(&c, &again) ? add(l, c.at) : moved(l, &c);
}

static bool add_columns(measure *l, uint16_t count, span columns)
{
    cursor c = {columns.at, columns.length, 0, {0, 0}};
    span again;
    if (count > MOST_COLUMNS) return deny(l, RANGE, l->length);
    return add(l, 2) && (relation_columns(&c, count, &again) ? add(l, c.at) : moved(l, &c));
}

static bool add_oids(measure *l, uint32_t count, uint8_t options, span oids)
{
    cursor c = {oids.at, oids.length, 0, {0, 0}};
    span again;
    if (count < 1 || count > MOST_RELATIONS) return deny(l, RANGE, l->length);
    return add(l, 4) && add_up_to(l, options, 3) && (relation_oids(&c, count, &again) ? add(l, c.at) : moved(l, &c));
}

static bool fields_measured(measure *l, bool in_block, const message *m)
{
    switch (m->letter) {
    case 'B': return add(l, 16) && add_id(l, m->xid);
    case 'C': return add(l, 25);
    case 'O': return add(l, 8) && add_text(l, m->origin.name);
    case 'R': return add_xid(l, in_block, m->xid) && add_id(l, m->relation.oid) && add_text(l, m->relation.namespace) && add_text(l, m->relation.name)
                  && add_letter(l, m->relation.identity, "dnfi") && add_columns(l, m->relation.count, m->relation.columns);
    case 'Y': return add_xid(l, in_block, m->xid) && add(l, 4) && add_text(l, m->type.namespace) && add_text(l, m->type.name);
    case 'I': return add_xid(l, in_block, m->xid) && add_id(l, m->change.oid) && add(l, 1) && add_tuple(l, m->change.new);
    case 'U': return add_xid(l, in_block, m->xid) && add_id(l, m->change.oid)
                  && (!m->change.old_letter || (add_letter(l, m->change.old_letter, "KO") && add_tuple(l, m->change.old)))
                  && add(l, 1) && add_tuple(l, m->change.new);
    case 'D': return add_xid(l, in_block, m->xid) && add_id(l, m->change.oid) && add_letter(l, m->change.old_letter, "KO") && add_tuple(l, m->change.old);
    case 'T': return add_xid(l, in_block, m->xid) && add_oids(l, m->truncate.count, m->truncate.options, m->truncate.oids);
    case 'M': return add_xid(l, in_block, m->xid) && add_up_to(l, m->logical.flags, 1) && add(l, 8) && add_text(l, m->logical.prefix)
                  && add(l, 4) && add(l, m->logical.content.length);
    case 'S': return add_id(l, m->xid) && add_up_to(l, m->stream_start.first, 1);
    case 'E': return true;
    case 'c': return add_id(l, m->xid) && add(l, 25);
    case 'A': return add_id(l, m->xid) && add_id(l, m->stream_abort.sub_xid);
    default: return deny(l, KIND, 0);
    }
}

static uint8_t *put8(uint8_t *o, uint8_t v) { *o = v; return o + 1; }
static uint8_t *put16(uint8_t *o, uint16_t v) { return put8(put8(o, (uint8_t)(v >> 8)), (uint8_t)v); }
static uint8_t *put32(uint8_t *o, uint32_t v) { v = __builtin_bswap32(v); memcpy(o, &v, 4); return o + 4; }
static uint8_t *put64(uint8_t *o, uint64_t v) { v = __builtin_bswap64(v); memcpy(o, &v, 8); return o + 8; }
static uint8_t *put_span(uint8_t *o, span s) { memcpy(o, s.at, s.length); return o + s.length; }
static uint8_t *put_text(uint8_t *o, span s) { return put8(put_span(o, s), 0); }
static uint8_t *put_xid(uint8_t *o, uint32_t xid) { return xid ? put32(o, xid) : o; }

static void put_commit(uint8_t *o, const message *m)
{
    o = put8(o, 0);
    o = put64(o, m->commit.commit_lsn);
    o = put64(o, m->commit.end_lsn);
    put64(o, m->commit.time);
}

static void put_relation(uint8_t *o, const message *m)
{
    o = put32(o, m->relation.oid);
    o = put_text(o, m->relation.namespace);
    o = put_text(o, m->relation.name);
    o = put8(o, m->relation.identity);
    o = put16(o, m->relation.count);
    put_span(o, m->relation.columns);
}

static void put_change(uint8_t *o, const message *m)
{
    o = put32(o, m->change.oid);
    if (m->change.old_letter) o = put_span(put8(o, m->change.old_letter), m->change.old.bytes);
    if (m->letter != 'D') put_span(put8(o, 'N'), m->change.new.bytes);
}

static void put_logical(uint8_t *o, const message *m)
{
    o = put8(o, m->logical.flags);
    o = put64(o, m->logical.lsn);
    o = put_text(o, m->logical.prefix);
    o = put32(o, (uint32_t)m->logical.content.length);
    put_span(o, m->logical.content);
}

static void store(uint8_t *o, const message *m)
{
    o = put8(o, m->letter);
    if (m->letter == 'B') {
        put32(put64(put64(o, m->begin.final_lsn), m->begin.time), m->xid);
        return;
    }
    o = put_xid(o, m->xid);
    switch (m->letter) {
    case 'C': case 'c': put_commit(o, m); break;
    case 'O': put_text(put64(o, m->origin.lsn), m->origin.name); break;
    case 'R': put_relation(o, m); break;
    case 'Y': put_text(put_text(put32(o, m->type.oid), m->type.namespace), m->type.name); break;
    case 'I': case 'U': case 'D': put_change(o, m); break;
    case 'T': put_span(put8(put32(o, m->truncate.count), m->truncate.options), m->truncate.oids); break;
    case 'M': put_logical(o, m); break;
    case 'S': put8(o, m->stream_start.first); break;
    case 'A': put32(o, m->stream_abort.sub_xid); break;
    }
}

static bool measured(measure *l, uint32_t version, bool in_block, const message *m, size_t room)
{
    if (!allows(version, in_block)) return deny(l, VERSION, 0);
    if (version == 1 && is_stream_kind(m->letter)) return deny(l, KIND, 0);
    return fields_measured(l, in_block, m) && (l->length <= room || deny(l, OUTPUT, 0));
}

bool c_write(uint32_t version, bool in_block, const message *m, uint8_t *out, size_t room, size_t *length, refusal *why)
{
    measure l = {1, {0, 0}};
    if (!measured(&l, version, in_block, m, room)) {
        *why = l.why;
        return false;
    }
    store(out, m);
    *length = l.length;
    return true;
}
