/* The session: the open streamed transactions and the live announcements in two small packed arrays. */
#include "cursor.h"

void c_session_start(session *s, uint32_t version)
{
    memset(s, 0, sizeof *s);
    s->version = version;
}

static uint64_t key(uint32_t owner, uint32_t oid) { return (uint64_t)owner << 32 | oid; }

static announcement *held(session *s, uint32_t owner, uint32_t oid)
{
    for (size_t i = 0; i < s->live; i++)
        if (s->keys[i] == key(owner, oid)) return &s->rows[i];
    return NULL;
}

static announcement *visible(session *s, uint32_t oid)
{
    announcement *own = s->place == BLOCK ? held(s, s->xid, oid) : NULL;
    return own ? own : held(s, 0, oid);
}

static void drop_row(session *s, size_t i)
{
    s->live--;
    s->keys[i] = s->keys[s->live];
    s->rows[i] = s->rows[s->live];
}

static bool *stream(session *s, uint32_t xid)
{
    for (size_t i = 0; i < s->open; i++)
        if (s->stream_xids[i] == xid) return &s->stream_changed[i];
    return NULL;
}

static void close_stream(session *s, const bool *changed)
{
    size_t i = (size_t)(changed - s->stream_changed);
    s->open--;
    s->stream_xids[i] = s->stream_xids[s->open];
    s->stream_changed[i] = s->stream_changed[s->open];
}

/* Where it is noted that the open transaction had a change. */
static bool *changed(session *s) { return s->place == BLOCK ? stream(s, s->xid) : &s->changed; }

/* The announcements of a streamed transaction become common, or are dropped. */
static void release(session *s, uint32_t xid)
{
    for (size_t i = 0; i < s->live;) {
        uint32_t oid = (uint32_t)s->keys[i];
        announcement *common;
        if (s->keys[i] >> 32 != xid) {
            i++;
        } else if ((common = held(s, 0, oid))) {
            *common = s->rows[i];
            drop_row(s, i);
        } else {
            s->keys[i++] = key(0, oid);
        }
    }
}

static void drop(session *s, uint32_t xid)
{
    for (size_t i = 0; i < s->live;)
        if (s->keys[i] >> 32 == xid) drop_row(s, i); else i++;
}

/* Each rule gives 0, or the refusal's number. */
static uint32_t begin(session *s, const message *m)
{
    if (s->place != IDLE) return PLACE;
    if (stream(s, m->xid)) return TRANSACTION;
    s->place = TRANSACTION_OPEN;
    s->final_lsn = m->begin.final_lsn;
    s->changed = false;
    return 0;
}

static uint32_t commit(session *s, const message *m)
{
    if (s->place != TRANSACTION_OPEN) return PLACE;
    if (m->commit.commit_lsn != s->final_lsn) return TRANSACTION;
    s->place = IDLE;
    return 0;
}

static uint32_t stream_start(session *s, const message *m)
{
    bool is_open = stream(s, m->xid) != NULL;
    if (s->place != IDLE) return PLACE;
    if (is_open == (m->stream_start.first == 1)) return TRANSACTION;
    if (!is_open) {
        if (s->open == 16) return STREAMS;
        s->stream_xids[s->open] = m->xid;
        s->stream_changed[s->open++] = false;
    }
    s->place = BLOCK;
    s->xid = m->xid;
    return 0;
}

static uint32_t stream_stop(session *s)
{
    if (s->place != BLOCK) return PLACE;
    s->place = IDLE;
    return 0;
}

static uint32_t stream_end(session *s, const message *m)
{
    bool *open = stream(s, m->xid);
    if (s->place != IDLE) return PLACE;
    if (!open) return TRANSACTION;
    if (m->letter == 'c') {
        close_stream(s, open);
        release(s, m->xid);
    } else if (m->stream_abort.sub_xid == m->xid) {
        close_stream(s, open);
        drop(s, m->xid);
    }
    return 0;
}

static uint32_t relation(session *s, const message *m, uint64_t tag)
{
    uint32_t owner = s->place == BLOCK ? s->xid : 0;
    if (s->place == IDLE) return PLACE;
    announcement *row = held(s, owner, m->relation.oid);
    if (!row) {
        if (s->live == 256) return ANNOUNCEMENTS;
        s->keys[s->live] = key(owner, m->relation.oid);
        row = &s->rows[s->live++];
    }
    *row = (announcement){tag, m->relation.identity, m->relation.count};
    return 0;
}

static bool fits(const announcement *a, uint8_t letter, uint16_t count)
{
    return count == a->columns && !(letter == 'O' && a->identity != 'f') && !(letter == 'K' && a->identity == 'f');
}

static uint32_t change(session *s, const message *m, answer *to)
{
    if (s->place == IDLE) return PLACE;
    const announcement *a = visible(s, m->change.oid);
    if (!a) return RELATION;
    if (m->change.old_letter && !fits(a, m->change.old_letter, m->change.old.count)) return SHAPE;
    if (m->letter != 'D' && !fits(a, 'N', m->change.new.count)) return SHAPE;
    *changed(s) = true;
    *to = (answer){true, *a};
    return 0;
}

static uint32_t truncation(session *s, const message *m, answer *to)
{
    if (s->place == IDLE) return PLACE;
    for (uint32_t i = 0; i < m->truncate.count; i++)
        if (!visible(s, load32(m->truncate.oids.at + 4 * i))) return RELATION;
    *changed(s) = true;
    *to = (answer){true, *visible(s, load32(m->truncate.oids.at))};
    return 0;
}

static uint32_t judged(session *s, const message *m, uint64_t tag, answer *to)
{
    switch (m->letter) {
    case 'B': return begin(s, m);
    case 'C': return commit(s, m);
    case 'R': return relation(s, m, tag);
    case 'I': case 'U': case 'D': return change(s, m, to);
    case 'T': return truncation(s, m, to);
    case 'S': return stream_start(s, m);
    case 'E': return stream_stop(s);
    case 'c': case 'A': return stream_end(s, m);
    case 'O': return s->place == IDLE || *changed(s) ? PLACE : 0;
    case 'M': return s->place == IDLE && m->logical.flags ? PLACE : 0;
    default: return s->place == IDLE ? PLACE : 0;  /* Type */
    }
}

bool c_session_give(session *s, const uint8_t *bytes, size_t length, uint64_t tag, answer *to, refusal *why)
{
    message m;
    if (!c_read(s->version, s->place == BLOCK, bytes, length, &m, why)) return false;
    *to = (answer){0};
    uint32_t number = judged(s, &m, tag, to);
    if (number) *why = (refusal){number, 0};
    return number == 0;
}
