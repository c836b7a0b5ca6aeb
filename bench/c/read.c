#include "cursor.h"

static bool block_xid(cursor *c, bool in_block, uint32_t *xid)
{
    *xid = 0;
    return !in_block || id(c, xid);
}

static bool commit(cursor *c, message *m)
{
    uint8_t flags;
    return up_to(c, &flags, 0) && number64(c, &m->commit.commit_lsn) && number64(c, &m->commit.end_lsn) && number64(c, &m->commit.time);
}

static bool relation(cursor *c, message *m)
{
    return id(c, &m->relation.oid) && text(c, &m->relation.namespace) && text(c, &m->relation.name)
        && letter_of(c, &m->relation.identity, "dnfi") && count16(c, &m->relation.count)
        && relation_columns(c, m->relation.count, &m->relation.columns);
}

static bool insert(cursor *c, message *m)
{
    uint8_t n;
    m->change.old_letter = 0;
    return id(c, &m->change.oid) && letter_of(c, &n, "N") && tuple_of(c, &m->change.new);
}

static bool update(cursor *c, message *m)
{
    uint8_t n;
    m->change.old_letter = 0;
    if (!id(c, &m->change.oid)) return false;
    if (c->at < c->length && (c->bytes[c->at] == 'K' || c->bytes[c->at] == 'O')) {
        m->change.old_letter = c->bytes[c->at++];
        if (!tuple_of(c, &m->change.old)) return false;
    }
    return letter_of(c, &n, "N") && tuple_of(c, &m->change.new);
}

static bool truncation(cursor *c, message *m)
{
    if (!number32(c, &m->truncate.count)) return false;
    if (m->truncate.count < 1 || m->truncate.count > MOST_RELATIONS) return refuse(c, RANGE, c->at - 4);
    return up_to(c, &m->truncate.options, 3) && relation_oids(c, m->truncate.count, &m->truncate.oids);
}

static bool fields(cursor *c, bool in_block, message *m)
{
    switch (m->letter) {
    case 'B': return number64(c, &m->begin.final_lsn) && number64(c, &m->begin.time) && id(c, &m->xid);
    case 'C': m->xid = 0; return commit(c, m);
    case 'O': m->xid = 0; return number64(c, &m->origin.lsn) && text(c, &m->origin.name);
    case 'R': return block_xid(c, in_block, &m->xid) && relation(c, m);
    case 'Y': return block_xid(c, in_block, &m->xid) && number32(c, &m->type.oid) && text(c, &m->type.namespace) && text(c, &m->type.name);
    case 'I': return block_xid(c, in_block, &m->xid) && insert(c, m);
    case 'U': return block_xid(c, in_block, &m->xid) && update(c, m);
    case 'D': return block_xid(c, in_block, &m->xid) && id(c, &m->change.oid) && letter_of(c, &m->change.old_letter, "KO") && tuple_of(c, &m->change.old);
    case 'T': return block_xid(c, in_block, &m->xid) && truncation(c, m);
    case 'M': return block_xid(c, in_block, &m->xid) && up_to(c, &m->logical.flags, 1) && number64(c, &m->logical.lsn)
                  && text(c, &m->logical.prefix) && value(c, &m->logical.content);
    case 'S': return id(c, &m->xid) && up_to(c, &m->stream_start.first, 1);
    case 'E': m->xid = 0; return true;
    case 'c': return id(c, &m->xid) && commit(c, m);
    case 'A': return id(c, &m->xid) && id(c, &m->stream_abort.sub_xid);
    default: return refuse(c, KIND, 0);
    }
}

static bool whole(cursor *c, uint32_t version, bool in_block, message *m)
{
    if (!allows(version, in_block)) return refuse(c, VERSION, 0);
    if (c->length > LARGEST) return refuse(c, RANGE, 0);
    if (!byte(c, &m->letter)) return false;
    if (version == 1 && is_stream_kind(m->letter)) return refuse(c, KIND, 0);
    return fields(c, in_block, m) && (c->at == c->length || refuse(c, LEFT_OVER, c->at));
}

bool c_read(uint32_t version, bool in_block, const uint8_t *bytes, size_t length, message *m, refusal *why)
{
    cursor c = {bytes, length, 0, {0, 0}};
    if (whole(&c, version, in_block, m)) return true;
    *why = c.why;
    return false;
}
