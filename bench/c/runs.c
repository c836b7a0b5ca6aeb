#include "runs.h"
#include "cursor.h"

/* Keeps the compiler from dropping what was computed. */
static inline void keep(const void *p) { __asm__ volatile("" : : "r"(p) : "memory"); }

static uint64_t start(const uint8_t *bytes, span s) { return (uint64_t)(s.at - bytes); }

static void flatten(const message *m, const uint8_t *bytes, uint64_t out[16])
{
#define FLAT(...) do { const uint64_t numbers[] = {__VA_ARGS__}; memcpy(out, numbers, sizeof numbers); } while (0)
#define SPAN(s) start(bytes, s), (s).length
    memset(out, 0, 16 * sizeof *out);
    switch (m->letter) {
    case 'B': FLAT(1, m->begin.final_lsn, m->begin.time, m->xid); break;
    case 'C': FLAT(2, 0, m->commit.commit_lsn, m->commit.end_lsn, m->commit.time); break;
    case 'O': FLAT(3, m->origin.lsn, SPAN(m->origin.name)); break;
    case 'R': FLAT(4, m->xid, m->relation.oid, SPAN(m->relation.namespace), SPAN(m->relation.name), m->relation.identity, m->relation.count,
                   start(bytes, m->relation.columns)); break;
    case 'Y': FLAT(5, m->xid, m->type.oid, SPAN(m->type.namespace), SPAN(m->type.name)); break;
    case 'I': FLAT(6, m->xid, m->change.oid, start(bytes, m->change.new.bytes)); break;
    case 'U': FLAT(7, m->xid, m->change.oid, m->change.old_letter, m->change.old_letter ? start(bytes, m->change.old.bytes) : 0,
                   start(bytes, m->change.new.bytes)); break;
    case 'D': FLAT(8, m->xid, m->change.oid, m->change.old_letter, start(bytes, m->change.old.bytes)); break;
    case 'T': FLAT(9, m->xid, m->truncate.count, m->truncate.options, start(bytes, m->truncate.oids)); break;
    case 'M': FLAT(10, m->xid, m->logical.flags, m->logical.lsn, SPAN(m->logical.prefix), SPAN(m->logical.content)); break;
    case 'S': FLAT(11, m->xid, m->stream_start.first); break;
    case 'E': FLAT(12); break;
    case 'c': FLAT(13, m->xid, 0, m->commit.commit_lsn, m->commit.end_lsn, m->commit.time); break;
    case 'A': FLAT(14, m->xid, m->stream_abort.sub_xid); break;
    }
}

uint32_t c_check_read(uint32_t version, uint32_t in_block, const uint8_t *bytes, size_t length, uint64_t out[16])
{
    message m;
    refusal why;
    if (c_read(version, in_block, bytes, length, &m, &why)) {
        flatten(&m, bytes, out);
        return 0;
    }
    memset(out, 0, 16 * sizeof *out);
    out[0] = why.offset;
    return why.number;
}

uint32_t c_check_write_back(uint32_t version, uint32_t in_block, const uint8_t *bytes, size_t length, uint8_t *out, size_t room, uint64_t *result)
{
    message m;
    refusal why = {0, 0};
    size_t written = 0;
    if (c_read(version, in_block, bytes, length, &m, &why)) c_write(version, in_block, &m, out, room, &written, &why);
    *result = why.number ? why.offset : written;
    return why.number;
}

static session checked;

void c_check_session_start(uint32_t version) { c_session_start(&checked, version); }

static void put_answer(answer a, uint64_t out[4])
{
    if (a.change) FLAT(1, a.of.tag, a.of.identity, a.of.columns);
}

uint32_t c_check_session_give(const uint8_t *bytes, size_t length, uint64_t tag, uint64_t out[4])
{
    answer a;
    refusal why;
    memset(out, 0, 4 * sizeof *out);
    if (!c_session_give(&checked, bytes, length, tag, &a, &why)) {
        out[0] = why.offset;
        return why.number;
    }
    put_answer(a, out);
    return 0;
}

static struct { session session; keeper keeper; } kept, kept_copy;

void c_check_keeper_start(uint32_t version, uint8_t *buffer, size_t room)
{
    c_session_start(&kept.session, version);
    kept.keeper = (keeper){buffer, room, 0};
}

uint32_t c_check_keeper_give(const uint8_t *bytes, size_t length, uint64_t tag, uint8_t *out, size_t room, uint64_t reply[5])
{
    answer a;
    size_t released;
    refusal why;
    memset(reply, 0, 5 * sizeof *reply);
    if (!c_keeper_give(&kept.session, &kept.keeper, bytes, length, tag, out, room, &a, &released, &why)) {
        reply[0] = why.offset;
        return why.number;
    }
    put_answer(a, reply);
    reply[4] = released;
    return 0;
}

static uint32_t block_after(uint32_t in_block, const message *m)
{
    return m->letter == 'S' ? 1 : m->letter == 'E' ? 0 : in_block;
}

void c_run_read(uint32_t version, const span *messages, size_t count, totals *t)
{
    message m;
    refusal why;
    uint32_t in_block = 0;
    for (size_t i = 0; i < count; i++) {
        if (c_read(version, in_block, messages[i].at, messages[i].length, &m, &why)) {
            keep(&m);
            t->accepted++;
            in_block = block_after(in_block, &m);
        } else {
            keep(&why);
            t->refused++;
        }
    }
}

static void give(session *s, span message, uint64_t tag, totals *t)
{
    answer a;
    refusal why;
    if (c_session_give(s, message.at, message.length, tag, &a, &why)) {
        t->accepted++;
        if (a.change) t->sum += a.of.tag;
    } else {
        keep(&why);
        t->refused++;
    }
}

void c_run_session(uint32_t version, const span *messages, size_t count, totals *t)
{
    session s;
    c_session_start(&s, version);
    for (size_t i = 0; i < count; i++) give(&s, messages[i], i, t);
}

static session copies[COPIES];

void c_copy_session(void)
{
    for (size_t i = 0; i < COPIES; i++) copies[i] = checked;
}

void c_run_copies(span message, totals *t)
{
    for (size_t i = 0; i < COPIES; i++) give(&copies[i], message, 0, t);
}

static void give_kept(session *s, keeper *k, span message, uint64_t tag, uint8_t *out, size_t room, totals *t)
{
    answer a;
    size_t released;
    refusal why;
    if (c_keeper_give(s, k, message.at, message.length, tag, out, room, &a, &released, &why)) {
        t->accepted++;
        t->sum += released;
        if (a.change) t->sum += a.of.tag;
    } else {
        keep(&why);
        t->refused++;
    }
}

void c_run_keeper(const span *messages, size_t count, uint8_t *out, size_t room, totals *t)
{
    for (size_t i = 0; i < count; i++) give_kept(&kept.session, &kept.keeper, messages[i], i, out, room, t);
    keep(out);
}

void c_copy_keeper(uint8_t *buffer)
{
    kept_copy = kept;
    memcpy(buffer, kept.keeper.buffer, kept.keeper.room);
    kept_copy.keeper.buffer = buffer;
}

void c_run_keeper_copy(span message, uint8_t *out, size_t room, totals *t)
{
    give_kept(&kept_copy.session, &kept_copy.keeper, message, 0, out, room, t);
    keep(out);
}

static message batch[BATCH];
static uint32_t blocks[BATCH];
static const uint8_t *starts[BATCH];
static size_t filled;

void c_fill(uint32_t version, uint32_t *in_block, const span *messages, size_t count)
{
    refusal why;
    filled = 0;
    for (size_t i = 0; i < count; i++) {
        if (!c_read(version, *in_block, messages[i].at, messages[i].length, &batch[filled], &why)) continue;
        blocks[filled] = *in_block;
        starts[filled] = messages[i].at;
        *in_block = block_after(*in_block, &batch[filled++]);
    }
}

void c_run_write(uint32_t version, uint8_t *out, size_t room, totals *t)
{
    refusal why;
    size_t at = 0, length;
    for (size_t i = 0; i < filled; i++) {
        if (c_write(version, blocks[i], &batch[i], out + at, room - at, &length, &why)) {
            t->accepted++;
            at += length;
        } else {
            keep(&why);
            t->refused++;
        }
    }
    keep(out);
    t->sum += at;
}

static bool has_tuples(const message *m) { return m->letter == 'I' || m->letter == 'U' || m->letter == 'D'; }

static void step_through(tuple of, totals *t)
{
    column c;
    for (column_cursor at = columns_of(of); next_column(&at, &c);) {
        t->accepted++;
        t->sum += c.value.length;
    }
}

void c_run_steps(totals *t)
{
    for (size_t i = 0; i < filled; i++) {
        const message *m = &batch[i];
        if (!has_tuples(m)) continue;
        if (m->change.old_letter) step_through(m->change.old, t);
        if (m->letter != 'D') step_through(m->change.new, t);
    }
}

/* The next binary column of a tuple that was read, and its type. */
static bool next_binary(column_cursor *at, type_list *types, span *bytes, uint32_t *type)
{
    column c;
    while (types->count && next_column(at, &c)) {
        *type = *types->at++;
        types->count--;
        *bytes = c.value;
        if (c.letter == 'b') return true;
    }
    return false;
}

static void read_values(tuple of, type_list types, totals *t)
{
    typed_value v;
    refusal why;
    span bytes;
    uint32_t type;
    for (column_cursor at = columns_of(of); next_binary(&at, &types, &bytes, &type);) {
        if (c_read_value(type, bytes, &v, &why)) {
            keep(&v);
            t->accepted++;
        } else {
            keep(&why);
            t->refused++;
        }
    }
}

void c_run_values(const type_list *types, totals *t)
{
    for (size_t i = 0; i < filled; i++) {
        const message *m = &batch[i];
        if (!has_tuples(m)) continue;
        if (m->change.old_letter) read_values(m->change.old, types[i], t);
        if (m->letter != 'D') read_values(m->change.new, types[i], t);
    }
}

/* All values, as the check sees them; and those that were accepted. */
static struct { uint32_t number; uint64_t out[3]; } seen[MOST_VALUES];
static typed_value accepted[MOST_VALUES];
static size_t seen_count, accepted_count;

static void flatten_value(const typed_value *v, const uint8_t *bytes, uint64_t out[3])
{
    memset(out, 0, 3 * sizeof *out);
    switch (v->type) {
    case BOOL: FLAT(v->type, v->truth); break;
    case INT2: FLAT(v->type, (uint16_t)v->int2); break;
    case INT4: case FLOAT4: FLAT(v->type, (uint32_t)v->int4); break;
    case INT8: case FLOAT8: case TIMESTAMPTZ: FLAT(v->type, (uint64_t)v->int8); break;
    default: FLAT(RAW, SPAN(v->raw));
    }
}

static void see(uint32_t type, span value, const uint8_t *bytes)
{
    typed_value *v = &accepted[accepted_count];
    refusal why;
    uint64_t *out = seen[seen_count].out;
    if (c_read_value(type, value, v, &why)) {
        seen[seen_count].number = 0;
        flatten_value(v, bytes, out);
        accepted_count++;
    } else {
        seen[seen_count].number = why.number;
        FLAT(start(bytes, value) + why.offset, 0, 0);
    }
    seen_count++;
}

static void see_values(tuple of, type_list types, const uint8_t *bytes)
{
    span value;
    uint32_t type;
    for (column_cursor at = columns_of(of); seen_count < MOST_VALUES && next_binary(&at, &types, &value, &type);) see(type, value, bytes);
}

size_t c_fill_values(const type_list *types)
{
    seen_count = accepted_count = 0;
    for (size_t i = 0; i < filled; i++) {
        const message *m = &batch[i];
        if (!has_tuples(m)) continue;
        if (m->change.old_letter) see_values(m->change.old, types[i], starts[i]);
        if (m->letter != 'D') see_values(m->change.new, types[i], starts[i]);
    }
    return seen_count;
}

uint32_t c_check_value(size_t index, uint64_t out[3])
{
    memcpy(out, seen[index].out, sizeof seen[index].out);
    return seen[index].number;
}

uint32_t c_check_written_value(size_t index, uint8_t *out, size_t room, uint64_t *result)
{
    size_t length;
    refusal why = {0, 0};
    *result = c_write_value(&accepted[index], out, room, &length, &why) ? length : why.offset;
    return why.number;
}

void c_run_write_values(uint8_t *out, size_t room, totals *t)
{
    refusal why;
    size_t at = 0, length;
    for (size_t i = 0; i < accepted_count; i++) {
        if (c_write_value(&accepted[i], out + at, room - at, &length, &why)) {
            t->accepted++;
            at += length;
        } else {
            keep(&why);
            t->refused++;
        }
    }
    keep(out);
    t->sum += at;
}
