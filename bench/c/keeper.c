/* The keeper: the records of all streamed transactions, packed in one lent buffer. */
#include "cursor.h"

#define HEADER 14

static void store32(uint8_t *p, uint32_t v)
{
    v = __builtin_bswap32(v);
    memcpy(p, &v, 4);
}

static size_t size(const uint8_t *record) { return HEADER + load32(record + 10); }

static bool is_change(uint8_t letter) { return letter == 'I' || letter == 'U' || letter == 'D' || letter == 'T'; }

static size_t releases(const keeper *k, uint32_t xid)
{
    size_t n = 0;
    for (const uint8_t *at = k->buffer, *end = at + k->held; at < end; at += size(at))
        if (load32(at + 2) == xid) n += size(at);
    return n;
}

/* Of any bytes: 0, or the refusal where what they say has no room, if it is accepted. */
static uint32_t lacks_room(const session *s, const keeper *k, const uint8_t *bytes, size_t length, size_t room)
{
    if (length && s->place == BLOCK && is_change(bytes[0]) && k->held + HEADER + length > k->room) return KEEPER;
    if (length >= 5 && bytes[0] == 'c' && releases(k, load32(bytes + 1)) > room) return OUTPUT;
    return 0;
}

static void keep(keeper *k, uint32_t top, const uint8_t *bytes, size_t length)
{
    uint8_t *at = k->buffer + k->held;
    at[0] = 0xC3;
    at[1] = 0x4D;
    store32(at + 2, top);
    memcpy(at + 6, bytes + 1, 4);
    store32(at + 10, (uint32_t)length);
    memcpy(at + HEADER, bytes, length);
    k->held += HEADER + length;
}

/* Takes away what a transaction kept, or what it kept under the xid `sub`, to `out` if there is one: how many bytes. */
static size_t take(keeper *k, uint32_t xid, uint32_t sub, uint8_t *out)
{
    uint8_t *to = k->buffer, *end = to + k->held;
    size_t taken = 0, n;
    for (uint8_t *at = to; at < end; at += n) {
        n = size(at);
        if (load32(at + 2) == xid && (xid == sub || load32(at + 6) == sub)) {
            if (out) memcpy(out + taken, at, n);
            taken += n;
        } else {
            if (to < at) memmove(to, at, n);
            to += n;
        }
    }
    k->held -= taken;
    return taken;
}

bool c_keeper_give(session *s, keeper *k, const uint8_t *bytes, size_t length, uint64_t tag, uint8_t *out, size_t room, answer *to,
                   size_t *released, refusal *why)
{
    uint32_t top = s->place == BLOCK ? s->xid : 0;
    uint32_t number = lacks_room(s, k, bytes, length, room);
    if (number) {
        /* a refusal of the session's comes first, and nothing changes */
        session copy = *s;
        if (c_session_give(&copy, bytes, length, tag, to, why)) *why = (refusal){number, 0};
        return false;
    }
    if (!c_session_give(s, bytes, length, tag, to, why)) return false;
    *released = 0;
    if (top && is_change(bytes[0])) keep(k, top, bytes, length);
    else if (bytes[0] == 'c') *released = take(k, load32(bytes + 1), load32(bytes + 1), out);
    else if (bytes[0] == 'A') take(k, load32(bytes + 1), load32(bytes + 5), NULL);
    return true;
}
