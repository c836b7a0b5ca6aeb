/* Gives a streamed transaction to a session with a keeper and looks at what its commit releases. */
#include <kitsoriqu.h>
#include <stdio.h>

#define TEXT(s) {(const uint8_t *)(s), sizeof(s) - 1}

static const struct { const uint8_t *bytes; size_t len; } feed[] = {
    TEXT("S\0\0\0\7\1"),
    TEXT("R\0\0\0\7\0\0\0\5public\0shelf\0d\0\1\1id\0\0\0\0\x17\xFF\xFF\xFF\xFF"),
    TEXT("I\0\0\0\7\0\0\0\5N\0\1t\0\0\0\00242"),
    TEXT("I\0\0\0\x08\0\0\0\5N\0\1t\0\0\0\00243"), /* of a subtransaction, which aborts */
    TEXT("I\0\0\0\7\0\0\0\5N\0\1t\0\0\0\00244"),
    TEXT("E"),
    TEXT("A\0\0\0\7\0\0\0\x08"),
    TEXT("c\0\0\0\7\0\0\0\0\0\0\0\0\x10\0\0\0\0\0\0\0\x20\0\0\0\0\0\0\0\0"),
};

static uint32_t number(const uint8_t *bytes)
{
    return (uint32_t)bytes[0] << 24 | (uint32_t)bytes[1] << 16 | (uint32_t)bytes[2] << 8 | bytes[3];
}

/* The released records, one after the other. */
static void show(const uint8_t *record, const uint8_t *end)
{
    for (size_t len; record < end; record += 14 + len) {
        len = number(record + 10);
        uint64_t position[2], column[KQ_STEP];
        printf("  xid %u:", (unsigned)number(record + 6));
        kq_column_start(2, 1, record + 14, len, KQ_NEW_TUPLE, position);
        while (kq_column_step(KQ_NEW_TUPLE, record + 14, len, position, column) == 0)
            printf(" %.*s", (int)column[2], (const char *)record + 14 + column[1]);
        printf("\n");
    }
}

int main(void)
{
    static uint8_t buffer[4096], out[4096];
    size_t held = 0;
    kq_session session;
    kq_session_start(&session, 2);
    for (unsigned i = 0; i < sizeof feed / sizeof *feed; i++) {
        uint64_t reply[KQ_REPLY];
        uint32_t refusal = kq_keeper_give(&session, feed[i].bytes, feed[i].len, i, buffer, sizeof buffer, &held, out, sizeof out, reply);
        if (refusal) {
            printf("message %u: refusal %u at %u\n", i, (unsigned)refusal, (unsigned)reply[0]);
        } else {
            printf("message %u: accepted, %u bytes held, %u released\n", i, (unsigned)held, (unsigned)reply[4]);
            show(out, out + reply[4]);
        }
    }
    return 0;
}
