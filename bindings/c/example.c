/* Gives a small feed to a session and looks at what it inserts. */
#include <kitsoriqu.h>
#include <stdio.h>

#define TEXT(s) {(const uint8_t *)(s), sizeof(s) - 1}

static const struct { const uint8_t *bytes; size_t len; } feed[] = {
    TEXT("B\0\0\0\0\0\0\0\x10\0\0\0\0\0\0\0\0\0\0\0\x07"),
    TEXT("R\0\0\0\5public\0shelf\0d\0\2\1id\0\0\0\0\x17\xFF\xFF\xFF\xFF\0note\0\0\0\0\x19\xFF\xFF\xFF\xFF"),
    TEXT("I\0\0\0\5N\0\2t\0\0\0\00242n"),
    TEXT("C\0\0\0\0\0\0\0\0\x10\0\0\0\0\0\0\0\x20\0\0\0\0\0\0\0\0"),
    TEXT("I\0\0\0\5N\0\2t\0\0\0\00243n"), /* outside a transaction */
};

static void show(const uint8_t *bytes, size_t len)
{
    uint64_t message[KQ_FLAT], position[2], column[KQ_STEP];
    if (kq_read(1, 0, bytes, len, message) != 0 || message[0] != KQ_INSERT) return;
    printf("  relation %u:", (unsigned)message[2]);
    kq_column_start(1, 0, bytes, len, KQ_NEW_TUPLE, position);
    for (const char *between = " "; kq_column_step(KQ_NEW_TUPLE, bytes, len, position, column) == 0; between = ", ") {
        if (column[0] == 't') printf("%s%.*s", between, (int)column[2], (const char *)bytes + column[1]);
        else printf("%s%s", between, column[0] == 'n' ? "null" : "...");
    }
    printf("\n");
}

int main(void)
{
    kq_session session;
    kq_session_start(&session, 1);
    for (unsigned i = 0; i < sizeof feed / sizeof *feed; i++) {
        uint64_t answer[KQ_ANSWER];
        uint32_t refusal = kq_session_give(&session, feed[i].bytes, feed[i].len, i, answer);
        if (refusal) {
            printf("message %u: refusal %u at %u\n", i, (unsigned)refusal, (unsigned)answer[0]);
        } else if (answer[0] == 1) {
            printf("message %u: accepted, of the announcement in message %u\n", i, (unsigned)answer[1]);
            show(feed[i].bytes, feed[i].len);
        } else {
            printf("message %u: accepted\n", i);
        }
    }
    return 0;
}
