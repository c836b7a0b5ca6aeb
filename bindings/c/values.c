/* Reads the binary values of an Insert by the types in its Relation, and writes one of them back. */
#include <inttypes.h>
#include <kitsoriqu.h>
#include <stdio.h>
#include <string.h>

static const uint8_t relation[] = "R\0\0\0\5public\0shelf\0d\0\6"
                                  "\1id\0\0\0\0\x17\xFF\xFF\xFF\xFF\0kept\0\0\0\0\x10\xFF\xFF\xFF\xFF"
                                  "\0weight\0\0\0\2\xBC\xFF\xFF\xFF\xFF\0at\0\0\0\4\xA0\xFF\xFF\xFF\xFF"
                                  "\0note\0\0\0\0\x19\xFF\xFF\xFF\xFF\0by\0\0\0\0\x19\xFF\xFF\xFF\xFF";
static const uint8_t insert[] = "I\0\0\0\5N\0\6b\0\0\0\4\xFF\xFF\xFF\xD6" "b\0\0\0\1\1" "b\0\0\0\4\x3F\xC0\0\0"
                                "b\0\0\0\x08\0\2\xB5\x83\x41\x6E\x1D\x20" "b\0\0\0\4tall" "n";

static float float4(uint64_t bits)
{
    uint32_t pattern = (uint32_t)bits;
    float number;
    memcpy(&number, &pattern, sizeof number);
    return number;
}

static void show(const uint64_t value[KQ_VALUE_FLAT])
{
    switch (value[0]) {
    case KQ_BOOL: printf("%s\n", value[1] ? "true" : "false"); break;
    case KQ_INT4: printf("%" PRId32 "\n", (int32_t)(uint32_t)value[1]); break;
    case KQ_FLOAT4: printf("%g\n", (double)float4(value[1])); break;
    case KQ_TIMESTAMPTZ: printf("%" PRId64 " microseconds since 2000-01-01\n", (int64_t)value[1]); break;
    default: printf("%.*s\n", (int)value[2], (const char *)insert + value[1]);
    }
}

int main(void)
{
    const size_t relation_len = sizeof relation - 1, insert_len = sizeof insert - 1;
    uint64_t at[2], position[2], column[KQ_STEP], value[KQ_VALUE_FLAT], result;
    kq_column_start(1, 0, relation, relation_len, KQ_COLUMNS, at);
    kq_column_start(1, 0, insert, insert_len, KQ_NEW_TUPLE, position);
    while (kq_column_step(KQ_COLUMNS, relation, relation_len, at, column) == 0) {
        printf("%.*s: ", (int)column[2], (const char *)relation + column[1]);
        uint32_t refusal = kq_value_step(insert, insert_len, position, (uint32_t)column[3], value);
        if (refusal == 0) {
            show(value);
        } else {
            /* a null, or a value that its type forbids */
            printf("refusal %u at %u, ", (unsigned)refusal, (unsigned)value[0]);
            kq_column_step(KQ_NEW_TUPLE, insert, insert_len, position, column);
            printf("letter %c\n", (int)column[0]);
        }
    }

    uint8_t out[8];
    const uint64_t minus_two[KQ_VALUE_FLAT] = {KQ_INT2, (uint16_t)-2, 0};
    uint32_t refusal = kq_value_write(minus_two, insert, insert_len, out, sizeof out, &result);
    printf("written: %u, %u bytes, %02X %02X\n", (unsigned)refusal, (unsigned)result, out[0], out[1]);
    refusal = kq_value_write(minus_two, insert, insert_len, out, 1, &result);
    printf("into 1 byte: refusal %u at %u\n", (unsigned)refusal, (unsigned)result);
    return 0;
}
