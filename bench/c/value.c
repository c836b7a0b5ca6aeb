/* Binary values, read by a type's OID and written back. A refusal's offset is in the value. */
#include "cursor.h"

static bool truth(span bytes, typed_value *v)
{
    if (bytes.length != 1 || bytes.at[0] > 1) return false;
    v->truth = bytes.at[0];
    return true;
}

static bool int2(span bytes, typed_value *v)
{
    if (bytes.length != 2) return false;
    v->int2 = (int16_t)(bytes.at[0] << 8 | bytes.at[1]);
    return true;
}

/* An int4, or the bits of a float4. */
static bool four_bytes(span bytes, typed_value *v)
{
    if (bytes.length != 4) return false;
    v->int4 = (int32_t)load32(bytes.at);
    return true;
}

/* An int8 or timestamptz, or the bits of a float8. */
static bool eight_bytes(span bytes, typed_value *v)
{
    if (bytes.length != 8) return false;
    v->int8 = (int64_t)load64(bytes.at);
    return true;
}

static bool typed(span bytes, typed_value *v)
{
    switch (v->type) {
    case BOOL: return truth(bytes, v);
    case INT2: return int2(bytes, v);
    case INT4: case FLOAT4: return four_bytes(bytes, v);
    case INT8: case FLOAT8: case TIMESTAMPTZ: return eight_bytes(bytes, v);
    default: v->type = RAW; v->raw = bytes; return true;
    }
}

bool c_read_value(uint32_t type_oid, span bytes, typed_value *v, refusal *why)
{
    v->type = type_oid;
    if (typed(bytes, v)) return true;
    *why = (refusal){VALUE, 0};
    return false;
}

static size_t width(const typed_value *v)
{
    switch (v->type) {
    case BOOL: return 1;
    case INT2: return 2;
    case INT4: case FLOAT4: return 4;
    case INT8: case FLOAT8: case TIMESTAMPTZ: return 8;
    default: return v->raw.length;
    }
}

static void store(const typed_value *v, uint8_t *out)
{
    uint32_t bits4;
    uint64_t bits8;
    switch (v->type) {
    case BOOL: out[0] = v->truth; break;
    case INT2: out[0] = (uint8_t)((uint16_t)v->int2 >> 8); out[1] = (uint8_t)v->int2; break;
    case INT4: case FLOAT4: bits4 = __builtin_bswap32((uint32_t)v->int4); memcpy(out, &bits4, 4); break;
    case INT8: case FLOAT8: case TIMESTAMPTZ: bits8 = __builtin_bswap64((uint64_t)v->int8); memcpy(out, &bits8, 8); break;
    default: memcpy(out, v->raw.at, v->raw.length);
    }
}

bool c_write_value(const typed_value *v, uint8_t *out, size_t room, size_t *length, refusal *why)
{
    *length = width(v);
    if (*length > room) {
        *why = (refusal){OUTPUT, 0};
        return false;
    }
    store(v, out);
    return true;
}
