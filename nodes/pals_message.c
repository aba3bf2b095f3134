#include "pals_message.h"

/* Where the fields begin. All numbers are big-endian. */
enum { AT_VERSION = 4, AT_RESERVED = 5, AT_COUNT = 6, AT_DESIGN = 8, AT_LINK = 16, AT_ROUND = 20, AT_PRESENT = 28 };

static const uint8_t MAGIC[4] = {0x50U, 0x41U, 0x4CU, 0x53U};

static void put_bytes(uint8_t to[], uint32_t at, uint64_t number, uint32_t bytes)
{
    uint64_t left = number;
    for (uint32_t i = bytes; i > 0U; i--) {
        to[(at + i) - 1U] = (uint8_t)(left & 0xFFU);
        left >>= 8;
    }
}

static uint64_t get(const uint8_t from[], uint32_t at, uint32_t bytes)
{
    uint64_t number = 0;
    for (uint32_t i = 0; i < bytes; i++) {
        number = (number << 8) | from[at + i];
    }
    return number;
}

/* The number of 64 bits in two's complement that has these bits. */
static int64_t signed_of(uint64_t bits)
{
    const uint64_t below = UINT64_MAX - bits;
    return (bits <= (uint64_t)INT64_MAX) ? (int64_t)bits : (-(int64_t)below - 1);
}

uint32_t pals_crc(const uint8_t bytes[], uint32_t length)
{
    uint32_t crc = 0xFFFFFFFFU;
    for (uint32_t i = 0; i < length; i++) {
        crc ^= bytes[i];
        for (uint32_t bit = 0; bit < 8U; bit++) {
            crc = ((crc & 1U) != 0U) ? ((crc >> 1) ^ 0xEDB88320U) : (crc >> 1);
        }
    }
    return crc ^ 0xFFFFFFFFU;
}

uint64_t pals_message_design(const uint8_t from[])
{
    return get(from, AT_DESIGN, 8);
}

uint32_t pals_encode(uint8_t to[], uint64_t design, uint32_t link, uint64_t round, const pals_value values[],
                     uint32_t count)
{
    uint64_t present = 0;
    if ((count == 0U) || (count > (uint32_t)PALS_MOST_RATE)) {
        return 0;
    }
    for (uint32_t i = 0; i < count; i++) {
        present |= values[i].present ? (UINT64_C(1) << i) : 0U;
        put_bytes(to, (uint32_t)PALS_MESSAGE_HEAD + (8U * i), values[i].present ? (uint64_t)values[i].number : 0U, 8);
    }
    for (uint32_t i = 0; i < 4U; i++) {
        to[i] = MAGIC[i];
    }
    put_bytes(to, AT_VERSION, PALS_MESSAGE_VERSION, 1);
    put_bytes(to, AT_RESERVED, 0, 1);
    put_bytes(to, AT_COUNT, count, 2);
    put_bytes(to, AT_DESIGN, design, 8);
    put_bytes(to, AT_LINK, link, 4);
    put_bytes(to, AT_ROUND, round, 8);
    put_bytes(to, AT_PRESENT, present, 8);
    const uint32_t length = PALS_BYTES_OF(count) - (uint32_t)PALS_MESSAGE_TAIL;
    put_bytes(to, length, pals_crc(to, length), 4);
    return length + (uint32_t)PALS_MESSAGE_TAIL;
}

/* Whether the bytes have the form of a message of this design, the values not yet checked. */
static pals_decoded check(const uint8_t from[], uint32_t length, uint64_t design)
{
    if (length < PALS_BYTES_OF(1U)) {
        return PALS_NOT_PALS;
    }
    for (uint32_t i = 0; i < 4U; i++) {
        if (from[i] != MAGIC[i]) {
            return PALS_NOT_PALS;
        }
    }
    if (from[AT_VERSION] != (uint8_t)PALS_MESSAGE_VERSION) {
        return PALS_OTHER_VERSION;
    }
    const uint32_t count = (uint32_t)get(from, AT_COUNT, 2);
    if ((count == 0U) || (count > (uint32_t)PALS_MOST_RATE) || (length != PALS_BYTES_OF(count))) {
        return PALS_BAD_LENGTH;
    }
    const uint32_t covered = length - (uint32_t)PALS_MESSAGE_TAIL;
    if (get(from, covered, 4) != pals_crc(from, covered)) {
        return PALS_DAMAGED;
    }
    return (pals_message_design(from) == design) ? PALS_DECODED : PALS_OTHER_DESIGN;
}

/* Whether no bit is set that means nothing: in the reserved byte, past the values, and in absent values. */
static bool is_canonical(const uint8_t from[], uint32_t count, uint64_t present)
{
    bool canonical = (from[AT_RESERVED] == 0U) && ((count == 64U) || ((present >> count) == 0U));
    for (uint32_t i = 0; i < count; i++) {
        const bool here = ((present >> i) & 1U) != 0U;
        canonical = canonical && (here || (get(from, (uint32_t)PALS_MESSAGE_HEAD + (8U * i), 8) == 0U));
    }
    return canonical;
}

pals_decoded pals_decode(const uint8_t from[], uint32_t length, uint64_t design, pals_message *to)
{
    const pals_decoded checked = check(from, length, design);
    if (checked != PALS_DECODED) {
        return checked;
    }
    const uint32_t count = (uint32_t)get(from, AT_COUNT, 2);
    const uint64_t present = get(from, AT_PRESENT, 8);
    if (!is_canonical(from, count, present)) {
        return PALS_NOT_CANONICAL;
    }
    to->link = (uint32_t)get(from, AT_LINK, 4);
    to->round = get(from, AT_ROUND, 8);
    to->count = count;
    for (uint32_t i = 0; i < count; i++) {
        to->values[i].number = signed_of(get(from, (uint32_t)PALS_MESSAGE_HEAD + (8U * i), 8));
        to->values[i].present = ((present >> i) & 1U) != 0U;
    }
    return PALS_DECODED;
}
