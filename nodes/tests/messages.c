/* Messages as bytes: random ones come back from their bytes, and any bytes are decoded without a fault. messages
   SEED COUNT writes nothing; messages HEX.. writes the result of each, and the fields of a message of design 1. With
   libFuzzer (FUZZING) the decoder takes the fuzzer's bytes. */
#include <assert.h>
#include <inttypes.h>
#include <stdio.h>
#include <stdlib.h>
#include <string.h>
#include "pals_message.h"

enum { SPARE = 64 };

/* Decodes bytes with both outcomes of the design, and encodes the result, which must be the same bytes. */
static void try_bytes(const uint8_t *bytes, uint32_t length)
{
    static pals_message message;
    uint8_t again[PALS_MESSAGE_BYTES];
    const uint64_t design = (length >= 16U) ? pals_message_design(bytes) : 1U;
    if (pals_decode(bytes, length, design, &message) == PALS_DECODED) {
        assert((message.count > 0U) && (message.count <= (uint32_t)PALS_MOST_RATE));
        assert(pals_encode(again, design, message.link, message.round, message.values, message.count) == length);
        assert(memcmp(again, bytes, length) == 0);
        assert(pals_decode(bytes, length, ~design, &message) == PALS_OTHER_DESIGN);
    }
}

#ifdef FUZZING
int LLVMFuzzerTestOneInput(const uint8_t *data, size_t size);

/* The bytes as they are, and with the CRC that they need, without which few would be read further. */
int LLVMFuzzerTestOneInput(const uint8_t *data, size_t size)
{
    uint8_t bytes[PALS_MESSAGE_BYTES + SPARE];
    if (size > sizeof bytes) {
        return 0;
    }
    if (size > 0U) {
        (void)memcpy(bytes, data, size);
    }
    try_bytes(bytes, (uint32_t)size);
    if (size >= PALS_BYTES_OF(1U)) {
        const uint32_t crc = pals_crc(bytes, (uint32_t)size - 4U);
        for (uint32_t i = 0; i < 4U; i++) {
            bytes[size - 4U + i] = (uint8_t)(crc >> (24U - (8U * i)));
        }
        try_bytes(bytes, (uint32_t)size);
    }
    return 0;
}
#else
#include "random.h"

static uint64_t any(void)
{
    return ((uint64_t)random_in(0, UINT32_MAX) << 32) | (uint64_t)random_in(0, UINT32_MAX);
}

/* A random message comes back, and with any bit changed it does not; bytes at random are refused. */
static void try_random(void)
{
    static pals_message to;
    uint8_t bytes[PALS_MESSAGE_BYTES + SPARE];
    pals_value values[PALS_MOST_RATE];
    const uint32_t count = (uint32_t)random_in(1, PALS_MOST_RATE);
    const uint64_t design = any();
    const uint64_t round = any();
    const uint32_t link = (uint32_t)any();
    for (uint32_t i = 0; i < count; i++) {
        values[i].present = random_in(0, 3) > 0;
        values[i].number = values[i].present ? random_in(INT64_MIN / 4, INT64_MAX / 4) * 2 : 0;
        if (random_in(0, 9) == 0) {
            values[i] = (pals_value){(random_in(0, 1) == 0) ? INT64_MIN : INT64_MAX, true};
        }
    }
    const uint32_t length = pals_encode(bytes, design, link, round, values, count);
    assert((length == PALS_BYTES_OF(count)) && (pals_decode(bytes, length, design, &to) == PALS_DECODED));
    assert((to.link == link) && (to.round == round) && (to.count == count));
    for (uint32_t i = 0; i < count; i++) {
        assert((to.values[i].present == values[i].present) && (to.values[i].number == values[i].number));
    }
    const uint32_t at = (uint32_t)random_in(0, (int64_t)length - 1);
    bytes[at] ^= (uint8_t)(1U << (uint32_t)random_in(0, 7));
    assert(pals_decode(bytes, length, design, &to) != PALS_DECODED);
    for (uint32_t i = 0; i < length; i++) {
        bytes[i] = (random_in(0, 3) == 0) ? (uint8_t)random_in(0, 255) : bytes[i];
    }
    try_bytes(bytes, (uint32_t)random_in(0, (int64_t)length + SPARE - 1));
}

static void show(const char *hex)
{
    static const char *const RESULTS[] = {"decoded", "not-pals",     "other-version", "bad-length",
                                          "damaged", "other-design", "not-canonical"};
    static pals_message to;
    uint8_t bytes[PALS_MESSAGE_BYTES + SPARE];
    uint32_t length = 0;
    for (; (hex[2U * length] != '\0') && (length < sizeof bytes); length++) {
        unsigned int byte = 0;
        if (sscanf(&hex[2U * length], "%2x", &byte) != 1) {
            return;
        }
        bytes[length] = (uint8_t)byte;
    }
    const pals_decoded result = pals_decode(bytes, length, 1, &to);
    (void)printf("%s", RESULTS[result]);
    if (result == PALS_DECODED) {
        (void)printf(" link %" PRIu32 " round %" PRIu64, to.link, to.round);
        for (uint32_t i = 0; i < to.count; i++) {
            if (to.values[i].present) {
                (void)printf(" %" PRId64, to.values[i].number);
            } else {
                (void)printf(" _");
            }
        }
    }
    (void)printf("\n");
}

int main(int argc, char **argv)
{
    if ((argc == 4) && (strcmp(argv[1], "random") == 0)) {
        random_begin(strtoull(argv[2], NULL, 10));
        for (uint64_t i = strtoull(argv[3], NULL, 10); i > 0U; i--) {
            try_random();
        }
        return 0;
    }
    for (int i = 1; i < argc; i++) {
        show(argv[i]);
    }
    return 0;
}
#endif
