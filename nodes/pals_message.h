/* Messages as bytes, the same on every processor (docs/messages.md). Nothing is called and no memory is allocated. */
#ifndef PALS_MESSAGE_H
#define PALS_MESSAGE_H
#include "pals_node.h"

/* The version of the format, the bytes before the values and after them, and the bytes of the longest message. */
enum { PALS_MESSAGE_VERSION = 1, PALS_MESSAGE_HEAD = 36, PALS_MESSAGE_TAIL = 4 };
enum { PALS_MESSAGE_BYTES = PALS_MESSAGE_HEAD + (8 * PALS_MOST_RATE) + PALS_MESSAGE_TAIL };

/* The bytes of a message with so many values. */
#define PALS_BYTES_OF(count) ((uint32_t)PALS_MESSAGE_HEAD + (8U * (count)) + (uint32_t)PALS_MESSAGE_TAIL)

typedef struct {
    uint32_t link;
    uint64_t round;
    uint32_t count;
    pals_value values[PALS_MOST_RATE];
} pals_message;

/* The result of decoding: a message of this design; or the first reason why it is not one, in this order. */
typedef enum {
    PALS_DECODED,
    PALS_NOT_PALS,      /* shorter than any message, or other bytes at the beginning */
    PALS_OTHER_VERSION, /* another version of the format */
    PALS_BAD_LENGTH,    /* not 1 to 64 values, or another number of bytes */
    PALS_DAMAGED,       /* the CRC differs */
    PALS_OTHER_DESIGN,  /* of nodes of another design */
    PALS_NOT_CANONICAL  /* reserved bits are set, or an absent value is not 0 */
} pals_decoded;

/* Writes a message of 1 to 64 values and returns its length; absent values are written as 0. Returns 0 and writes
   nothing for another count. `to` has room for PALS_BYTES_OF(count) bytes. */
uint32_t pals_encode(uint8_t to[], uint64_t design, uint32_t link, uint64_t round, const pals_value values[],
                     uint32_t count);

/* Reads a message. It accepts any bytes; *to is changed only if the result is PALS_DECODED. */
pals_decoded pals_decode(const uint8_t from[], uint32_t length, uint64_t design, pals_message *to);

/* The identity of the design in a message that is not PALS_NOT_PALS. */
uint64_t pals_message_design(const uint8_t from[]);

/* The CRC-32 of IEEE 802.3 of some bytes. */
uint32_t pals_crc(const uint8_t bytes[], uint32_t length);

#endif
