/* The proved AMQP 0-9-1 codec for C: the functions of crates/amqp_ffi, linked from crates/amqp_ffi/out/libamqp_ffi.a (`bench/library`).
 *
 * Memory. All of it is the caller's; nothing is allocated and nothing is kept. A pointer comes with the number of its elements behind
 * it. What a function writes (out, tape, entries, payload, words) overlaps nothing else that it is given. A pointer is never NULL, not
 * even with no elements behind it.
 *
 * Answers. A function returns 0, or the number of a refusal, and fills four words. With 0: the next position in the octets or in the
 * output, then the values named at the function, then 0. With a refusal: its values, then 0; and everything lent but the four words is
 * as it was (amqp_walk leaves the frames that it read). Any position is allowed, also past the end.
 *
 * The tape has a record of six words for each value of a field table, in reading order: letter; start and length of the name; first
 * and second word of the value; number of records beneath. Starts count from the first octet of the pool, which is the input when
 * reading. A reader fills the records behind the first `used` ones.
 *
 * A payload has 26 words, the first its frame type; words that are not used are 0.
 *   1, a command: class, method, and the arguments as eight words in wire order: a number one word, a string its start and length, the
 *      flags of an octet one word with the first flag lowest, a login user and password.
 *   2, a content header: class, body size, a bit for each of the thirteen properties, the first one highest, and the properties that
 *      are present as 22 words, in the same way; the headers are the number of their tape records.
 *   3, a body: start and length.
 *   8, a heartbeat: nothing. */
#ifndef AMQP_FFI_H
#define AMQP_FFI_H

#include <stddef.h>
#include <stdint.h>

#ifdef __cplusplus
extern "C" {
#endif

enum {
    AMQP_TRUNCATED = 1,              /* fewer octets are left than the next item needs */
    AMQP_SHORT_STR_TOO_LONG = 2,     /* a short string to be written has over 255 octets */
    AMQP_UNSUPPORTED_FIELD_TYPE = 3, /* unknown letter, frame type or frame end: the octet */
    AMQP_NOT_UTF8 = 4,               /* a short string, login name or password is not UTF-8 */
    AMQP_BAD_TAPE = 5,               /* a tape given to a writer breaks a rule: the record */
    AMQP_UNKNOWN_METHOD = 6,         /* no command of the table: class, method */
    AMQP_NOT_WRITTEN = 7,            /* what no writer writes: the place */
    AMQP_TOO_DEEP = 8,               /* a table or array at depth 16 */
    AMQP_TOO_LONG = 9,               /* a length to be written is over 4,294,967,295 */
    AMQP_TAPE_FULL = 10,             /* the tape, or the walk's register, has no record left */
    AMQP_NO_SPACE = 11               /* the octets needed are more than the output has */
};

enum { AMQP_METHOD = 1, AMQP_HEADER = 2, AMQP_BODY = 3, AMQP_HEARTBEAT = 8 };

enum { AMQP_WORDS = 4, AMQP_PAYLOAD_WORDS = 26, AMQP_RECORD_WORDS = 6, AMQP_REGISTER_WORDS = 3 };

/* Frames */

/* Decodes the frame at a position: type, channel, length of the payload, which begins seven octets behind the position. */
uint32_t amqp_decode(const uint8_t *s, size_t s_len, size_t at, uint64_t words[4]);

/* Reads the frame at a position with its payload: type, channel, number of its tape records. */
uint32_t amqp_read_frame(const uint8_t *s, size_t s_len, size_t at, uint64_t *tape, size_t tape_len, size_t used,
                         uint64_t payload[26], uint64_t words[4]);

/* Reads all frames from octet 0 on. Fills, for each, three words of the register: its first octet, the tape records before it, those of
 * its own. Returns 0 where no octet is left, else the refusal that stopped it. The words: octets consumed, frames read, and the values of
 * the refusal. */
uint32_t amqp_walk(const uint8_t *s, size_t s_len, uint64_t *tape, size_t tape_len, uint64_t *entries, size_t entries_len,
                   uint64_t words[4]);

/* Writes a frame. Strings and bodies are spans of the pool; the tape is the header's table. */
uint32_t amqp_write_frame(uint8_t *out, size_t out_len, size_t at, uint16_t channel, const uint64_t payload[26],
                          const uint8_t *pool, size_t pool_len, const uint64_t *tape, size_t tape_len, uint64_t words[4]);

/* Payloads alone */

/* A content header: class, body size, number of its tape records. */
uint32_t amqp_content_header(const uint8_t *s, size_t s_len, size_t at, uint64_t *tape, size_t tape_len, size_t used,
                             uint64_t words[4]);

/* A command from its class, its method and the words of its arguments. */
uint32_t amqp_write_command(uint8_t *out, size_t out_len, size_t at, uint16_t class_id, uint16_t method_id,
                            const uint64_t arguments[8], const uint8_t *pool, size_t pool_len, const uint64_t *tape,
                            size_t tape_len, uint64_t words[4]);

/* Field tables and lone values: the number of tape records filled */

uint32_t amqp_field_table(const uint8_t *s, size_t s_len, size_t at, uint64_t *tape, size_t tape_len, size_t used,
                          uint64_t words[4]);
uint32_t amqp_field_value(const uint8_t *s, size_t s_len, size_t at, uint64_t *tape, size_t tape_len, size_t used,
                          uint64_t words[4]);

/* The whole tape is written. */
uint32_t amqp_write_field_table(uint8_t *out, size_t out_len, size_t at, const uint8_t *pool, size_t pool_len,
                                const uint64_t *tape, size_t tape_len, uint64_t words[4]);
uint32_t amqp_write_field_value(uint8_t *out, size_t out_len, size_t at, const uint8_t *pool, size_t pool_len,
                                const uint64_t *tape, size_t tape_len, uint64_t words[4]);

/* Numbers; and strings, by start and length */

uint32_t amqp_u8(const uint8_t *s, size_t s_len, size_t at, uint64_t words[4]);
uint32_t amqp_u16(const uint8_t *s, size_t s_len, size_t at, uint64_t words[4]);
uint32_t amqp_u32(const uint8_t *s, size_t s_len, size_t at, uint64_t words[4]);
uint32_t amqp_u64(const uint8_t *s, size_t s_len, size_t at, uint64_t words[4]);
uint32_t amqp_short_str(const uint8_t *s, size_t s_len, size_t at, uint64_t words[4]);
uint32_t amqp_long_str(const uint8_t *s, size_t s_len, size_t at, uint64_t words[4]);

uint32_t amqp_write_u32(uint8_t *out, size_t out_len, size_t at, uint32_t n, uint64_t words[4]);
uint32_t amqp_write_u64(uint8_t *out, size_t out_len, size_t at, uint64_t n, uint64_t words[4]);
uint32_t amqp_write_short_str(uint8_t *out, size_t out_len, size_t at, const uint8_t *s, size_t s_len, uint64_t words[4]);
uint32_t amqp_write_long_str(uint8_t *out, size_t out_len, size_t at, const uint8_t *s, size_t s_len, uint64_t words[4]);

#ifdef __cplusplus
}
#endif

#endif
