/* How a gateway calls the codec from C. A recording comes in on standard input, in small pieces, as from a socket. What has arrived is
 * walked; each frame that has ended is read, written again from what was read, and compared with its own octets. A frame that is whole and
 * whose payload is refused is passed over. The last line says how many there were of each. */
#include <stdio.h>
#include <string.h>

#include "../include/amqp_ffi.h"

enum { ARRIVED = 1 << 20, RECORDS = 4096, FRAMES = 64, PIECE = 100 };

static uint8_t arrived[ARRIVED], written[ARRIVED];
static uint64_t tape[RECORDS * AMQP_RECORD_WORDS], entries[FRAMES * AMQP_REGISTER_WORDS];
static unsigned relayed, refused, different;

/* Reads the frame of a register entry and writes it again. */
static void relay(size_t len, const uint64_t entry[AMQP_REGISTER_WORDS]) {
    uint64_t words[AMQP_WORDS], payload[AMQP_PAYLOAD_WORDS];
    size_t first = entry[0], records = entry[2];
    if (amqp_read_frame(arrived, len, first, tape, RECORDS * AMQP_RECORD_WORDS, 0, payload, words) != 0) {
        different++;
        return;
    }
    size_t size = words[0] - first;
    uint16_t channel = (uint16_t)words[2];
    if (amqp_write_frame(written, ARRIVED, 0, channel, payload, arrived, len, tape, records * AMQP_RECORD_WORDS, words) != 0
        || words[0] != size || memcmp(written, arrived + first, size) != 0) {
        different++;
        return;
    }
    relayed++;
}

/* Takes the frames that have ended, and says how many octets they are. */
static size_t take(size_t len) {
    uint64_t words[AMQP_WORDS];
    uint32_t refusal = amqp_walk(arrived, len, tape, RECORDS * AMQP_RECORD_WORDS, entries, FRAMES * AMQP_REGISTER_WORDS, words);
    size_t consumed = words[0], frames = words[1];
    for (size_t i = 0; i < frames; i++) relay(len, entries + i * AMQP_REGISTER_WORDS);
    /* Refused is the frame at the octets consumed. If it decodes there, it is whole: no more octets will mend its payload. */
    if (refusal != 0 && refusal != AMQP_TAPE_FULL && amqp_decode(arrived, len, consumed, words) == 0) {
        refused++;
        consumed = words[0];
    }
    return consumed;
}

int main(void) {
    static const uint8_t protocol_header[8] = {'A', 'M', 'Q', 'P', 0, 0, 9, 1};
    size_t len = 0, got;
    int first = 1;
    while ((got = fread(arrived + len, 1, PIECE, stdin)) > 0) {
        len += got;
        if (first && len >= 8 && memcmp(arrived, protocol_header, 8) == 0) memmove(arrived, arrived + 8, len -= 8);
        first = 0;
        for (size_t consumed; (consumed = take(len)) > 0;) memmove(arrived, arrived + consumed, len -= consumed);
        if (len + PIECE > ARRIVED) break;
    }
    printf("%u frames relayed, %u with a payload that is refused, %u different, %zu octets left\n", relayed, refused, different, len);
    return different != 0;
}
