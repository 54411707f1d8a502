/* Frames of messages in plain C, for the programs that measure here: CRC-32C, eight bytes a step by eight tables; a buffer that
   grows; and a message of one size, written as a frame and read again with the same checksums. */
#include <stdint.h>
#include <stdio.h>
#include <stdlib.h>
#include <string.h>

enum { PREAMBLE = 32, HEADER = 41, EPILOGUE = 13, PIECE = 65536 };

static uint32_t table[8][256];

static void make_tables(void) {
    for (uint32_t i = 0; i < 256; i++) {
        uint32_t word = i;
        for (int k = 0; k < 8; k++) word = (word >> 1) ^ (word & 1 ? 0x82f63b78u : 0);
        table[0][i] = word;
    }
    for (int t = 1; t < 8; t++)
        for (int i = 0; i < 256; i++) table[t][i] = (table[t - 1][i] >> 8) ^ table[0][table[t - 1][i] & 0xff];
}

#ifdef HARDWARE_CRC /* by the processor's own instruction (-msse4.2) */
static uint32_t crc32c(uint32_t crc, const uint8_t *bytes, size_t count) {
    uint64_t wide = crc;
    for (; count >= 8; bytes += 8, count -= 8) {
        uint64_t word;
        memcpy(&word, bytes, 8);
        wide = __builtin_ia32_crc32di(wide, word);
    }
    for (size_t i = 0; i < count; i++) wide = __builtin_ia32_crc32qi((uint32_t)wide, bytes[i]);
    return (uint32_t)wide;
}
#else
static uint32_t crc32c(uint32_t crc, const uint8_t *bytes, size_t count) {
    for (; count >= 8; bytes += 8, count -= 8) {
        uint64_t word;
        memcpy(&word, bytes, 8);
        word ^= crc;
        crc = table[7][word & 0xff] ^ table[6][word >> 8 & 0xff] ^ table[5][word >> 16 & 0xff] ^
              table[4][word >> 24 & 0xff] ^ table[3][word >> 32 & 0xff] ^ table[2][word >> 40 & 0xff] ^
              table[1][word >> 48 & 0xff] ^ table[0][word >> 56];
    }
    for (size_t i = 0; i < count; i++) crc = (crc >> 8) ^ table[0][(crc ^ bytes[i]) & 0xff];
    return crc;
}
#endif

struct buffer {
    uint8_t *bytes;
    size_t len, room;
};

static uint8_t *more(struct buffer *b, size_t count) {
    if (b->room - b->len < count) {
        b->room = b->room * 2 > b->len + count ? b->room * 2 : b->len + count;
        b->bytes = realloc(b->bytes, b->room);
        if (!b->bytes) exit(9);
    }
    b->len += count;
    return b->bytes + b->len - count;
}

static void append(struct buffer *b, const void *bytes, size_t count) {
    if (count > 0) memcpy(more(b, count), bytes, count);
}

static void put32(uint8_t *at, uint32_t n) { memcpy(at, &n, 4); }
static uint32_t get32(const uint8_t *at) {
    uint32_t n;
    memcpy(&n, at, 4);
    return n;
}

struct message {
    uint64_t seq;
    uint8_t *data;
    size_t size;
};

#ifdef SHARED /* a message keeps no bytes of its own, but points to where they are */
static uint8_t *copy_of(const uint8_t *bytes, size_t size) {
    (void)size;
    return (uint8_t *)bytes;
}
#else
static uint8_t *copy_of(const uint8_t *bytes, size_t size) {
    uint8_t *copy = size ? malloc(size) : NULL;
    if (size) memcpy(copy, bytes, size);
    return copy;
}
#endif

static void write_frame(struct buffer *out, uint64_t seq, const uint8_t *data, size_t size) {
    uint8_t preamble[PREAMBLE] = {17, size ? 4 : 1}, header[HEADER] = {0}, epilogue[EPILOGUE] = {0x0e};
    put32(preamble + 2, HEADER), preamble[6] = 8, preamble[12] = 8, preamble[18] = 8;
    put32(preamble + 20, (uint32_t)size), preamble[25] = 16;
    put32(preamble + 28, crc32c(0, preamble, 28));
    memcpy(header, &seq, 8), header[16] = 7, header[18] = 127, header[20] = 1, header[37] = 1;
    uint8_t crc[4];
    put32(crc, crc32c(0xffffffffu, header, HEADER));
    append(out, preamble, PREAMBLE), append(out, header, HEADER), append(out, crc, 4);
    if (size) {
        append(out, data, size);
        put32(epilogue + 1, 0xffffffffu), put32(epilogue + 5, 0xffffffffu);
        put32(epilogue + 9, crc32c(0xffffffffu, data, size));
        append(out, epilogue, EPILOGUE);
    }
}

/* How many bytes the first frame has, or 0 where it isn't whole. */
static size_t read_frame(const uint8_t *bytes, size_t count, struct message *into) {
    if (count < PREAMBLE) return 0;
    if (crc32c(0, bytes, 28) != get32(bytes + 28)) exit(10);
    size_t size = bytes[1] > 1 ? get32(bytes + 20) : 0;
    size_t whole = PREAMBLE + HEADER + 4 + (bytes[1] > 1 ? size + EPILOGUE : 0);
    if (count < whole) return 0;
    const uint8_t *header = bytes + PREAMBLE, *data = header + HEADER + 4;
    if (crc32c(0xffffffffu, header, HEADER) != get32(header + HEADER)) exit(10);
    if (bytes[1] > 1 && crc32c(0xffffffffu, data, size) != get32(data + size + 9)) exit(10);
    memcpy(&into->seq, header, 8);
    into->data = copy_of(data, size), into->size = size;
    return whole;
}
