/* What `msgr2 frames FILE` does, in plain C, as a reference for its rate: reads the file in pieces of 64 KiB,
   checks each checksum and prints the same lines. It judges no more than that. The checksum goes a byte a step by
   a table of 256 words, and with -DEIGHT eight bytes a step by eight of them. */
#include <fcntl.h>
#include <stdint.h>
#include <stdio.h>
#include <string.h>
#include <unistd.h>

enum { PIECE = 65536, PREAMBLE = 32, EPILOGUE = 13 };

static uint32_t table[8][256];

static const char *names[] = {
    "", "HELLO", "AUTH_REQUEST", "AUTH_BAD_METHOD", "AUTH_REPLY_MORE", "AUTH_REQUEST_MORE", "AUTH_DONE",
    "AUTH_SIGNATURE", "CLIENT_IDENT", "SERVER_IDENT", "IDENT_MISSING_FEATURES", "SESSION_RECONNECT",
    "SESSION_RESET", "SESSION_RETRY", "SESSION_RETRY_GLOBAL", "SESSION_RECONNECT_OK", "WAIT", "MESSAGE",
    "KEEPALIVE2", "KEEPALIVE2_ACK", "ACK", "COMPRESSION_REQUEST", "COMPRESSION_DONE",
};

static void make_tables(void) {
    for (uint32_t i = 0; i < 256; i++) {
        uint32_t word = i;
        for (int k = 0; k < 8; k++) word = (word >> 1) ^ (word & 1 ? 0x82f63b78u : 0);
        table[0][i] = word;
    }
    for (int t = 1; t < 8; t++)
        for (int i = 0; i < 256; i++) table[t][i] = (table[t - 1][i] >> 8) ^ table[0][table[t - 1][i] & 0xff];
}

static uint32_t crc32c(uint32_t crc, const uint8_t *bytes, size_t count) {
#ifdef EIGHT
    for (; count >= 8; bytes += 8, count -= 8) {
        uint64_t word;
        memcpy(&word, bytes, 8);
        word ^= crc;
        crc = table[7][word & 0xff] ^ table[6][word >> 8 & 0xff] ^ table[5][word >> 16 & 0xff] ^
              table[4][word >> 24 & 0xff] ^ table[3][word >> 32 & 0xff] ^ table[2][word >> 40 & 0xff] ^
              table[1][word >> 48 & 0xff] ^ table[0][word >> 56];
    }
#endif
    for (size_t i = 0; i < count; i++) crc = (crc >> 8) ^ table[0][(crc ^ bytes[i]) & 0xff];
    return crc;
}

static uint32_t word_at(const uint8_t *bytes) {
    return bytes[0] | (uint32_t)bytes[1] << 8 | (uint32_t)bytes[2] << 16 | (uint32_t)bytes[3] << 24;
}

static int file;
static uint8_t piece[PIECE];
static size_t at, end;

/* The next bytes, at most so many; 0 at the end of the file. */
static size_t next(const uint8_t **bytes, size_t most) {
    if (at == end) {
        ssize_t n = read(file, piece, PIECE);
        if (n <= 0) return 0;
        at = 0, end = (size_t)n;
    }
    size_t n = end - at < most ? end - at : most;
    *bytes = piece + at;
    at += n;
    return n;
}

static int take(uint8_t *into, size_t count) {
    const uint8_t *bytes;
    while (count > 0) {
        size_t n = next(&bytes, count);
        if (n == 0) return 0;
        memcpy(into, bytes, n);
        into += n, count -= n;
    }
    return 1;
}

static int segment(size_t count, uint32_t *crc) {
    const uint8_t *bytes;
    *crc = 0xffffffffu;
    while (count > 0) {
        size_t n = next(&bytes, count);
        if (n == 0) return 0;
        *crc = crc32c(*crc, bytes, n);
        count -= n;
    }
    return 1;
}

/* 1 where a frame was there, 0 at the end of the file, -1 where a text is bad or cut. */
static int list_frame(void) {
    uint8_t preamble[PREAMBLE], epilogue[EPILOGUE];
    uint32_t lengths[4], crcs[4] = {0};
    if (!take(preamble, 1)) return 0;
    if (!take(preamble + 1, PREAMBLE - 1)) return -1;
    if (crc32c(0, preamble, 28) != word_at(preamble + 28)) return -1;
    unsigned tag = preamble[0], count = preamble[1];
    if (count < 1 || count > 4 || tag < 1 || tag > 22) return -1;
    for (unsigned i = 0; i < count; i++) lengths[i] = word_at(preamble + 2 + 6 * i);
    if (lengths[0] > 0) {
        uint8_t crc[4];
        if (!segment(lengths[0], &crcs[0]) || !take(crc, 4) || crcs[0] != word_at(crc)) return -1;
    }
    if (count > 1) {
        for (unsigned i = 1; i < count; i++)
            if (!segment(lengths[i], &crcs[i])) return -1;
        if (!take(epilogue, EPILOGUE)) return -1;
        for (unsigned i = 1; i < count; i++)
            if (crcs[i] != word_at(epilogue + 4 * i - 3)) return -1;
        unsigned late = epilogue[0] & 15;
        if (late == 1) return printf("%s aborted\n", names[tag]), 1;
        if (late != 14) return -1;
    }
    fputs(names[tag], stdout);
    for (unsigned i = 0; i < count; i++) printf(" %u", lengths[i]);
    putchar('\n');
    return 1;
}

int main(int argc, char **argv) {
    if (argc != 2 || (file = open(argv[1], O_RDONLY)) < 0) return 1;
    make_tables();
    int answer;
    while ((answer = list_frame()) > 0) {
    }
    return fflush(stdout) == 0 && answer == 0 ? 0 : 10;
}
