/* What two nodes of `msgr2 run` do with messages of one size, in plain C and without a session: over each of so many loopback
   connections a thread writes frames and another one reads them, with the same checksums, and acknowledges what it has read.
   All that was put and got is kept, and each message where it is planned and where it is dispatched, as nodes keep them. Its
   words: how many messages over all connections, how many bytes of data each has, how many connections, and how many bytes are
   sent at a time, 1 for each message by itself. Prints how many nanoseconds that took, and how many of processor time. */
#include "message_frames.h"
#include <arpa/inet.h>
#include <netinet/in.h>
#include <netinet/tcp.h>
#include <pthread.h>
#include <sys/resource.h>
#include <sys/socket.h>
#include <time.h>
#include <unistd.h>

enum { ACK = 44, MOST_CONNECTIONS = 8 };

struct side {
    int socket;
    size_t count, size, at_once;
    struct buffer put, got, kept;
};

static void write_ack(struct buffer *out, uint64_t seen) {
    uint8_t frame[ACK] = {20, 1};
    put32(frame + 2, 8), frame[6] = 8;
    put32(frame + 28, crc32c(0, frame, 28));
    memcpy(frame + 32, &seen, 8);
    put32(frame + 40, crc32c(0xffffffffu, frame + 32, 8));
    append(out, frame, ACK);
}

/* The number that the last whole acknowledgement has, of those behind `*place`. */
static uint64_t last_ack(const struct buffer *got, size_t *place, uint64_t acked) {
    for (; got->len - *place >= ACK; *place += ACK) {
        const uint8_t *frame = got->bytes + *place;
        if (crc32c(0, frame, 28) != get32(frame + 28) || crc32c(0xffffffffu, frame + 32, 8) != get32(frame + 40)) exit(10);
        memcpy(&acked, frame + 32, 8);
    }
    return acked;
}

/* Reads once behind what was got. Whether something came, or might have. */
static size_t receive(int socket, struct buffer *got, int flags) {
    uint8_t *at = more(got, PIECE);
    ssize_t n = recv(socket, at, PIECE, flags);
    got->len -= PIECE - (n > 0 ? (size_t)n : 0);
    return n > 0 ? (size_t)n : 0;
}

static void *sender(void *of) {
    struct side *s = of;
    uint8_t *bytes = malloc(s->size + 1);
    memset(bytes, 0x61, s->size);
    for (size_t i = 0; i < s->count; i++) {
        struct message planned = {i + 1, copy_of(bytes, s->size), s->size};
        append(&s->kept, &planned, sizeof planned);
    }
    size_t sent = 0, place = 0;
    uint64_t acked = 0;
    for (size_t i = 0; i < s->count; i++) {
        const struct message *planned = (struct message *)s->kept.bytes + i;
        write_frame(&s->put, planned->seq, planned->data, planned->size);
        while (s->put.len - sent >= s->at_once || (i + 1 == s->count && sent < s->put.len)) {
            ssize_t n = send(s->socket, s->put.bytes + sent, s->put.len - sent, 0);
            if (n <= 0) exit(11);
            sent += (size_t)n;
            if (receive(s->socket, &s->got, MSG_DONTWAIT)) acked = last_ack(&s->got, &place, acked);
        }
    }
    while (acked < s->count) {
        if (!receive(s->socket, &s->got, 0)) exit(12);
        acked = last_ack(&s->got, &place, acked);
    }
    free(bytes);
    return NULL;
}

static void *receiver(void *of) {
    struct side *s = of;
    size_t place = 0;
    uint64_t passed = 0;
    while (passed < s->count) {
        if (!receive(s->socket, &s->got, 0)) exit(13);
        struct message message;
        for (size_t whole; (whole = read_frame(s->got.bytes + place, s->got.len - place, &message)) > 0; place += whole) {
            if (message.seq != ++passed) exit(14);
            append(&s->kept, &message, sizeof message);
        }
        size_t before = s->put.len;
        write_ack(&s->put, passed);
        if (send(s->socket, s->put.bytes + before, ACK, 0) != ACK) exit(15);
    }
    return NULL;
}

/* Both ends of a loopback connection. */
static void connect_pair(int ends[2]) {
    struct sockaddr_in at = {.sin_family = AF_INET, .sin_addr.s_addr = htonl(INADDR_LOOPBACK)};
    socklen_t length = sizeof at;
    int listener = socket(AF_INET, SOCK_STREAM, 0), one = 1;
    if (bind(listener, (struct sockaddr *)&at, length) || listen(listener, 1)) exit(16);
    getsockname(listener, (struct sockaddr *)&at, &length);
    ends[0] = socket(AF_INET, SOCK_STREAM, 0);
    if (connect(ends[0], (struct sockaddr *)&at, length)) exit(16);
    ends[1] = accept(listener, NULL, NULL);
    for (int i = 0; i < 2; i++) setsockopt(ends[i], IPPROTO_TCP, TCP_NODELAY, &one, sizeof one);
    close(listener);
}

static long long nanoseconds(clockid_t clock) {
    struct timespec now;
    clock_gettime(clock, &now);
    return now.tv_sec * 1000000000LL + now.tv_nsec;
}

int main(int argc, char **argv) {
    if (argc != 5) return 2;
    size_t count = strtoull(argv[1], NULL, 10), size = strtoull(argv[2], NULL, 10), connections = strtoull(argv[3], NULL, 10);
    size_t at_once = strtoull(argv[4], NULL, 10);
    if (connections < 1 || connections > MOST_CONNECTIONS) return 2;
    make_tables();
    static struct side sides[2 * MOST_CONNECTIONS];
    pthread_t threads[2 * MOST_CONNECTIONS];
    for (size_t i = 0; i < connections; i++) {
        int ends[2];
        connect_pair(ends);
        for (int k = 0; k < 2; k++)
            sides[2 * i + k] = (struct side){.socket = ends[k], .count = count / connections, .size = size, .at_once = at_once};
    }
    long long start = nanoseconds(CLOCK_MONOTONIC), used = nanoseconds(CLOCK_PROCESS_CPUTIME_ID);
    for (size_t i = 0; i < 2 * connections; i++)
        if (pthread_create(threads + i, NULL, i % 2 ? receiver : sender, sides + i)) return 9;
    for (size_t i = 0; i < 2 * connections; i++) pthread_join(threads[i], NULL);
    long long end = nanoseconds(CLOCK_MONOTONIC);
    printf("%lld %lld\n", end - start, nanoseconds(CLOCK_PROCESS_CPUTIME_ID) - used);
    return 0;
}
