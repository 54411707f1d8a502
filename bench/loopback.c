/* Passes bytes over a loopback socket in pieces of one size, as `loopback.rt.txt` does: writes a piece and reads it,
   again and again, with non-blocking calls. Prints how many nanoseconds that took. With -DLOG each end also keeps all
   bytes that it wrote or read, in memory that doubles, as the ends of m2_mio do. */
#include <arpa/inet.h>
#include <errno.h>
#include <fcntl.h>
#include <netinet/in.h>
#include <netinet/tcp.h>
#include <stdio.h>
#include <stdlib.h>
#include <string.h>
#include <sys/socket.h>
#include <time.h>
#include <unistd.h>

static int opened(int stream) {
    int on = 1;
    if (stream < 0 || fcntl(stream, F_SETFL, O_NONBLOCK) != 0) exit(1);
    if (setsockopt(stream, IPPROTO_TCP, TCP_NODELAY, &on, sizeof on) != 0) exit(1);
    return stream;
}

/* How many bytes a call moved; 0 where it would have to wait. */
static size_t moved(ssize_t n) {
    if (n > 0) return (size_t)n;
    if (n < 0 && errno == EAGAIN) return 0;
    exit(1);
}

typedef struct {
    char *bytes;
    size_t len, room;
} Log;

static void note(Log *log, const char *bytes, size_t count) {
#ifdef LOG
    if (log->room - log->len < count) {
        log->room = 2 * log->room > log->len + count ? 2 * log->room : log->len + count;
        if (!(log->bytes = realloc(log->bytes, log->room))) exit(1);
    }
    memcpy(log->bytes + log->len, bytes, count);
    log->len += count;
#else
    (void)log, (void)bytes, (void)count;
#endif
}

int main(int argc, char **argv) {
    if (argc != 4) return 1;
    unsigned short port = (unsigned short)atoi(argv[1]);
    size_t size = (size_t)atol(argv[2]), count = (size_t)atol(argv[3]);
    struct sockaddr_in at = {.sin_family = AF_INET, .sin_port = htons(port), .sin_addr = {htonl(INADDR_LOOPBACK)}};
    int on = 1, listener = socket(AF_INET, SOCK_STREAM, 0), from = socket(AF_INET, SOCK_STREAM, 0);
    if (setsockopt(listener, SOL_SOCKET, SO_REUSEADDR, &on, sizeof on) != 0) return 1;
    if (bind(listener, (struct sockaddr *)&at, sizeof at) != 0 || listen(listener, 16) != 0) return 1;
    if (connect(from, (struct sockaddr *)&at, sizeof at) != 0) return 1;
    int to = opened(accept(listener, NULL, NULL));
    opened(from);
    char *piece = malloc(size), *into = malloc(size);
    for (size_t i = 0; i < size; i++) piece[i] = (char)7, into[i] = 0;
    Log wrote = {0}, read = {0};
    struct timespec start, end;
    clock_gettime(CLOCK_MONOTONIC, &start);
    for (size_t i = 0; i < count; i++) {
        size_t put = 0, got = 0;
        while (got < size) {
            if (put < size) {
                size_t n = moved(send(from, piece + put, size - put, MSG_NOSIGNAL));
                note(&wrote, piece + put, n);
                put += n;
            }
            size_t n = moved(recv(to, into, size, 0));
            note(&read, into, n);
            got += n;
        }
    }
    clock_gettime(CLOCK_MONOTONIC, &end);
    printf("%lld\n", (end.tv_sec - start.tv_sec) * 1000000000LL + end.tv_nsec - start.tv_nsec);
    return 0;
}
