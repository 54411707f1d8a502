/* What two records do with messages of one size, in plain C and without a session: frames are written, 64 at a time, and
   read again with the same checksums, eight bytes a step by eight tables. With -DLOG all that was written and read is kept
   besides, as two ends keep it, and each message where it is planned and where it is dispatched. Its words: how many
   messages, and how many bytes of data each has. Prints how many nanoseconds that took. */
#include "message_frames.h"
#include <time.h>

enum { BATCH = 64 };

int main(int argc, char **argv) {
    if (argc != 3) return 2;
    size_t count = strtoull(argv[1], NULL, 10), size = strtoull(argv[2], NULL, 10);
    make_tables();
    uint8_t *bytes = malloc(size + 1);
    memset(bytes, 0x61, size);
    struct buffer out = {0}, in = {0};
#ifdef LOG
    struct buffer put = {0}, got = {0}, planned = {0}, dispatched = {0};
#endif
    struct message queue[BATCH];
    size_t passed = 0;
    struct timespec start, end;
    clock_gettime(CLOCK_MONOTONIC, &start);
    for (size_t next = 0; next < count;) {
        size_t batch = count - next < BATCH ? count - next : BATCH;
        for (size_t i = 0; i < batch; i++, next++) {
            queue[i] = (struct message){next + 1, copy_of(bytes, size), size};
#ifdef LOG
            struct message plan = {0, copy_of(bytes, size), size};
            append(&planned, &plan, sizeof plan);
#endif
            size_t before = out.len;
            write_frame(&out, queue[i].seq, queue[i].data, size);
#ifdef LOG
            append(&put, out.bytes + before, out.len - before);
#else
            (void)before;
#endif
        }
        /* the bytes come over, and are read in pieces */
        for (size_t at = 0, place = 0; at < out.len;) {
            size_t n = out.len - at < PIECE ? out.len - at : PIECE;
            append(&in, out.bytes + at, n);
#ifdef LOG
            append(&got, out.bytes + at, n);
#endif
            at += n;
            struct message message;
            for (size_t whole; (whole = read_frame(in.bytes + place, in.len - place, &message)) > 0; place += whole) {
                if (message.seq != passed + 1) exit(11);
                passed++;
#ifdef LOG
                append(&dispatched, &message, sizeof message);
#else
                free(message.data);
#endif
            }
            memmove(in.bytes, in.bytes + place, in.len - place);
            in.len -= place, place = 0;
        }
        out.len = 0;
        for (size_t i = 0; i < batch; i++) free(queue[i].data);
    }
    clock_gettime(CLOCK_MONOTONIC, &end);
    if (passed != count) return 1;
    printf("%lld\n", (long long)(end.tv_sec - start.tv_sec) * 1000000000 + (end.tv_nsec - start.tv_nsec));
    return 0;
}
