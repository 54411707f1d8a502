/* Preloaded into the program, it refuses one call and passes all others on: the allocation whose number stands in REFUSE, counted
   from 1 over malloc, calloc, realloc, posix_memalign and aligned_alloc of all threads; or of the calls of the system that CALL
   names the one whose number stands in AT, with the error number ERROR. Where COUNT names a file, it writes there at the end how
   many allocations were asked for, how many calls of that name were made, and how many descriptors and threads the program had
   then. */
#define _GNU_SOURCE
#include <dlfcn.h>
#include <errno.h>
#include <fcntl.h>
#include <pthread.h>
#include <stddef.h>
#include <stdio.h>
#include <stdlib.h>
#include <string.h>
#include <sys/epoll.h>
#include <sys/socket.h>
#include <sys/syscall.h>
#include <unistd.h>

enum { MOST_DESCRIPTORS = 4096 };

static unsigned long made, refused_at;
static unsigned long called, failed_at;
static const char *failing = "";
static int error;
static void *(*next_malloc)(size_t);
static void *(*next_calloc)(size_t, size_t);
static void *(*next_realloc)(void *, size_t);
static int (*next_memalign)(void **, size_t, size_t);
static void *(*next_aligned)(size_t, size_t);

/* What dlsym itself asks for, before the next calloc is known. */
static char early[4096];
static size_t early_used;

static void know(void) {
  static int known;
  if (known) return;
  known = 1;
  next_calloc = dlsym(RTLD_NEXT, "calloc");
  next_malloc = dlsym(RTLD_NEXT, "malloc");
  next_realloc = dlsym(RTLD_NEXT, "realloc");
  next_memalign = dlsym(RTLD_NEXT, "posix_memalign");
  next_aligned = dlsym(RTLD_NEXT, "aligned_alloc");
  const char *word = getenv("REFUSE");
  refused_at = word ? strtoul(word, NULL, 10) : 0;
  word = getenv("CALL"), failing = word ? word : "";
  word = getenv("AT"), failed_at = word ? strtoul(word, NULL, 10) : 0;
  word = getenv("ERROR"), error = word ? atoi(word) : EIO;
}

static int refuse(void) {
  know();
  if (__atomic_add_fetch(&made, 1, __ATOMIC_RELAXED) != refused_at) return 0;
  errno = ENOMEM;
  return 1;
}

void *malloc(size_t size) { return refuse() ? NULL : next_malloc(size); }

void *calloc(size_t count, size_t size) {
  if (!next_calloc) {
    size_t whole = (count * size + 15) & ~(size_t)15;
    if (early_used + whole > sizeof early) return NULL;
    early_used += whole;
    return early + early_used - whole;
  }
  return refuse() ? NULL : next_calloc(count, size);
}

void *realloc(void *block, size_t size) { return refuse() ? NULL : next_realloc(block, size); }

int posix_memalign(void **block, size_t alignment, size_t size) {
  return refuse() ? ENOMEM : next_memalign(block, alignment, size);
}

void *aligned_alloc(size_t alignment, size_t size) { return refuse() ? NULL : next_aligned(alignment, size); }

/* Whether this call is the one that fails. */
static int fails(const char *name) {
  know();
  if (strcmp(name, failing)) return 0;
  if (__atomic_add_fetch(&called, 1, __ATOMIC_RELAXED) != failed_at) return 0;
  errno = error;
  return 1;
}

/* The same call, passed on unless it fails. */
#define PASS_ON(result, name, parameters, words)                          \
  result name parameters {                                                \
    static result(*next) parameters;                                      \
    if (fails(#name)) return -1;                                          \
    if (!next) next = (result(*) parameters)dlsym(RTLD_NEXT, #name);      \
    return next words;                                                    \
  }

PASS_ON(int, socket, (int domain, int type, int protocol), (domain, type, protocol))
PASS_ON(int, bind, (int fd, const struct sockaddr *at, socklen_t length), (fd, at, length))
PASS_ON(int, listen, (int fd, int waiting), (fd, waiting))
PASS_ON(int, connect, (int fd, const struct sockaddr *to, socklen_t length), (fd, to, length))
PASS_ON(int, accept, (int fd, struct sockaddr *from, socklen_t *length), (fd, from, length))
PASS_ON(int, accept4, (int fd, struct sockaddr *from, socklen_t *length, int flags), (fd, from, length, flags))
PASS_ON(ssize_t, recv, (int fd, void *into, size_t size, int flags), (fd, into, size, flags))
PASS_ON(ssize_t, send, (int fd, const void *bytes, size_t size, int flags), (fd, bytes, size, flags))
PASS_ON(int, epoll_create1, (int flags), (flags))
PASS_ON(int, epoll_ctl, (int set, int what, int fd, struct epoll_event *event), (set, what, fd, event))
PASS_ON(int, epoll_wait, (int set, struct epoll_event *events, int most, int wait), (set, events, most, wait))
PASS_ON(int, setsockopt, (int fd, int level, int name, const void *value, socklen_t length), (fd, level, name, value, length))
PASS_ON(int, getsockname, (int fd, struct sockaddr *at, socklen_t *length), (fd, at, length))
PASS_ON(int, getpeername, (int fd, struct sockaddr *at, socklen_t *length), (fd, at, length))
PASS_ON(int, getsockopt, (int fd, int level, int name, void *value, socklen_t *length), (fd, level, name, value, length))

int pthread_create(pthread_t *thread, const pthread_attr_t *how, void *(*begin)(void *), void *with) {
  static int (*next)(pthread_t *, const pthread_attr_t *, void *(*)(void *), void *);
  if (fails("pthread_create")) return error;
  if (!next) next = (int (*)(pthread_t *, const pthread_attr_t *, void *(*)(void *), void *))dlsym(RTLD_NEXT, "pthread_create");
  return next(thread, how, begin, with);
}

static int threads(void) {
  char entries[8192];
  int count = 0, folder = open("/proc/self/task", O_RDONLY | O_DIRECTORY);
  if (folder < 0) return -1;
  for (long n; (n = syscall(SYS_getdents64, folder, entries, sizeof entries)) > 0;)
    for (long at = 0; at < n; at += *(unsigned short *)(entries + at + 16))
      if (entries[at + 19] != '.') count++;
  close(folder);
  return count;
}

__attribute__((destructor)) static void tell(void) {
  const char *name = getenv("COUNT");
  if (!name) return;
  int open_ones = 0;
  for (int fd = 0; fd < MOST_DESCRIPTORS; fd++) open_ones += fcntl(fd, F_GETFD) >= 0;
  char text[96];
  int length = snprintf(text, sizeof text, "%lu %lu %d %d\n", made, called, open_ones, threads());
  int file = open(name, O_WRONLY | O_CREAT | O_TRUNC, 0600);
  if (file >= 0 && write(file, text, (size_t)length) == length) close(file);
}

/* The program ends by this call, which runs no destructor. */
void _exit(int status) {
  tell();
  syscall(SYS_exit_group, status);
  __builtin_unreachable();
}
