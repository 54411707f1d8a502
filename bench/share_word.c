/* What a throttle's take and give cost without a throttle: a word that each of so many threads raises by 1 and lowers
   by 1, by two atomic additions, or under a mutex. Words: add or mutex, threads, rounds of each. */
#include <pthread.h>
#include <stdatomic.h>
#include <stdio.h>
#include <stdlib.h>
#include <string.h>

static _Atomic unsigned long word;
static unsigned long locked;
static pthread_mutex_t lock = PTHREAD_MUTEX_INITIALIZER;
static unsigned long rounds;

static void *add(void *unused) {
  for (unsigned long i = 0; i < rounds; i++) {
    atomic_fetch_add(&word, 1);
    atomic_fetch_sub(&word, 1);
  }
  return unused;
}

static void *under_mutex(void *unused) {
  for (unsigned long i = 0; i < rounds; i++) {
    pthread_mutex_lock(&lock);
    locked += 1;
    pthread_mutex_unlock(&lock);
    pthread_mutex_lock(&lock);
    locked -= 1;
    pthread_mutex_unlock(&lock);
  }
  return unused;
}

int main(int count, char **words) {
  if (count != 4) return 2;
  pthread_t threads[64];
  int n = atoi(words[2]);
  rounds = strtoul(words[3], 0, 10);
  if (n < 1 || n > 64) return 2;
  void *(*body)(void *) = strcmp(words[1], "add") == 0 ? add : under_mutex;
  for (int i = 1; i < n; i++)
    if (pthread_create(&threads[i], 0, body, 0)) return 2;
  body(0);
  for (int i = 1; i < n; i++) pthread_join(threads[i], 0);
  return word + locked == 0 ? 0 : 1;
}
