/* Threads that read one handle and one writer at once: readers LOG TIMES
 * LOG has the outputs out0 to out999, where outN has the times N and N + 1, the mtime 7 * N and the hash N. It says how many answers were wrong.
 * Where TIMES is 0, a thread opens LOG, beside another that blocks SIGUSR1: it says how that ended. */
#include "nlog.h"

#include <errno.h>
#include <pthread.h>
#include <signal.h>
#include <stdio.h>
#include <stdlib.h>
#include <string.h>

enum { THREADS = 4, OUTPUTS = 1000 };

/* Linked with --wrap: what it does in a program with threads isn't specified. */
int __wrap_sigprocmask(int how, const sigset_t *set, sigset_t *before);
int __wrap_sigprocmask(int how, const sigset_t *set, sigset_t *before) {
  (void)how, (void)set, (void)before;
  printf("sigprocmask\n");
  exit(1);
}

static nlog loaded = NLOG_INIT;
static nlog_writer *writer;
static int times;

typedef struct reader {
  pthread_t thread;
  int number;
  long wrong;
} reader;

static int is_right(const nlog_entry *entry, int n) {
  return entry->start_ms == n && entry->end_ms == n + 1 && entry->mtime == 7 * n && entry->hash == (uint64_t)n;
}

static void *read_all(void *passed) {
  reader *self = (reader *)passed;
  int i;
  for (i = 0; i < times; i++) {
    int n = (i * 7 + self->number * 131) % OUTPUTS;
    char name[32], found[32];
    size_t len = (size_t)snprintf(name, sizeof name, "out%d", n), count = 0, found_len = 0;
    nlog_entry entry;
    nlog_facts facts;
    bool is_open = false, is = true;
    uint32_t version = 0;
    memset(&entry, 0, sizeof entry);
    self->wrong += nlog_find(&loaded, name, len, &entry) != NLOG_OK || !is_right(&entry, n);
    memset(&entry, 0, sizeof entry);
    self->wrong += nlog_writer_find(writer, name, len, &entry) != NLOG_OK || !is_right(&entry, n);
    memset(&entry, 0, sizeof entry);
    self->wrong += nlog_at(&loaded, (size_t)n, &entry, found, sizeof found, &found_len) != NLOG_OK || !is_right(&entry, n);
    self->wrong += found_len != len || memcmp(found, name, len) != 0;
    self->wrong += nlog_get_facts(&loaded, &facts) != NLOG_OK || facts.total != OUTPUTS || nlog_writer_errno(writer) != 0;
    self->wrong += nlog_count(&loaded, &count) != NLOG_OK || count != OUTPUTS || nlog_writer_failed_path(writer) != NULL;
    self->wrong += nlog_writer_is_open(writer, &is_open) != NLOG_OK || !is_open || nlog_writer_failed_call(writer) != NULL;
    self->wrong += nlog_writer_rewrote(writer, &is) != NLOG_OK || is || nlog_writer_is_due(writer, &is) != NLOG_OK || is;
    self->wrong += nlog_writer_other_version(writer) != 0;
    if (i % 16 != 0) continue;
    self->wrong += nlog_writer_count(writer, &count) != NLOG_OK || count != OUTPUTS;
    self->wrong += nlog_writer_version(writer, &version) != NLOG_OK || version != 5;
    self->wrong += nlog_writer_at(writer, (size_t)n, &entry, found, sizeof found, &found_len) != NLOG_OK || !is_right(&entry, n);
  }
  return NULL;
}

static void heed_nothing(int number) { (void)number; }

static void *wait_for_lock(void *passed) {
  pthread_sigmask(SIG_UNBLOCK, (const sigset_t *)passed, NULL);
  printf("it waits\n");
  fflush(stdout);
  printf("%s", nlog_status_name(nlog_writer_open(writer)));
  printf(" %s\n", nlog_writer_errno(writer) == EINTR ? "EINTR" : "-");
  return NULL;
}

static int wait_beside_another(const char *log) {
  struct sigaction action;
  sigset_t handled;
  pthread_t thread;
  memset(&action, 0, sizeof action);
  action.sa_handler = heed_nothing;
  sigemptyset(&handled);
  sigaddset(&handled, SIGUSR1);
  if (sigaction(SIGUSR1, &action, NULL) != 0 || pthread_sigmask(SIG_BLOCK, &handled, NULL) != 0) return 1;
  if (nlog_writer_new(&writer, log, 0) != NLOG_OK || pthread_create(&thread, NULL, wait_for_lock, &handled) != 0) return 1;
  pthread_join(thread, NULL);
  nlog_writer_free(&writer);
  return 0;
}

int main(int argc, char **argv) {
  static reader readers[THREADS];
  long wrong = 0;
  int i, error = 0;
  if (argc != 3) return 2;
  times = atoi(argv[2]);
  if (times == 0) return wait_beside_another(argv[1]);
  if (nlog_load_file(&loaded, argv[1], &error) != NLOG_OK) return 1;
  if (nlog_writer_new(&writer, argv[1], 0) != NLOG_OK || nlog_writer_open(writer) != NLOG_OK) return 1;
  for (i = 0; i < THREADS; i++) {
    readers[i].number = i;
    if (pthread_create(&readers[i].thread, NULL, read_all, &readers[i]) != 0) return 1;
  }
  for (i = 0; i < THREADS; i++) {
    pthread_join(readers[i].thread, NULL);
    wrong += readers[i].wrong;
  }
  if (nlog_writer_close(writer) != NLOG_OK) return 1;
  nlog_writer_free(&writer);
  nlog_free(&loaded);
  printf("%ld wrong answers\n", wrong);
  return wrong > 0;
}
