/* The calls that make a log. Each is given the secret under which names are hashed, so that nobody chooses names of one hash: two random numbers,
 * which are taken once in a process. lib/archive.sh gives the proved ones these names. This file is tested (tests/clib.py), and not proved. */
#include "writer.h"

#include <stdatomic.h>
#include <sys/random.h>
#include <time.h>

nlog_status proved_load(nlog *log, uint32_t version, uint64_t key0, uint64_t key1, const void *bytes, size_t len);
nlog_status proved_load_distrusted(nlog *log, uint64_t key0, uint64_t key1, const void *bytes, size_t len);
nlog_status proved_carried_new(nlog *log, uint64_t key0, uint64_t key1);

static _Atomic(uint64_t) keys[2];

/* If two threads come first, one gives the number. A system without random numbers has the time, and where the library lies in memory. */
static uint64_t key(int place) {
  uint64_t known = atomic_load(&keys[place]), made = 0;
  struct timespec now;
  if (known != 0) return known;
  if (getrandom(&made, sizeof made, GRND_NONBLOCK) != (ssize_t)sizeof made || made == 0) {
    clock_gettime(CLOCK_REALTIME, &now);
    made = ((uint64_t)now.tv_nsec << 34 ^ (uint64_t)now.tv_sec ^ (uint64_t)(uintptr_t)&keys[place]) | 1;
  }
  return atomic_compare_exchange_strong(&keys[place], &known, made) ? made : known;
}

nlog_status load_as(nlog *log, uint32_t version, const void *bytes, size_t len) {
  return proved_load(log, version, key(0), key(1), bytes, len);
}

nlog_status nlog_load(nlog *log, const void *bytes, size_t len) {
  return load_as(log, 0, bytes, len);
}

nlog_status nlog_load_distrusted(nlog *log, const void *bytes, size_t len) {
  return proved_load_distrusted(log, key(0), key(1), bytes, len);
}

nlog_status carried_new(nlog *log) {
  return proved_carried_new(log, key(0), key(1));
}
