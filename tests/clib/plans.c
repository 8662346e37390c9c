/* Plans, records, withdraws and rewrites, beside others who do: plans LOG ID ROUNDS EVERY
 * Its names are "ID/0" and so on, and none of another's. Behind each call it reads the file as a stranger does, and says what is wrong: a name
 * that is planned has an entry of before, a name that was withdrawn has another than it had, or a line is no entry. A rewriting behind each EVERY
 * rounds (0: none). It prints a line before each change of what may stand, for who kills it. The last line counts the records that were lost.
 * EVERY is "torn" where another leaves halves of lines: lines may be damaged then, and records lost. ID is "size" for one plan of so many names. */
#if !defined(_GNU_SOURCE)
#define _GNU_SOURCE
#endif
#include "nlog.h"

#include <inttypes.h>
#include <stdio.h>
#include <stdlib.h>
#include <string.h>
#include <sys/resource.h>
#include <time.h>

enum { NAMES = 24 };
/* What a name may have: what was recorded last, or an intent of the plan. */
static char texts[NAMES][64];
static nlog_entry had[NAMES];
static nlog_planned planned[NAMES];
static int wrong = 0;
static bool is_torn;
static const char *path;

static int failed(const char *what, nlog_status status, const nlog_writer *writer) {
  const char *call = nlog_writer_failed_call(writer);
  printf("failed: %s: %s %s %d\n", what, nlog_status_name(status), call == NULL ? "-" : call, nlog_writer_errno(writer));
  return 1;
}

static bool is_same(const nlog_entry *one, const nlog_entry *two) {
  return one->start_ms == two->start_ms && one->end_ms == two->end_ms && one->mtime == two->mtime && one->hash == two->hash;
}

static void say_wrong(const char *what, int round, int place, const nlog_entry *entry) {
  wrong = 1;
  printf("wrong: %s, round %d, %s: %d %d %" PRId64 " %" PRIx64 "\n", what, round, texts[place], entry->start_ms, entry->end_ms, entry->mtime, entry->hash);
}

/* What the file has of the names, as one reads it who has no part in it. A line may be half there as it is read: what is torn is passed over. */
static bool look(nlog_entry *entries, bool *are) {
  nlog log = NLOG_INIT;
  nlog_facts facts;
  int error = 0, i;
  nlog_status status = nlog_load_file(&log, path, &error);
  if (status != NLOG_OK || nlog_get_facts(&log, &facts) != NLOG_OK) {
    printf("wrong: %s %d\n", nlog_status_name(status), error);
    wrong = 1;
    return false;
  }
  if (facts.skipped > 0 && !is_torn) {
    wrong = 1;
    printf("wrong: %" PRIu64 " lines are no entries\n", facts.skipped);
  }
  for (i = 0; i < NAMES; i++) are[i] = nlog_find(&log, texts[i], strlen(texts[i]), &entries[i]) == NLOG_OK;
  nlog_free(&log);
  return true;
}

/* What each name is now: of the plan, done with this entry (in `had`), or done in a line that a rewriting may lose. */
typedef enum kind { PLANNED, DONE, LOOSE } kind;

static void compare(const char *what, int round, const kind *kinds, const nlog_entry *before, const nlog_entry *intents, int *lost) {
  nlog_entry entries[NAMES];
  bool are[NAMES];
  int i;
  if (!look(entries, are)) return;
  for (i = 0; i < NAMES; i++) {
    const bool is_intent = are[i] && is_same(&entries[i], &intents[i]);
    if (are[i] && is_same(&entries[i], &before[i]) && kinds[i] != DONE) say_wrong(what, round, i, &entries[i]);
    if (kinds[i] == PLANNED && are[i] && !is_intent) say_wrong("planned", round, i, &entries[i]);
    if (kinds[i] == DONE && !(are[i] && (is_same(&entries[i], &had[i]) || (is_torn && is_intent)))) say_wrong(what, round, i, &entries[i]);
    if (kinds[i] == LOOSE && is_intent && lost != NULL) ++*lost;
    if (kinds[i] == LOOSE && !is_intent && !(are[i] && is_same(&entries[i], &had[i]))) say_wrong("loose", round, i, &entries[i]);
  }
}

static double now(void) {
  struct timespec time;
  clock_gettime(CLOCK_MONOTONIC, &time);
  return (double)time.tv_sec * 1000 + (double)time.tv_nsec / 1e6;
}

static long peak(void) {
  struct rusage usage;
  return getrusage(RUSAGE_SELF, &usage) == 0 ? usage.ru_maxrss : 0;
}

/* One plan of so many names, each of which has an entry, and its withdrawal. */
static int plan_many(size_t count) {
  enum { ROOM = 56 };
  char *names = (char *)malloc(count * ROOM);
  nlog_planned *all = (nlog_planned *)calloc(count, sizeof *all);
  nlog_entry entry = {1, 2, 3, 4}, found;
  nlog_writer *writer;
  nlog log = NLOG_INIT;
  size_t i, withdrawn;
  double begun, planned_in, withdrawn_in;
  long before, behind;
  int error;
  nlog_status status = nlog_writer_new(&writer, path, 0);
  if (names == NULL || all == NULL || status != NLOG_OK) return 2;
  status = nlog_writer_set_shared(writer, true);
  if (status == NLOG_OK) status = nlog_writer_open(writer);
  if (status == NLOG_OK) status = nlog_writer_hold(writer);
  for (i = 0; i < count && status == NLOG_OK; i++) {
    all[i].name.bytes = names + i * ROOM;
    all[i].name.len = (size_t)snprintf(names + i * ROOM, ROOM, "obj/src/module%03d/source_file_%d.o", (int)(i % 200), (int)i);
    all[i].hash = i;
    status = nlog_writer_record(writer, all[i].name.bytes, all[i].name.len, &entry);
  }
  if (status == NLOG_OK) status = nlog_writer_release(writer);
  before = peak();
  begun = now();
  if (status == NLOG_OK) status = nlog_writer_begin_plan(writer, all, count, 7);
  planned_in = now() - begun;
  behind = peak();
  if (status != NLOG_OK) return failed("plan", status, writer);
  status = nlog_load_file(&log, path, &error);
  for (i = 0; i < count && status == NLOG_OK; i++) {
    status = nlog_find(&log, all[i].name.bytes, all[i].name.len, &found);
    if (status != NLOG_OK || found.start_ms != 7 || found.end_ms != 7 || found.mtime != 0 || found.hash != ~(uint64_t)i || !all[i].had || all[i].before.hash != 4) {
      printf("wrong: name %d\n", (int)i);
      return 1;
    }
  }
  nlog_free(&log);
  begun = now();
  status = nlog_writer_withdraw(writer, all, count, &withdrawn);
  withdrawn_in = now() - begun;
  if (status != NLOG_OK || withdrawn != count) return failed("withdraw", status, writer);
  printf("%d names, planned in %.0f ms, withdrawn in %.0f ms, %ld KiB before the plan, %ld behind it\n", (int)count, planned_in, withdrawn_in, before, behind);
  nlog_writer_free(&writer);
  free(all);
  free(names);
  return 0;
}

int main(int argc, char **argv) {
  nlog_writer *writer;
  nlog_status status;
  nlog_entry before[NAMES], intents[NAMES];
  kind kinds[NAMES];
  size_t withdrawn, all_withdrawn = 0, wanted = 0;
  int i, round, rounds, every, lost = 0;
  unsigned chance;
  if (argc != 5) return 2;
  path = argv[1];
  rounds = atoi(argv[3]);
  every = atoi(argv[4]);
  is_torn = strcmp(argv[4], "torn") == 0;
  if (strcmp(argv[2], "size") == 0) return plan_many((size_t)rounds);
  chance = (unsigned)(argv[2][0] * 7919 + rounds);
  if (nlog_writer_new(&writer, path, 0) != NLOG_OK) return 2;
  status = nlog_writer_set_shared(writer, true);
  if (status == NLOG_OK) status = nlog_writer_open(writer);
  if (status != NLOG_OK) return failed("open", status, writer);
  for (i = 0; i < NAMES; i++) {
    snprintf(texts[i], sizeof texts[i], "%s/%d", argv[2], i);
    had[i].start_ms = 1;
    had[i].end_ms = 2;
    had[i].mtime = 3;
    had[i].hash = (uint64_t)i + 1;
    status = nlog_writer_record(writer, texts[i], strlen(texts[i]), &had[i]);
    if (status != NLOG_OK) return failed("first", status, writer);
  }
  for (round = 1; round <= rounds && wrong == 0; round++) {
    for (i = 0; i < NAMES; i++) {
      nlog_planned one = {{texts[i], strlen(texts[i])}, (uint64_t)round * 1000 + (uint64_t)i, false, false, false, {0, 0, 0, 0}};
      planned[i] = one;
      kinds[i] = PLANNED;
      before[i] = had[i];
      intents[i].start_ms = intents[i].end_ms = round;
      intents[i].mtime = 0;
      intents[i].hash = ~planned[i].hash;
    }
    status = nlog_writer_begin_plan(writer, planned, NAMES, round);
    if (status != NLOG_OK) return failed("plan", status, writer);
    printf("planned %d\n", round);
    fflush(stdout);
    for (i = 0; i < NAMES; i++) {
      /* A record of the round before may have been lost: then its intent was what stood. */
      if (!planned[i].had) say_wrong("had none", round, i, &planned[i].before);
      before[i] = planned[i].before;
    }
    compare("behind the plan", round, kinds, before, intents, NULL);
    for (i = 0; i < NAMES; i++) {
      const struct timespec pause = {0, 200000L};
      chance = chance * 1103515245u + 12345u;
      if ((chance >> 16) % 3 == 0) continue;
      had[i].start_ms = round;
      had[i].end_ms = round + 1;
      had[i].mtime = 1000 + round;
      had[i].hash = planned[i].hash;
      status = nlog_writer_record(writer, texts[i], strlen(texts[i]), &had[i]);
      if (status != NLOG_OK) return failed("record", status, writer);
      kinds[i] = LOOSE;
      if (i % 8 == 0) compare("behind a record", round, kinds, before, intents, NULL);
      nanosleep(&pause, NULL);
    }
    printf("withdraw %d\n", round);
    fflush(stdout);
    for (i = 0; i < NAMES; i++) {
      if (kinds[i] != PLANNED) continue;
      wanted++;
      status = nlog_writer_withdraw(writer, &planned[i], 1, &withdrawn);
      if (status != NLOG_OK) return failed("withdraw", status, writer);
      all_withdrawn += withdrawn;
      had[i] = before[i];
      if (withdrawn == 0) had[i] = intents[i];
      kinds[i] = DONE;
    }
    compare("behind the withdrawal", round, kinds, before, intents, &lost);
    if (every > 0 && round % every == 0) {
      status = nlog_writer_recompact(writer);
      if (status != NLOG_OK) return failed("recompact", status, writer);
      compare("behind a rewriting", round, kinds, before, intents, NULL);
    }
    /* What stands now is what the next plan finds. */
    for (i = 0; i < NAMES; i++) {
      if (nlog_writer_find(writer, texts[i], strlen(texts[i]), &had[i]) != NLOG_OK) say_wrong("not found", round, i, &had[i]);
    }
  }
  status = nlog_writer_close(writer);
  if (status != NLOG_OK) return failed("close", status, writer);
  nlog_writer_free(&writer);
  printf("lost %d, withdrawn %zu of %zu\n", lost, all_withdrawn, wanted);
  return wrong;
}
