/* Gives many names to a call that takes or keeps them: names KEY0 KEY1 CALL LOG NAMES COUNT
 * NAMES is a file of so many names of 16 bytes. The random numbers of this process are the two keys. It prints how long the call took, in
 * microseconds of the processor, how many outputs the log then has, and how many lines that are entries. */
#if !defined(_GNU_SOURCE)
#define _GNU_SOURCE
#endif
#include "nlog.h"

#include <stdio.h>
#include <stdlib.h>
#include <string.h>
#include <sys/types.h>
#include <time.h>

enum { LEN = 16 };
static uint64_t keys[2];

/* The library asks for each of its two numbers once. */
ssize_t getrandom(void *to, size_t len, unsigned int flags);
ssize_t getrandom(void *to, size_t len, unsigned int flags) {
  static size_t asked = 0;
  (void)flags;
  if (len != sizeof keys[0] || asked == 2) abort();
  memcpy(to, &keys[asked++], len);
  return (ssize_t)len;
}

static int64_t microseconds(void) {
  struct timespec now;
  clock_gettime(CLOCK_PROCESS_CPUTIME_ID, &now);
  return (int64_t)now.tv_sec * 1000000 + now.tv_nsec / 1000;
}

static char *bytes;
static nlog_name *names;
static nlog_planned *planned;
static size_t count;

static nlog_status open_log(nlog_writer **writer, const char *path, bool is_shared) {
  nlog_status status = nlog_writer_new(writer, path, 0);
  if (status == NLOG_OK) status = nlog_writer_set_shared(*writer, is_shared);
  return status == NLOG_OK ? nlog_writer_open(*writer) : status;
}

/* Loads the entries of distrusted outputs alone: of a file, the library would load all of them too. */
static nlog_status load_distrusted(nlog *log, const char *path) {
  FILE *file = fopen(path, "rb");
  nlog_status status = NLOG_FAULT;
  char *text = NULL;
  long len;
  if (file != NULL && fseek(file, 0, SEEK_END) == 0 && (len = ftell(file)) > 0) {
    text = (char *)malloc((size_t)len);
    rewind(file);
    if (text != NULL && fread(text, 1, (size_t)len, file) == (size_t)len) status = nlog_load_distrusted(log, text, (size_t)len);
  }
  if (file != NULL) fclose(file);
  free(text);
  return status;
}

/* A writer of its own records all the names, and closes. */
static nlog_status record_elsewhere(const char *path, const nlog_entry *entry) {
  nlog_writer *other;
  nlog_status status = open_log(&other, path, true);
  if (status == NLOG_OK) status = nlog_writer_record_edge(other, names, count, entry);
  if (status == NLOG_OK) status = nlog_writer_close(other);
  nlog_writer_free(&other);
  return status;
}

static nlog_status mark_all(nlog_writer *writer, bool is_dead) {
  nlog_status status = NLOG_OK;
  size_t i;
  for (i = 0; i < count && status == NLOG_OK; i++) {
    status = is_dead ? nlog_writer_mark_dead(writer, names[i].bytes, LEN) : nlog_writer_mark_time(writer, names[i].bytes, LEN, 77);
  }
  return status;
}

/* What comes before a call, which isn't timed. */
static nlog_status prepare(const char *call, const char *path, nlog_writer **writer, const nlog_entry *entry) {
  const bool is_shared = strcmp(call, "loose") == 0 || strcmp(call, "join") == 0;
  nlog_status status = open_log(writer, path, is_shared);
  size_t withdrawn;
  if (status != NLOG_OK) return status;
  if (strcmp(call, "cleared") == 0) status = nlog_writer_clear_marks(*writer);
  if (strcmp(call, "rewritten") == 0) status = nlog_writer_recompact(*writer);
  if (strcmp(call, "withdraw") == 0 || strcmp(call, "loose") == 0) status = nlog_writer_begin_plan(*writer, planned, count, 7);
  if (strcmp(call, "recompact") == 0 || strcmp(call, "restat") == 0) status = mark_all(*writer, strcmp(call, "recompact") == 0);
  if (strcmp(call, "join") == 0) status = record_elsewhere(path, entry);
  if (strcmp(call, "replan") == 0) {
    status = nlog_writer_begin_plan(*writer, planned, count, 7);
    if (status == NLOG_OK) status = nlog_writer_withdraw(*writer, planned, count, &withdrawn);
    if (status == NLOG_OK) status = nlog_writer_recompact(*writer);
  }
  return status;
}

static nlog_status make_call(const char *call, const char *path, nlog_writer *writer, const nlog_entry *entry) {
  nlog log = NLOG_INIT;
  size_t place = 0, withdrawn = 0, i;
  int error;
  nlog_status status = NLOG_STATUS_MAX;
  if (strcmp(call, "load") == 0) status = nlog_load_file(&log, path, &error);
  if (strcmp(call, "distrusted") == 0) status = load_distrusted(&log, path);
  if (strcmp(call, "edge") == 0 || strcmp(call, "loose") == 0) status = nlog_writer_record_edge(writer, names, count, entry);
  if (strcmp(call, "begin") == 0) status = nlog_writer_begin(writer, names, count, 7, 8);
  if (strcmp(call, "plan") == 0 || strcmp(call, "replan") == 0) status = nlog_writer_begin_plan(writer, planned, count, 7);
  if (strcmp(call, "withdraw") == 0) status = nlog_writer_withdraw(writer, planned, count, &withdrawn);
  if (strcmp(call, "dead") == 0 || strcmp(call, "cleared") == 0 || strcmp(call, "rewritten") == 0) status = mark_all(writer, true);
  if (strcmp(call, "recompact") == 0) status = nlog_writer_recompact(writer);
  if (strcmp(call, "restat") == 0) status = nlog_writer_restat(writer, &place);
  if (strcmp(call, "join") == 0) status = nlog_writer_sync(writer);
  if (strcmp(call, "find") == 0) {
    nlog_entry found;
    for (i = 0, status = NLOG_OK; i < count && status == NLOG_OK; i++) status = nlog_writer_find(writer, names[i].bytes, LEN, &found);
  }
  nlog_free(&log);
  return status;
}

int main(int argc, char **argv) {
  nlog_writer *writer = NULL;
  nlog log = NLOG_INIT;
  nlog_entry entry = {1, 2, 3, 4};
  nlog_facts facts;
  nlog_status status = NLOG_OK;
  const char *call = argc > 3 ? argv[3] : "";
  const bool is_load = strcmp(call, "load") == 0 || strcmp(call, "distrusted") == 0;
  int64_t begun, took;
  size_t i;
  int error = 0;
  FILE *file;
  if (argc != 7) return 2;
  for (i = 0; i < 2; i++) keys[i] = strtoull(argv[1 + i], NULL, 10);
  count = (size_t)atol(argv[6]);
  bytes = (char *)malloc(count * LEN);
  names = (nlog_name *)calloc(count, sizeof *names);
  planned = (nlog_planned *)calloc(count, sizeof *planned);
  file = fopen(argv[5], "rb");
  if (bytes == NULL || names == NULL || planned == NULL || file == NULL || fread(bytes, LEN, count, file) != count) return 2;
  fclose(file);
  for (i = 0; i < count; i++) {
    names[i].bytes = bytes + i * LEN;
    names[i].len = LEN;
    planned[i].name = names[i];
    planned[i].hash = 9;
    planned[i].anew = true;
  }
  if (!is_load) status = prepare(call, argv[4], &writer, &entry);
  begun = microseconds();
  if (status == NLOG_OK) status = make_call(call, argv[4], writer, &entry);
  took = microseconds() - begun;
  if (status == NLOG_OK && writer != NULL) status = nlog_writer_close(writer);
  nlog_writer_free(&writer);
  if (status == NLOG_OK) status = nlog_load_file(&log, argv[4], &error);
  if (status == NLOG_OK) status = nlog_get_facts(&log, &facts);
  nlog_free(&log);
  if (status != NLOG_OK) printf("%s\n", nlog_status_name(status));
  else printf("%ld %lu %lu\n", (long)took, (unsigned long)facts.unique, (unsigned long)facts.total);
  free(bytes);
  free(names);
  free(planned);
  return status != NLOG_OK;
}
