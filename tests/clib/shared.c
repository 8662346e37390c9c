/* Records to a log that others record to: shared LOG VERSION ID COUNT EVERY
 * COUNT outputs "ID/0", "ID/1" and so on, and a rewriting behind each EVERY of them (0: none). Its last line says what it saw of the others. */
#if !defined(_GNU_SOURCE)
#define _GNU_SOURCE /* nanosleep, where C11 hides it */
#endif
#include "nlog.h"

#include <stdio.h>
#include <stdlib.h>
#include <time.h>

static int failed(const char *what, nlog_status status, const nlog_writer *writer) {
  const char *call = nlog_writer_failed_call(writer), *path = nlog_writer_failed_path(writer);
  printf("%s: %s %s %s %d\n", what, nlog_status_name(status), call == NULL ? "-" : call, path == NULL ? "-" : path, nlog_writer_errno(writer));
  return 1;
}

int main(int argc, char **argv) {
  nlog_writer *writer;
  nlog_status status;
  size_t outputs = 0;
  struct timespec pause = {0, 1000000L};
  int i, count, every;
  if (argc != 6) return 2;
  count = atoi(argv[4]);
  every = atoi(argv[5]);
  status = nlog_writer_new(&writer, argv[1], (uint32_t)atoi(argv[2]));
  if (status != NLOG_OK) return 2;
  status = nlog_writer_set_shared(writer, true);
  if (status == NLOG_OK) status = nlog_writer_open(writer);
  if (status != NLOG_OK) return failed("open", status, writer);
  if (nlog_writer_set_shared(writer, false) != NLOG_ALREADY_OPEN) return failed("shared", NLOG_OK, writer);
  for (i = 0; i < count; i++) {
    nlog_entry entry = {0, 0, 0, 0};
    char name[64];
    int len = snprintf(name, sizeof name, "%s/%d", argv[3], i);
    entry.start_ms = i;
    entry.end_ms = i + 1;
    entry.mtime = 1000 + i;
    entry.hash = (uint64_t)i;
    status = nlog_writer_record(writer, name, (size_t)len, &entry);
    if (status != NLOG_OK) return failed("record", status, writer);
    nanosleep(&pause, NULL); /* for the others' turn */
    if (every > 0 && i % every == every - 1) {
      status = nlog_writer_recompact(writer);
      if (status != NLOG_OK) return failed("recompact", status, writer);
    }
  }
  status = nlog_writer_sync(writer);
  if (status != NLOG_OK) return failed("sync", status, writer);
  status = nlog_writer_count(writer, &outputs);
  if (status != NLOG_OK) return failed("count", status, writer);
  status = nlog_writer_close(writer);
  if (status != NLOG_OK) return failed("close", status, writer);
  nlog_writer_free(&writer);
  printf("outputs: %lu\n", (unsigned long)outputs);
  return 0;
}
