/* The commands of nlog that change a log, over the library for C, with the words, messages and statuses of docs/CLI.md: so the trials of the
 * program, with what they know of a log, a disk and a crash, try the library too (tests/clib.py). Also `check`, `show` and `apply`. */
#include "nlog.h"

#include <errno.h>
#include <fcntl.h>
#include <inttypes.h>
#include <stdio.h>
#include <stdlib.h>
#include <string.h>
#include <unistd.h>

#define MOST 400000

typedef struct list {
  char *bytes;
  nlog_name *names;
  int64_t *times;
  size_t count;
} list;

static bool is_verbose = false;
static nlog_writer *writer = NULL;
static char name_of[NLOG_MAX_NAME];

static int end(const char *message) {
  fprintf(stderr, "nlog: %s\n", message);
  return 1;
}

static void reason(const char *file, const char *path, int error) {
  if (is_verbose) fprintf(stderr, "nlog: %s %s: %s (os error %d)\n", file, path, strerror(error), error);
}

/* Says why the command is refused. */
static int refused(nlog_status status, const char *log) {
  const char *path = nlog_writer_failed_path(writer);
  size_t len = strlen(log);
  switch (status) {
    case NLOG_NOT_A_LOG: return end("not a ninja log");
    case NLOG_OTHER_VERSION: return end("log version not supported");
    case NLOG_OUT_OF_MEMORY: return end("out of memory");
    case NLOG_BAD_NAME: return end("bad name");
    default: break;
  }
  end("the folder failed");
  if (path != NULL) reason(strcmp(path, log) == 0 ? "LOG" : strncmp(path, log, len) == 0 ? "scratch" : "folder", path, nlog_writer_errno(writer));
  return 1;
}

/* ---- Lists ---- */

static bool number_of(const char *text, size_t len, int64_t least, int64_t most, int64_t *value) {
  char copy[32], *stop;
  if (len == 0 || len >= sizeof copy || text[0] == '+' || text[0] == ' ') return false;
  memcpy(copy, text, len);
  copy[len] = 0;
  errno = 0;
  *value = strtoll(copy, &stop, 10);
  return *stop == 0 && errno == 0 && *value >= least && *value <= most;
}

/* The bytes of a file, or NULL where a call failed, which is told. */
static char *file_of(const char *what, const char *path, size_t *len) {
  size_t room = 1 << 20;
  char *bytes = (char *)malloc(room);
  int fd = open(path, O_RDONLY | O_CLOEXEC);
  ssize_t got = 1;
  *len = 0;
  while (fd >= 0 && bytes != NULL && got > 0) {
    if (*len == room) bytes = (char *)realloc(bytes, room *= 2);
    if (bytes == NULL) break;
    got = read(fd, bytes + *len, room - *len);
    if (got > 0) *len += (size_t)got;
    if (got < 0 && errno == EINTR) got = 1;
  }
  if (bytes == NULL) {
    end("out of memory");
    return NULL;
  }
  if (fd >= 0 && got == 0) {
    close(fd);
    return bytes;
  }
  end("cannot read");
  reason(what, path, errno);
  free(bytes);
  return NULL;
}

/* Reads a list of names, or of times and names. */
static int read_list(const char *what, const char *path, bool has_times, list *to) {
  size_t len, line = 0;
  char *at, *stop;
  to->bytes = file_of(what, path, &len);
  if (to->bytes == NULL) return 1;
  to->names = (nlog_name *)malloc(MOST * sizeof *to->names);
  to->times = (int64_t *)malloc(MOST * sizeof *to->times);
  if (to->names == NULL || to->times == NULL) return end("out of memory");
  for (at = to->bytes; at < to->bytes + len; at = stop + 1) {
    char *name = at;
    stop = (char *)memchr(at, '\n', (size_t)(to->bytes + len - at));
    if (stop == NULL) stop = to->bytes + len;
    line++;
    if (stop == at) continue;
    if (has_times) {
      char *tab = (char *)memchr(at, '\t', (size_t)(stop - at));
      name = tab == NULL ? stop : tab + 1;
      if (tab == NULL || !number_of(at, (size_t)(tab - at), INT64_MIN, INT64_MAX, &to->times[to->count])) name = stop;
    }
    if (nlog_check_name(name, (size_t)(stop - name)) != NLOG_OK || to->count == MOST) {
      fprintf(stderr, "nlog: bad line %zu\n", line);
      return 1;
    }
    to->names[to->count].bytes = name;
    to->names[to->count++].len = (size_t)(stop - name);
  }
  return 0;
}

/* ---- Changes ---- */

static bool is_in(const list *names, const char *name, size_t len) {
  size_t i;
  for (i = 0; i < names->count; i++)
    if (names->names[i].len == len && memcmp(names->names[i].bytes, name, len) == 0) return true;
  return false;
}

/* Rewrites the open log with the outputs that are named. */
static nlog_status keep(const list *names) {
  size_t place, len;
  nlog_entry entry;
  nlog_status status = NLOG_OK;
  for (place = 0; status == NLOG_OK; place++) {
    status = nlog_writer_at(writer, place, &entry, name_of, sizeof name_of, &len);
    if (status == NLOG_OK && !is_in(names, name_of, len)) status = nlog_writer_mark_dead(writer, name_of, len);
  }
  return status == NLOG_NOT_FOUND ? nlog_writer_recompact(writer) : status;
}

static nlog_status touch(const list *times, size_t *place) {
  nlog_status status = NLOG_OK;
  size_t i;
  for (i = 0; status == NLOG_OK && i < times->count; i++) {
    status = nlog_writer_mark_time(writer, times->names[i].bytes, times->names[i].len, times->times[i]);
  }
  if (status == NLOG_OK) status = nlog_writer_restat(writer, place);
  if (status == NLOG_NEGATIVE_TIME) nlog_writer_clear_marks(writer);
  return status;
}

static nlog_status record(const nlog_entry *entry, const char *name, const char *command) {
  nlog_entry hashed = *entry;
  uint32_t version;
  nlog_status status = nlog_writer_version(writer, &version);
  if (status != NLOG_OK) return status;
  hashed.hash = version == 7 ? nlog_command_hash_v7(command, strlen(command)) : nlog_command_hash(command, strlen(command));
  return nlog_writer_record(writer, name, strlen(name), &hashed);
}

static int change(const char *word, uint32_t version, int count, char **words) {
  list given = {NULL, NULL, NULL, 0};
  nlog_entry entry = {0, 0, 0, 0};
  int64_t start, last;
  nlog_status status, closed;
  size_t place;
  if (strcmp(word, "record") == 0) {
    if (count != 6) return 2;
    if (!number_of(words[1], strlen(words[1]), INT32_MIN, INT32_MAX, &start) || !number_of(words[2], strlen(words[2]), INT32_MIN, INT32_MAX, &last) ||
        !number_of(words[3], strlen(words[3]), INT64_MIN, INT64_MAX, &entry.mtime))
      return end("bad number");
    entry.start_ms = (int32_t)start;
    entry.end_ms = (int32_t)last;
  } else if (strcmp(word, "repair") == 0) {
    if (count != 1) return 2;
    version = 0;
  } else if (count != 2 || read_list(strcmp(word, "restat") == 0 ? "TIMES" : "KEEP", words[1], strcmp(word, "restat") == 0, &given) != 0) {
    return count == 2 ? 1 : 2;
  }
  status = nlog_writer_new(&writer, words[0], version);
  if (status == NLOG_OK) status = nlog_writer_open(writer);
  if (status == NLOG_OK) {
    if (strcmp(word, "record") == 0) status = record(&entry, words[4], words[5]);
    if (strcmp(word, "repair") == 0) status = nlog_writer_recompact(writer);
    if (strcmp(word, "recompact") == 0) status = keep(&given);
    if (strcmp(word, "restat") == 0) status = touch(&given, &place);
    if (status == NLOG_OK) status = nlog_writer_sync(writer);
    closed = nlog_writer_close(writer);
    if (status == NLOG_OK) status = closed;
  }
  if (status == NLOG_NEGATIVE_TIME) {
    fprintf(stderr, "nlog: negative time %zu\n", place);
    return 1;
  }
  return status == NLOG_OK ? 0 : refused(status, words[0]);
}

/* ---- Reads ---- */

static void show(const nlog_entry *entry, const char *name, size_t len) {
  printf("%" PRId32 "\t%" PRId32 "\t%" PRId64 "\t", entry->start_ms, entry->end_ms, entry->mtime);
  fwrite(name, 1, len, stdout);
  printf("\t%" PRIx64 "\n", entry->hash);
}

static int look(const char *word, const char *path) {
  nlog log = NLOG_INIT;
  nlog_facts facts;
  nlog_entry entry;
  size_t place, len;
  int error = 0;
  nlog_status status = nlog_load_file(&log, path, &error);
  if (status == NLOG_FAULT && error == ENOENT) status = nlog_load(&log, NULL, 0);
  if (status == NLOG_FAULT) return end("cannot read");
  if (status != NLOG_OK) return refused(status, path);
  nlog_get_facts(&log, &facts);
  if (facts.version > 5) return end("log version not supported");
  if (strcmp(word, "check") == 0) {
    printf("version %" PRIu32 "\ntotal %" PRIu64 "\nunique %" PRIu64 "\nskipped %" PRIu64 "\ntorn %" PRIu64 "\ndue %s\n", facts.version, facts.total,
           facts.unique, facts.skipped, facts.torn, facts.is_due ? "yes" : "no");
  } else {
    for (place = 0; nlog_at(&log, place, &entry, name_of, sizeof name_of, &len) == NLOG_OK; place++) show(&entry, name_of, len);
  }
  nlog_free(&log);
  return fflush(stdout) == 0 ? 0 : end("cannot write");
}

/* ---- apply ---- */

static void answer(nlog_status status, size_t place) {
  switch (status) {
    case NLOG_OK: printf("ok\n"); break;
    case NLOG_NOT_FOUND: printf("none\n"); break;
    case NLOG_NOT_OPEN: printf("S1 NotOpen\n"); break;
    case NLOG_ALREADY_OPEN: printf("S2 AlreadyOpen\n"); break;
    case NLOG_BROKEN: printf("S3 Broken\n"); break;
    case NLOG_NEGATIVE_TIME: printf("S4 NegativeTime %zu\n", place); break;
    case NLOG_NOT_A_LOG: printf("S5 NotALog\n"); break;
    case NLOG_OTHER_VERSION: printf("S6 OtherVersion\n"); break;
    case NLOG_OUT_OF_MEMORY: printf("S7 OutOfMemory\n"); break;
    default: printf("S8 Fault\n"); break;
  }
}

/* Tells the entries of the closed log that can't be trusted. Where the log is missing there are none. */
static void tell_distrusted(const char *log) {
  nlog all = NLOG_INIT, doubted = NLOG_INIT;
  nlog_entry entry;
  uint32_t version;
  size_t place, len;
  int error = 0;
  nlog_status status = nlog_writer_version(writer, &version);
  if (status != NLOG_NOT_OPEN) {
    answer(status == NLOG_OK ? NLOG_ALREADY_OPEN : status, 0);
    return;
  }
  status = nlog_load_file_distrusted(&all, &doubted, log, &error);
  if (status == NLOG_FAULT && error == ENOENT) status = NLOG_OK;
  if (status != NLOG_OK) {
    answer(status, 0);
    return;
  }
  for (place = 0; nlog_at(&doubted, place, &entry, name_of, sizeof name_of, &len) == NLOG_OK; place++) show(&entry, name_of, len);
  printf("end\n");
  nlog_free(&all);
  nlog_free(&doubted);
}

static void apply_line(const char *log, char **fields, size_t count) {
  static nlog_name names[1000];
  static int64_t times[1000];
  list given = {NULL, names, times, 0};
  nlog_entry entry = {0, 0, 0, 0};
  nlog_status status = NLOG_BAD_NAME;
  size_t place = 0, len, i;
  bool is_restat = strcmp(fields[0], "restat") == 0;
  if (strcmp(fields[0], "distrusted") == 0) {
    tell_distrusted(log);
    return;
  }
  for (i = 1; i < count && given.count < 1000; i++) {
    if (is_restat) times[given.count] = strtoll(fields[i++], NULL, 10);
    if (i == count) break;
    names[given.count].bytes = fields[i];
    names[given.count++].len = strlen(fields[i]);
  }
  if (strcmp(fields[0], "open") == 0) status = nlog_writer_open(writer);
  if (strcmp(fields[0], "sync") == 0) status = nlog_writer_sync(writer);
  if (strcmp(fields[0], "recompact") == 0) status = given.count == 0 ? nlog_writer_recompact(writer) : keep(&given);
  if (is_restat) status = touch(&given, &place);
  if (strcmp(fields[0], "record") == 0 && count == 6) {
    entry.start_ms = (int32_t)strtol(fields[1], NULL, 10);
    entry.end_ms = (int32_t)strtol(fields[2], NULL, 10);
    entry.mtime = strtoll(fields[3], NULL, 10);
    entry.hash = strtoull(fields[5], NULL, 16);
    status = nlog_writer_record(writer, fields[4], strlen(fields[4]), &entry);
  }
  if (strcmp(fields[0], "begin") == 0 && count > 3)
    status = nlog_writer_begin(writer, names + 2, given.count - 2, (int32_t)strtol(fields[1], NULL, 10), strtoull(fields[2], NULL, 16));
  if (strcmp(fields[0], "get") == 0 && count == 2) {
    status = nlog_writer_find(writer, fields[1], strlen(fields[1]), &entry);
    if (status == NLOG_OK) {
      show(&entry, fields[1], strlen(fields[1]));
      return;
    }
  }
  if (strcmp(fields[0], "table") == 0) {
    status = nlog_writer_count(writer, &i);
    if (status == NLOG_OK) {
      for (; nlog_writer_at(writer, place, &entry, name_of, sizeof name_of, &len) == NLOG_OK; place++) show(&entry, name_of, len);
      printf("end\n");
      return;
    }
  }
  if (strcmp(fields[0], "stop") == 0) {
    status = nlog_writer_close(writer);
    if (status == NLOG_BROKEN) status = NLOG_OK;
  }
  answer(status, place);
}

static int apply(const char *log, const char *script) {
  static char line[600000], in[65536], out[65536], *fields[1000];
  FILE *from = script == NULL ? stdin : fopen(script, "r");
  nlog_status status = nlog_writer_new(&writer, log, 0);
  if (status != NLOG_OK) return refused(status, log);
  if (from == NULL || setvbuf(from, in, _IOFBF, sizeof in) != 0 || setvbuf(stdout, out, _IOFBF, sizeof out) != 0) return end("cannot read");
  while (fgets(line, sizeof line, from) != NULL) {
    size_t count = 0;
    char *at = line;
    line[strcspn(line, "\n")] = 0;
    while (at != NULL && count < 1000) {
      fields[count++] = at;
      at = strchr(at, '\t');
      if (at != NULL) *at++ = 0;
    }
    apply_line(log, fields, count);
    if (fflush(stdout) != 0) return end("cannot write");
  }
  if (ferror(from)) return end("cannot read");
  nlog_writer_free(&writer);
  return 0;
}

int main(int count, char **words) {
  char *values[16];
  const char *word = count > 1 ? words[1] : "";
  uint32_t version = 5;
  int i, given = 0;
  bool is_past = false;
  for (i = 2; i < count && given < 16; i++) {
    if (!is_past && strcmp(words[i], "--") == 0) is_past = true;
    else if (!is_past && strcmp(words[i], "--verbose") == 0) is_verbose = true;
    else if (!is_past && strcmp(words[i], "--missing-ok") == 0) continue; /* it makes each log */
    else if (!is_past && strcmp(words[i], "--log-version") == 0 && i + 1 < count) version = (uint32_t)atoi(words[++i]); /* of "auto": 0 */
    else values[given++] = words[i];
  }
  if ((strcmp(word, "check") == 0 || strcmp(word, "show") == 0) && given == 1) return look(word, values[0]);
  if (strcmp(word, "apply") == 0 && given >= 1 && given <= 2) return apply(values[0], given == 2 ? values[1] : NULL);
  if ((strcmp(word, "record") == 0 || strcmp(word, "recompact") == 0 || strcmp(word, "restat") == 0 || strcmp(word, "repair") == 0) && given >= 1)
    return change(word, version, given, values);
  return 2;
}
