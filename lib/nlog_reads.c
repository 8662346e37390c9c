/* The calls that only read: a log in memory, a writer, a file. Tested (tests/clib.py).
 *
 * Each proved call takes the log out of its handle and puts it back, so two at once on one handle
 * would leave one of them without a log. Here each is given a copy of the handle's two words, which
 * is put back there, and the handle itself isn't written: so threads may read one log at once.
 * lib/archive.sh gives the proved ones these names. */
#include "writer.h"

nlog_status proved_get_facts(nlog *log, nlog_facts *facts);
nlog_status proved_count(nlog *log, size_t *count);
nlog_status proved_at(nlog *log, size_t place, nlog_entry *entry, char *name, size_t room,
    size_t *name_len);
nlog_status proved_find(nlog *log, const char *name, size_t len, nlog_entry *entry);

nlog_status nlog_get_facts(const nlog *log, nlog_facts *facts) {
  nlog copy = *log;
  return proved_get_facts(&copy, facts);
}

nlog_status nlog_count(const nlog *log, size_t *count) {
  nlog copy = *log;
  return proved_count(&copy, count);
}

nlog_status nlog_at(const nlog *log, size_t place, nlog_entry *entry, char *name, size_t room,
    size_t *name_len) {
  nlog copy = *log;
  return proved_at(&copy, place, entry, name, room, name_len);
}

nlog_status nlog_find(const nlog *log, const char *name, size_t len, nlog_entry *entry) {
  nlog copy = *log;
  return proved_find(&copy, name, len, entry);
}

/* ---- A writer ---- */

nlog_status nlog_writer_is_open(const nlog_writer *writer, bool *is_open) {
  TRY(check_process(writer));
  *is_open = writer->state == OPEN || writer->state == READ;
  return NLOG_OK;
}

nlog_status nlog_writer_is_due(const nlog_writer *writer, bool *is_due) {
  TRY(check(writer));
  *is_due = writer->state == READ && writer->seen.change == REPLACE;
  return NLOG_OK;
}

nlog_status nlog_writer_rewrote(const nlog_writer *writer, bool *rewrote) {
  TRY(check(writer));
  *rewrote = writer->is_rewritten;
  return NLOG_OK;
}

nlog_status nlog_writer_version(const nlog_writer *writer, uint32_t *version) {
  nlog copy;
  char line[FIRST_LINE];
  TRY(check(writer));
  copy = writer->log;
  TRY(carried_header(&copy, line, sizeof line));
  *version = (uint32_t)(line[DIGIT_AT] - '0');
  return NLOG_OK;
}

nlog_status nlog_writer_count(const nlog_writer *writer, size_t *count) {
  TRY(check(writer));
  return nlog_count(&writer->log, count);
}

nlog_status nlog_writer_at(const nlog_writer *writer, size_t place, nlog_entry *entry, char *name,
    size_t room, size_t *name_len) {
  TRY(check(writer));
  return nlog_at(&writer->log, place, entry, name, room, name_len);
}

nlog_status nlog_writer_find(const nlog_writer *writer, const char *name, size_t len,
    nlog_entry *entry) {
  TRY(check(writer));
  return nlog_find(&writer->log, name, len, entry);
}

uint64_t nlog_writer_other_version(const nlog_writer *writer) {
  return writer == NULL ? 0 : writer->other_version;
}

int nlog_writer_errno(const nlog_writer *writer) { return writer == NULL ? 0 : writer->error; }

const char *nlog_writer_failed_path(const nlog_writer *writer) {
  return writer == NULL ? NULL : writer->failed_path;
}

const char *nlog_writer_failed_call(const nlog_writer *writer) {
  return writer == NULL ? NULL : writer->failed_call;
}

/* ---- A file ---- */

/* Reads all of an open file. The bytes are the caller's to free. *error: 0 where memory ran out, or
 * else the errno of *call. */
char *read_all(int fd, struct stat *about, size_t *len, const char **call, int *error) {
  size_t room;
  char *bytes, *more;
  *len = 0;
  *call = "fstat";
  *error = ask_regular(fd, about);
  if (*error != 0) return NULL;
  *call = "pread";
  room = size_of(about) > 0 ? size_of(about) + 1 : BLOCK; /* a byte more, so the end is seen */
  for (bytes = (char *)malloc(room); bytes != NULL; bytes = more, room *= 2) {
    ssize_t got = read_whole(fd, bytes + *len, room - *len, *len);
    if (got >= 0 && (*len += (size_t)got) < room) return bytes;
    if (got < 0) *error = errno;
    more = got >= 0 && room <= SIZE_MAX / 2 ? (char *)realloc(bytes, room * 2) : NULL;
    if (more == NULL) free(bytes);
  }
  return NULL;
}

static nlog_status read_file(const char *path, char **bytes, size_t *len, int *error) {
  struct stat about;
  const char *call;
  /* A pipe without a writer would keep it waiting. */
  int failed, fd = open_off_streams(AT_FDCWD, path, O_RDONLY | O_NONBLOCK, 0);
  *bytes = NULL;
  failed = fd < 0 ? errno : 0;
  if (fd >= 0) *bytes = read_all(fd, &about, len, &call, &failed);
  close_at(&fd);
  if (*bytes != NULL) return NLOG_OK;
  if (failed == 0) return NLOG_OUT_OF_MEMORY;
  *error = failed;
  return NLOG_FAULT;
}

/* Notes what the next block of a file has. */
void note_block(seen *seen, const char *bytes, size_t len) {
  const size_t kept = LEAST(len, LAST);
  size_t end = len;
  if (seen->len == 0) memset(seen->first, 0, sizeof seen->first);
  if (seen->len == 0) memcpy(seen->first, bytes, LEAST(len, sizeof seen->first - 1));
  memmove(seen->last, seen->last + kept, LAST - kept);
  memcpy(seen->last + LAST - kept, bytes + len - kept, kept);
  while (end > 0 && bytes[end - 1] != '\n') end--;
  if (end > 0) seen->whole = seen->len + end;
  seen->len += len;
}

/* Loads an open file up to an end in blocks, of which none is kept. The first one ends in its last
 * newline, and what comes after that is read again. *error: the errno where it answers NLOG_FAULT.
 */
nlog_status load_blocks(nlog *log, uint32_t version, int fd, uint64_t end, char *block, seen *seen,
                        int *error) {
  nlog_status status = NLOG_OK;
  ssize_t got = BLOCK;
  seen->len = seen->whole = 0;
  while (status == NLOG_OK && got == BLOCK) {
    const bool is_first = seen->len == 0;
    size_t used;
    got = read_whole(fd, block, BLOCK, seen->len);
    if (got < 0) *error = errno;
    if (got < 0) return NLOG_FAULT;
    got = (ssize_t)LEAST((uint64_t)got, end - seen->len);
    used = (size_t)got;
    if (is_first && got == BLOCK) while (used > 0 && block[used - 1] != '\n') used--;
    if (used == 0) used = (size_t)got;
    note_block(seen, block, used);
    status = is_first ? load_as(log, version, block, used) : carried_more(log, block, used);
  }
  return status;
}

nlog_status nlog_load_file(nlog *log, const char *path, int *error) {
  nlog found = NLOG_INIT;
  seen seen;
  char *block = (char *)malloc(BLOCK);
  /* A pipe without a writer would keep it waiting. */
  int fd = open_off_streams(AT_FDCWD, path, O_RDONLY | O_NONBLOCK, 0), failed = errno;
  nlog_status status = fd < 0 ? NLOG_FAULT : NLOG_OUT_OF_MEMORY;
  if (fd >= 0 && block != NULL) {
    failed = ask_regular(fd, &seen.about);
    status = NLOG_FAULT;
    if (failed == 0) status = load_blocks(&found, 0, fd, UINT64_MAX, block, &seen, &failed);
  }
  close_at(&fd);
  free(block);
  if (status == NLOG_FAULT) *error = failed;
  if (status == NLOG_OK) nlog_free(log);
  if (status == NLOG_OK) *log = found;
  else nlog_free(&found);
  return status;
}

nlog_status nlog_load_file_distrusted(nlog *log, nlog *distrusted, const char *path, int *error) {
  size_t len;
  char *bytes;
  nlog found = NLOG_INIT;
  nlog_status status = read_file(path, &bytes, &len, error);
  if (status == NLOG_OK) status = nlog_load_distrusted(&found, bytes, len);
  if (status == NLOG_OK) status = nlog_load(log, bytes, len);
  free(bytes);
  if (status != NLOG_OK) {
    nlog_free(&found);
    return status;
  }
  nlog_free(distrusted);
  *distrusted = found;
  return NLOG_OK;
}
