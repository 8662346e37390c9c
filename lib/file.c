/* The files of a log, and the steps by which they become the text of a writer: `steps_of` of
 * crates/nl_c/specs/Changes.antt. Tested (tests/clib.py), and not proved.
 *
 *   KEEP     sync
 *   APPEND   sync; a part of the first line is cut to nothing, and synced; write the line; sync
 *   CUT      sync; cut what is after the text; sync
 *   REPLACE  sync; make a scratch and lock it; write the text, give it the log's rights, and sync
 *            it; rename it over the log; sync
 *
 *   file     sound --record--> pending --sync--> sound; either --a sync fails--> unsound
 *            unsound --REPLACE, by the next open--> sound
 *   folder   sound --a sync fails--> unsound, and each open is refused
 *
 * A sync is one of the folder, and then of the file; behind an open of the file alone. One that
 * failed isn't asked for again: the system may forget what it couldn't write, and answer well. */
#include "writer.h"

enum { MOST_TRIES = 8 }; /* writes of the same lines, which came after half a line each time */

nlog_status fail(nlog_writer *w, const char *call, const char *path, int error) {
  w->error = error;
  w->failed_call = call;
  w->failed_path = path;
  return NLOG_FAULT;
}
nlog_status done(nlog_writer *w, bool is_done, const char *call, const char *path) {
  return is_done ? NLOG_OK : fail(w, call, path, errno);
}

/* A call of the text meets no fault but that the log would get longer than one may be. */
nlog_status of_text(nlog_writer *w, nlog_status status) {
  return status == NLOG_FAULT ? fail(w, "write", w->path, EFBIG) : status;
}

/* Whether a call answered that the file system hasn't it. */
bool is_lacking(int error) { return error == ENOSYS || error == ENOTSUP || error == EOPNOTSUPP; }

/* A close that fails isn't tried again, because the descriptor may be another's by then. */
void close_at(int *fd) {
  if (*fd >= 0) close(*fd);
  *fd = -1;
}

/* Opens a file by a descriptor that is no standard stream's, so that no message lands in it. */
int open_off_streams(int folder, const char *path, int how, mode_t mode) {
  int fd;
  AGAIN(fd, openat(folder, path, how | O_CLOEXEC, mode));
  if (fd < 0 || fd > 2) return fd;
  const int high = fcntl(fd, F_DUPFD_CLOEXEC, 3), error = errno;
  close(fd);
  errno = error;
  return high;
}

/* How many bytes were read: fewer than `room` at the end of the file alone; -1 for a failure. */
ssize_t read_whole(int fd, char *bytes, size_t room, uint64_t at) {
  size_t got = 0;
  ssize_t count = 1;
  while (count > 0 && got < room) {
    AGAIN(count, pread(fd, bytes + got, room - got, (off_t)(at + got)));
    if (count > 0) got += (size_t)count;
  }
  return count < 0 ? -1 : (ssize_t)got;
}

/* Reads on in the log's file up to `end`, a block at the most, behind `used` bytes from `at` on. */
bool read_on(nlog_writer *w, uint64_t at, uint64_t end, size_t *used) {
  const uint64_t rest = end - at - *used;
  const size_t wanted = (size_t)LEAST(rest, BLOCK - *used);
  const ssize_t got = read_whole(w->log_fd, w->buffer + *used, wanted, at + *used);
  *used += wanted;
  if (got >= 0) errno = ESTALE;
  return got == (ssize_t)wanted;
}

static bool write_whole(int fd, const char *bytes, size_t len) {
  while (len > 0) {
    ssize_t count;
    AGAIN(count, write(fd, bytes, len));
    if (count == 0) errno = EIO;
    if (count <= 0) return false;
    bytes += count;
    len -= (size_t)count;
  }
  return true;
}

static bool sync_whole(int fd) {
  int answer;
  AGAIN(answer, fsync(fd));
  return answer == 0;
}

/* Asks of an open file, which has to be a regular one: others may have no end. 0, or the errno. */
int ask_regular(int fd, struct stat *about) {
  if (fstat(fd, about) != 0) return errno;
  return S_ISREG(about->st_mode) ? 0 : S_ISDIR(about->st_mode) ? EISDIR : EINVAL;
}

size_t size_of(const struct stat *about) { return about->st_size > 0 ? (size_t)about->st_size : 0; }

/* Opens the log's folder. One that may be searched and not read is opened by its path alone. */
nlog_status open_folder(nlog_writer *w) {
  int fd = open_off_streams(AT_FDCWD, w->folder, O_RDONLY | O_DIRECTORY, 0);
  w->is_folder_closed = false;
#ifdef O_PATH
  if (fd < 0 && errno == EACCES) {
    fd = open_off_streams(AT_FDCWD, w->folder, O_PATH | O_DIRECTORY, 0);
    w->is_folder_closed = fd >= 0;
  }
#endif
  TRY(done(w, fd >= 0, "open", w->folder));
  close_at(&w->folder_fd);
  w->folder_fd = fd;
  return NLOG_OK;
}

/* Syncs the file, and first the folder, which shows its name; or else the text is durable then. */
nlog_status sync_log(nlog_writer *w, bool has_folder) {
  if (has_folder && w->is_folder_unsound) return fail(w, "fsync", w->folder, EIO);
  if (w->is_unsound) return fail(w, "fsync", w->path, EIO);
  if (has_folder && !w->is_folder_closed && !sync_whole(w->folder_fd)) {
    w->is_folder_unsound = errno != EINVAL && errno != EROFS && !is_lacking(errno);
    TRY(done(w, !w->is_folder_unsound, "fsync", w->folder));
  }
  w->is_unsound = !sync_whole(w->log_fd);
  TRY(done(w, !w->is_unsound, "fsync", w->path));
  w->is_pending = false;
  unlock_and_close(w, &w->other_fd);
  return has_folder ? NLOG_OK : carried_sync(&w->log);
}

/* Writes bytes at the end of a log that is shared, where others may write without the lock. After
 * half a line, theirs or one of a write that was cut off, it writes all once more. The call of the
 * system that failed, or NULL. */
static const char *write_shared(nlog_writer *w, size_t len) {
  for (int tries = 0; tries < MOST_TRIES; tries++) {
    char before = '\n';
    ssize_t count, got = 1;
    AGAIN(count, write(w->log_fd, w->buffer, len));
    if (count < 0) return "write";
    const off_t end = lseek(w->log_fd, 0, SEEK_CUR);
    if (end < count) return "lseek";
    const uint64_t at = (uint64_t)(end - count);
    if ((size_t)count == len && at == w->len) return NULL;
    w->is_apart = true;
    if (at > 0) got = read_whole(w->log_fd, &before, 1, at - 1);
    if (got == 0) errno = ESTALE;
    if (got != 1) return "pread";
    if ((size_t)count == len && before == '\n') return NULL;
  }
  errno = EIO;
  return "write";
}

/* Writes the lines that wait, by one write. The buffer has room for them. */
nlog_status write_new(nlog_writer *w) {
  uint64_t len;
  TRY(carried_text(&w->log, w->len, w->buffer, w->room, &len));
  if (len == w->len) return NLOG_OK;
  w->is_pending = true;
  const size_t more = (size_t)(len - w->len);
  const char *failed = "write";
  if (w->is_shared) failed = write_shared(w, more);
  else if (write_whole(w->log_fd, w->buffer, more)) failed = NULL;
  TRY(done(w, failed == NULL, failed, w->path));
  w->len = len;
  return carried_written(&w->log, len);
}

static nlog_status cut_log(nlog_writer *w, uint64_t len) {
  int answer;
  AGAIN(answer, ftruncate(w->log_fd, (off_t)len));
  TRY(done(w, answer == 0, "ftruncate", w->path));
  return sync_log(w, true);
}

/* Writes at the end of a file, in blocks, the first `own` bytes of the log's, or where these are
 * none the text of the table. */
static nlog_status write_text(nlog_writer *w, int fd, uint64_t own) {
  size_t used = own > 0 ? 0 : FIRST_LINE, place = 0, count;
  nlog_status status = own > 0 ? NLOG_OK : carried_header(&w->log, w->buffer, FIRST_LINE);
  for (w->len = 0; status == NLOG_OK;) {
    if (own > 0) {
      TRY(done(w, read_on(w, w->len, own, &used), "pread", w->path));
      if (w->len + used == own) status = NLOG_NOT_FOUND;
    } else {
      status = carried_line(&w->log, place++, w->buffer + used, w->room - used, &count);
      if (status == NLOG_OK) used += count;
      else if (status != NLOG_NOT_FOUND) return status;
    }
    if (status == NLOG_OK && used < BLOCK) continue;
    count = LEAST(used, BLOCK);
    const bool is_done = write_whole(fd, w->buffer, count);
    TRY(done(w, is_done, "write", fd == w->log_fd ? w->path : w->scratch));
    w->len += count;
    used -= count;
    memmove(w->buffer, w->buffer + count, used);
  }
  return status == NLOG_NOT_FOUND ? NLOG_OK : status;
}

/* Makes the scratch anew, for its owner alone, and locks it, so that it is locked when it gets the
 * log's name. It is filled, given the log's rights and synced. */
static nlog_status make_scratch(nlog_writer *w, uint64_t own) {
  const int how = O_RDWR | O_APPEND | O_CREAT | O_EXCL;
  const char *call = NULL;
  const int answer = unlinkat(w->folder_fd, w->scratch_name, 0);
  TRY(done(w, answer == 0 || errno == ENOENT, "unlink", w->scratch));
  w->other_fd = open_off_streams(w->folder_fd, w->scratch_name, how, 0600);
  TRY(done(w, w->other_fd >= 0, "open", w->scratch));
  const lock asked = set_lock(w->other_fd, true);
  TRY(done(w, asked == TAKEN || asked == NO_LOCKS, "flock", w->scratch));
  TRY(write_text(w, w->other_fd, own));
  TRY(done(w, fstat(w->log_fd, &w->about) == 0, "fstat", w->path));
  const int error = keep_rights(w->log_fd, w->other_fd, w->buffer, &w->about, &call);
  if (error != 0) return fail(w, call, w->scratch, error);
  return done(w, sync_whole(w->other_fd), "fsync", w->scratch);
}

/* Puts the scratch in the log's place. Where the rename fails, the name may show either file, so
 * both stay locked. */
nlog_status replace_log(nlog_writer *w, uint64_t own) {
  const int folder = w->folder_fd, log = w->log_fd;
  const nlog_status status = make_scratch(w, own);
  if (status != NLOG_OK) close_at(&w->other_fd);
  TRY(status);
  TRY(done(w, renameat(folder, w->scratch_name, folder, w->name) == 0, "rename", w->scratch));
  w->log_fd = w->other_fd;
  w->other_fd = log;
  w->is_unsound = false; /* all that the name may show now is a new file, and synced well */
  return sync_log(w, true);
}

nlog_status carry_out(nlog_writer *w) {
  const uint32_t change = w->seen.change;
  const bool is_unsound = w->is_unsound && !w->is_folder_unsound;
  if (w->denied != 0) return fail(w, "open", w->path, w->denied);
  if (!is_unsound) TRY(sync_log(w, true));
  TRY(carried_text(&w->log, UINT64_MAX, NULL, 0, &w->len));
  if (is_unsound || change == REPLACE) {
    w->is_rewritten = true;
    return replace_log(w, change == KEEP || change == CUT ? w->len : 0);
  }
  if (change == CUT) return cut_log(w, w->len);
  if (change == KEEP) return NLOG_OK;
  if (w->seen.len > 0) TRY(cut_log(w, 0));
  TRY(write_text(w, w->log_fd, 0));
  return sync_log(w, true);
}
