/* A log on disk, in the caller's process: carries out over files what the proved part makes of the
 * log (crates/nl_c), which keeps its table, and the lines that weren't written yet. Tested
 * (tests/clib.py), and not proved.
 *
 *   CLOSED --nlog_writer_open--> OPEN
 *   CLOSED --nlog_writer_open_to_read--> READ --the first change, or nlog_writer_open--> OPEN
 *   OPEN, or READ in such a call --a call of the system fails--> BROKEN
 *   READ, OPEN or BROKEN --nlog_writer_close--> CLOSED
 *
 * OPEN    Locked, and the file is the text. It is looked at before each sync and each rewriting: a
 *         sync of another file would acknowledge what no load finds. Shared, the lock is let go of
 *         after each call, and the next one takes in what others did, records of planned names too,
 *         which are written without it. Where one of these came between a look and a write, or was
 *         cut off, the file is apart from the text, and the next call reads it anew.
 * READ    Not locked. The file stays open, so that no other one can have its number. The first
 *         change goes on from it where it is the log's still, and else reads the log anew.
 * BROKEN  What is on disk isn't known.
 *
 * A wary writer marks outputs that can't be trusted as dead, and rewrites the log without them.
 * Until the rename the file tells of them, and after it they have no entry. */
#include "writer.h"

#define SCRATCH ".recompact" /* comes behind the log's path */
enum {
  WAIT = 10000,  /* milliseconds for a lock, where the caller doesn't say */
  LOOK_EVERY = 8 /* records without the lock, before it is looked whether the file is the log's */
};

nlog_status check_process(const nlog_writer *w) {
  return w == NULL ? NLOG_NO_HANDLE : is_forked(w) ? NLOG_FORKED : NLOG_OK;
}
nlog_status check(const nlog_writer *w) {
  TRY(check_process(w));
  return w->state == CLOSED ? NLOG_NOT_OPEN : w->state == BROKEN ? NLOG_BROKEN : NLOG_OK;
}

static void let_go(nlog_writer *w) {
  carried_close(&w->log);
  unlock_and_close(w, &w->log_fd);
  unlock_and_close(w, &w->other_fd);
  close_at(&w->seen.fd);
  close_at(&w->folder_fd);
  free(w->buffer);
  w->buffer = NULL;
  forget_process(w);
  w->state = CLOSED;
}

nlog_status nlog_writer_new(nlog_writer **writer, const char *path, uint32_t version) {
  const char *slash = strrchr(path, '/');
  const size_t len = strlen(path), before = slash == NULL ? 0 : (size_t)(slash + 1 - path);
  *writer = NULL;
  if (version != 0 && (version < 5 || version > 7)) return NLOG_OTHER_VERSION;
  nlog_writer *w = (nlog_writer *)calloc(1, sizeof *w + 3 * (len + sizeof SCRATCH));
  if (w == NULL || carried_new(&w->log) != NLOG_OK) {
    free(w);
    return NLOG_OUT_OF_MEMORY;
  }
  w->log_fd = w->other_fd = w->folder_fd = w->seen.fd = -1;
  w->version = version;
  w->wait = WAIT;
  w->path = (char *)(w + 1);
  w->scratch = w->path + len + 1;
  w->folder = w->scratch + len + sizeof SCRATCH;
  memcpy(w->path, path, len);
  snprintf(w->scratch, len + sizeof SCRATCH, "%s" SCRATCH, path);
  memcpy(w->folder, before == 0 ? "." : path, before > 1 ? before - 1 : 1);
  w->name = path[before] == 0 && before > 0 ? "." : w->path + before;
  w->scratch_name = w->scratch + before;
  *writer = w;
  return NLOG_OK;
}

void nlog_writer_free(nlog_writer **writer) {
  nlog_writer *w = *writer;
  *writer = NULL;
  if (w != NULL) let_go(w);
  if (w != NULL) nlog_free(&w->log);
  free(w);
}

/* Loads a file of the log in blocks. Where there is none, the log is empty. */
static nlog_status load_log(nlog_writer *w, int fd, nlog *found) {
  if (fd < 0) return load_as(found, w->version, NULL, 0);
  int error = ask_regular(fd, &w->seen.about);
  if (error != 0) return fail(w, "fstat", w->path, error);
  /* Without the lock, what another adds meanwhile is left to the change, so the file is known. */
  const size_t size = fd == w->seen.fd ? size_of(&w->seen.about) : 0;
  const uint64_t end = size > 0 ? size : UINT64_MAX;
  nlog_status status = load_blocks(found, w->version, fd, end, w->buffer, &w->seen, &error);
  return status == NLOG_FAULT ? fail(w, "pread", w->path, error) : status;
}

/* Reads a damaged log whole, marks as dead each output that can't be trusted, and loads it anew. */
static nlog_status mark_distrusted(nlog_writer *w, int fd, nlog *found, bool *is_any) {
  nlog distrusted = NLOG_INIT;
  size_t len;
  const char *call;
  int error;
  char *bytes = read_all(fd, &w->seen.about, &len, &call, &error);
  if (bytes == NULL) return error == 0 ? NLOG_OUT_OF_MEMORY : fail(w, call, w->path, error);
  nlog_status status = nlog_load_distrusted(&distrusted, bytes, len);
  for (size_t place = 0, name; status == NLOG_OK; place++) {
    nlog_entry entry;
    status = nlog_at(&distrusted, place, &entry, w->buffer, NLOG_MAX_NAME, &name);
    *is_any = *is_any || status == NLOG_OK;
    if (status == NLOG_OK) status = carried_mark_dead(&w->log, w->buffer, name);
  }
  nlog_free(&distrusted);
  w->seen.len = w->seen.whole = 0;
  note_block(&w->seen, bytes, len);
  if (status == NLOG_NOT_FOUND) status = load_as(found, w->version, bytes, len);
  free(bytes);
  return status;
}

static nlog_status open_found(nlog_writer *w, nlog *found, bool wants_whole) {
  return of_text(w, carried_open(&w->log, found, wants_whole, &w->seen.change));
}

/* Loads a file of the log, if there is one, and opens what it is. */
static nlog_status open_text(nlog_writer *w, int fd) {
  nlog found = NLOG_INIT;
  bool is_any = false;
  nlog_status status = load_log(w, fd, &found);
  if (status == NLOG_OK) status = open_found(w, &found, w->is_wary);
  if (status == NLOG_NOT_FOUND) {
    status = mark_distrusted(w, fd, &found, &is_any);
    if (status == NLOG_OK) status = open_found(w, &found, false);
    if (status == NLOG_OK && is_any && w->seen.change != REPLACE) {
      w->seen.change = REPLACE;
      status = of_text(w, carried_recompact(&w->log));
    }
  }
  nlog_free(&found);
  const char *number = w->seen.first + DIGIT_AT;
  if (status == NLOG_OTHER_VERSION && *number != '0') w->other_version = strtoull(number, NULL, 10);
  return status;
}

static nlog_status open_log(nlog_writer *w) {
  w->is_apart = false;
  carried_close(&w->log);
  TRY(open_text(w, w->log_fd));
  return carry_out(w);
}

/* Reads the log as it stands, without a lock. Without it, and without its folder, it is empty. */
static nlog_status read_log(nlog_writer *w) {
  if (open_folder(w) == NLOG_OK) {
    w->seen.fd = open_off_streams(w->folder_fd, w->name, O_RDONLY | O_NONBLOCK, 0);
    if (w->seen.fd < 0) fail(w, "open", w->path, errno);
  }
  if (w->error != 0 && w->error != ENOENT) return NLOG_FAULT;
  fail(w, NULL, NULL, 0);
  w->seen.len = w->seen.whole = 0;
  return open_text(w, w->seen.fd);
}

/* Records what was appended to the file, which was the text up to a place. A line has one spelling,
 * so the text is the file then. Where a line is torn or no entry, it is of no use. */
static bool join(nlog_writer *w, uint64_t at, uint64_t len) {
  char *const bytes = w->buffer, *const name = bytes + BLOCK;
  size_t held = 0;
  if (len < at) return false;
  while (at + held < len) {
    if (!read_on(w, at, len, &held)) return false;
    char *line = bytes, *end;
    while ((end = (char *)memchr(line, '\n', held - (size_t)(line - bytes))) != NULL) {
      const size_t line_len = (size_t)(end - line);
      size_t name_len;
      nlog_entry entry;
      if (nlog_read_line(5, line, line_len, &entry, name, NLOG_MAX_NAME, &name_len) != NLOG_OK ||
          carried_record(&w->log, name, name_len, &entry) != NLOG_OK) return false;
      line = end + 1;
    }
    at += (size_t)(line - bytes);
    held -= (size_t)(line - bytes);
    if (line == bytes || carried_written(&w->log, at) != NLOG_OK) return false;
    memmove(bytes, line, held);
  }
  w->len = len;
  return held == 0;
}

/* Whether the text that was read is that of the locked file, or was made so where that begins with
 * what was read. Times may be too coarse to tell: what was read last is compared, up to its end. */
static bool is_text(nlog_writer *w) {
  seen *seen = &w->seen;
  const struct stat *now = &w->about, *then = &seen->about;
  const uint64_t len = size_of(now), kept = LEAST(seen->len, LAST), from = seen->len - kept;
  const bool is_more = len != seen->len;
  if (seen->fd < 0) return len == 0;
  if (!is_one_file(now, then) || size_of(then) != seen->len || len < seen->whole) return false;
  /* A torn line of this length leaves too little of the lines before it. */
  if (from > 0 && seen->whole < from + LAST / 2) return false;
  /* A line of version 4 has a command in the place of its hash. */
  if (is_more && seen->first[DIGIT_AT] == '4') return false;
  if (is_more && (seen->change == REPLACE || seen->whole == 0)) return false;
  if (!is_more && memcmp(&now->st_mtim, &then->st_mtim, sizeof now->st_mtim) != 0) return false;
  if (!is_more && memcmp(&now->st_ctim, &then->st_ctim, sizeof now->st_ctim) != 0) return false;
  const size_t same = (size_t)(is_more ? seen->whole - from : kept);
  if (read_whole(w->log_fd, w->buffer, same, from) != (ssize_t)same) return false;
  if (memcmp(w->buffer, seen->last + LAST - kept, same) != 0) return false;
  if (is_more) seen->change = KEEP;
  seen->len = len;
  return !is_more || join(w, seen->whole, len);
}

/* Locks the log, and does what an open owes: from the text that was read, where it is open to read.
 * A log whose scratch would have too long a name is refused: it could never be rewritten. */
static nlog_status bring_up(nlog_writer *w) {
  struct stat about;
  bool is_read = w->state == READ, is_same;
  if (w->folder_fd < 0) TRY(open_folder(w));
  const int answer = fstatat(w->folder_fd, w->scratch_name, &about, AT_SYMLINK_NOFOLLOW);
  TRY(done(w, answer == 0 || errno == ENOENT || errno == EACCES, "stat", w->scratch));
  TRY(lock_log(w, &is_same));
  is_read = is_read && is_text(w);
  close_at(&w->seen.fd);
  if (is_read && w->seen.change == REPLACE) TRY(of_text(w, carried_recompact(&w->log)));
  return is_read ? carry_out(w) : open_log(w);
}

/* A status of a call that changed files, or was to: any refusal breaks the writer. */
static nlog_status settle(nlog_writer *w, nlog_status status) {
  if (status != NLOG_OK) w->state = BROKEN;
  if (status != NLOG_OK) close_at(&w->seen.fd);
  return status;
}

/* Begins a change: of a shared log it takes the lock, and takes in what others did. */
static nlog_status enter(nlog_writer *w) {
  bool is_same;
  nlog_status status = NLOG_OK;
  TRY(check(w));
  if (w->state == READ) {
    status = bring_up(w);
  } else if (w->is_shared && (!w->is_held || w->is_apart)) {
    status = lock_log(w, &is_same);
    is_same = is_same && status == NLOG_OK && !w->is_apart && join(w, w->len, size_of(&w->about));
    if (status == NLOG_OK && !is_same) status = open_log(w);
  }
  if (status == NLOG_LOCKED) return status;
  if (status == NLOG_OK) w->state = OPEN;
  return settle(w, status);
}

/* As enter, before a sync or a rewriting. Nobody else was to write a log that isn't shared. */
static nlog_status enter_to_keep(nlog_writer *w) {
  TRY(enter(w));
  if (w->is_shared && !w->is_held) return NLOG_OK;
  const int other = look(w);
  const uint64_t len = size_of(&w->about);
  if (other == 0 && (w->is_shared ? join(w, w->len, len) : len == w->len)) return NLOG_OK;
  return settle(w, fail(w, "stat", w->path, other > 0 ? other : ESTALE));
}

/* Ends a call. The lock is let go of where it is shared; what else a close lets go of stays. */
static nlog_status leave(nlog_writer *w, nlog_status status) {
  if (w->is_shared && !w->is_held && w->state == OPEN) {
    unlock_and_close(w, &w->other_fd);
    set_lock(w->log_fd, false);
  }
  return status;
}
static nlog_status end(nlog_writer *w, nlog_status status) { return leave(w, settle(w, status)); }

/* Ends a call that added lines, the last by this status. Those before a refusal are in the file. */
static nlog_status end_lines(nlog_writer *w, nlog_status status, bool is_synced) {
  const bool is_refused = status == NLOG_OUT_OF_MEMORY;
  if (status == NLOG_OK || is_refused) status = write_new(w);
  if (status == NLOG_OK && is_synced && !is_refused) status = sync_log(w, false);
  status = end(w, status);
  return status == NLOG_OK && is_refused ? NLOG_OUT_OF_MEMORY : status;
}

/* Opens the log. All that a change of files takes memory for is there before it. */
static nlog_status open_as(nlog_writer *w, state opened) {
  TRY(check_process(w));
  const bool is_read = w->state == READ && opened == OPEN;
  if (!is_read) {
    if (w->state != CLOSED) return w->state == BROKEN ? NLOG_BROKEN : NLOG_ALREADY_OPEN;
    fail(w, NULL, NULL, 0);
    w->other_version = 0;
    w->is_rewritten = w->is_pending = w->is_held = w->is_apart = false;
    w->room = BLOCK + NLOG_MAX_NAME + MAX_NUMBERS;
    w->buffer = (char *)malloc(w->room);
    if (w->buffer == NULL) return NLOG_OUT_OF_MEMORY;
    remember_process(w);
  }
  const nlog_status status = opened == READ ? read_log(w) : bring_up(w);
  if (status == NLOG_LOCKED && is_read) return status;
  if (status == NLOG_OK) w->state = opened;
  else let_go(w);
  return leave(w, status);
}

nlog_status nlog_writer_open(nlog_writer *w) { return open_as(w, OPEN); }
nlog_status nlog_writer_open_to_read(nlog_writer *w) { return open_as(w, READ); }

nlog_status nlog_writer_set_shared(nlog_writer *w, bool is_shared) {
  TRY(check_process(w));
  if (w->state != CLOSED) return NLOG_ALREADY_OPEN;
  w->is_shared = is_shared;
  return NLOG_OK;
}
nlog_status nlog_writer_set_wary(nlog_writer *w, bool is_wary) {
  TRY(check_process(w));
  if (w->state != CLOSED) return NLOG_ALREADY_OPEN;
  w->is_wary = is_wary;
  return NLOG_OK;
}
nlog_status nlog_writer_set_wait(nlog_writer *w, uint32_t milliseconds) {
  TRY(check_process(w));
  w->wait = milliseconds;
  return NLOG_OK;
}

nlog_status nlog_writer_hold(nlog_writer *w) {
  TRY(enter(w));
  w->is_held = true;
  return NLOG_OK;
}
nlog_status nlog_writer_release(nlog_writer *w) {
  TRY(check(w));
  w->is_held = false;
  return leave(w, NLOG_OK);
}

static nlog_status make_room(nlog_writer *w, const nlog_name *names, size_t count) {
  size_t needed = 0;
  for (size_t i = 0; i < count; i++) {
    TRY(nlog_check_name(names[i].bytes, names[i].len));
    if (needed > SIZE_MAX - NLOG_MAX_NAME - MAX_NUMBERS) return NLOG_OUT_OF_MEMORY;
    needed += names[i].len + MAX_NUMBERS;
  }
  if (needed <= w->room) return NLOG_OK;
  char *more = (char *)realloc(w->buffer, needed);
  if (more == NULL) return NLOG_OUT_OF_MEMORY;
  w->buffer = more;
  w->room = needed;
  return NLOG_OK;
}

/* Adds the lines of names whose plans stand, by one write, without the lock, and not to the text:
 * the next call that has the lock reads them. Where a rewriting loses them, the intents stand. */
static bool write_loosely(nlog_writer *w, const nlog_name *n, size_t count, const nlog_entry *e) {
  size_t used = 0, line;
  ssize_t written;
  if (!w->is_shared || w->is_held || w->is_apart || w->state != OPEN || w->log_fd < 0) return false;
  if (++w->loose % LOOK_EVERY == 0 && look(w) != 0) return false;
  /* Without room it ends no plan, so that all stand where one of them doesn't. */
  for (size_t i = 0; count > 1 && i < count; i++) {
    if (carried_loose_line(&w->log, n[i].bytes, n[i].len, e, w->buffer, 0, &line) != NLOG_NO_ROOM)
      return false;
  }
  for (size_t i = 0; i < count; i++, used += line) {
    const nlog_status status = carried_loose_line(&w->log, n[i].bytes, n[i].len, e,
        w->buffer + used, w->room - used, &line);
    if (status != NLOG_OK) return false;
  }
  w->is_pending = true;
  AGAIN(written, write(w->log_fd, w->buffer, used));
  /* A line that was cut off is cut away by who has the lock. */
  w->is_apart = written != (ssize_t)used;
  return !w->is_apart;
}

/* Adds a line for each name, by one write: of the entry, or of an intent where one is wanted. */
static nlog_status add_lines(nlog_writer *w, const nlog_name *it, size_t count, bool is_begin,
    const nlog_entry *e) {
  nlog_status status = NLOG_OK;
  TRY(check(w));
  TRY(make_room(w, it, count));
  if (count == 0 || (!is_begin && write_loosely(w, it, count, e))) return NLOG_OK;
  TRY(enter(w));
  for (; status == NLOG_OK && count > 0; count--, it++) {
    status = is_begin ? carried_begin(&w->log, it->bytes, it->len, e->start_ms, e->hash)
                      : carried_record(&w->log, it->bytes, it->len, e);
  }
  return end_lines(w, of_text(w, status), false);
}

nlog_status nlog_writer_record(nlog_writer *w, const char *name, size_t len, const nlog_entry *e) {
  return add_lines(w, &(nlog_name){name, len}, 1, false, e);
}
nlog_status nlog_writer_record_edge(nlog_writer *w, const nlog_name *it, size_t count,
    const nlog_entry *e) {
  return add_lines(w, it, count, false, e);
}
nlog_status nlog_writer_begin(nlog_writer *w, const nlog_name *it, size_t count, int32_t moment,
    uint64_t hash) {
  return add_lines(w, it, count, true, &(nlog_entry){moment, moment, 0, hash});
}

/* Adds the lines of a plan that is `begun`, or else those that withdraw it, of which it tells how
 * many. What waits is written where the buffer has no room for one more. */
static nlog_status add_plan(nlog_writer *w, const nlog_planned *it, size_t count,
    nlog_planned *begun, int32_t moment, size_t *withdrawn) {
  nlog_status status = NLOG_OK;
  bool is_any = false;
  for (size_t i = 0, used = 0; status == NLOG_OK && i < count; i++, it++) {
    const nlog_name n = it->name;
    if (begun == NULL && !(it->had && it->written)) continue;
    if (used + n.len + MAX_NUMBERS > w->room) {
      status = write_new(w);
      if (status != NLOG_OK) return end(w, status);
      used = 0;
    }
    used += n.len + MAX_NUMBERS;
    if (begun != NULL) {
      nlog_entry *const old = &begun[i].before;
      status = carried_plan(&w->log, n.bytes, n.len, moment, it->hash, it->anew, old);
      begun[i].had = status == NLOG_OK;
      begun[i].written = status == NLOG_OK || (status == NLOG_NOT_FOUND && it->anew);
      is_any = is_any || it->written;
    } else {
      status = carried_withdraw(&w->log, n.bytes, n.len, &it->before);
      *withdrawn += status == NLOG_OK;
    }
    if (status == NLOG_NOT_FOUND) status = NLOG_OK;
  }
  return end_lines(w, of_text(w, status), is_any);
}

nlog_status nlog_writer_begin_plan(nlog_writer *w, nlog_planned *it, size_t count, int32_t moment) {
  TRY(check(w));
  for (size_t i = 0; i < count; i++) TRY(nlog_check_name(it[i].name.bytes, it[i].name.len));
  if (count == 0) return NLOG_OK;
  TRY(enter_to_keep(w));
  for (size_t i = 0; i < count; i++) it[i].had = it[i].written = false;
  return add_plan(w, it, count, it, moment, NULL);
}

nlog_status nlog_writer_withdraw(nlog_writer *w, const nlog_planned *it, size_t count, size_t *n) {
  TRY(check(w));
  *n = 0;
  while (count > 0 && !(it->had && it->written)) it++, count--;
  if (count == 0) return NLOG_OK;
  TRY(enter(w));
  return add_plan(w, it, count, NULL, 0, n);
}

nlog_status nlog_writer_sync(nlog_writer *w) {
  TRY(enter_to_keep(w));
  return end(w, sync_log(w, false));
}

/* Rewrites the log; with the times that are marked, where it tells the place of a bad one. */
static nlog_status rewrite(nlog_writer *w, size_t *place) {
  TRY(enter_to_keep(w));
  const nlog_status status = place ? carried_restat(&w->log, place) : carried_recompact(&w->log);
  if (status == NLOG_NEGATIVE_TIME) return leave(w, status);
  return end(w, status == NLOG_OK ? replace_log(w, 0) : of_text(w, status));
}

nlog_status nlog_writer_recompact(nlog_writer *w) { return rewrite(w, NULL); }
nlog_status nlog_writer_restat(nlog_writer *w, size_t *place) { return rewrite(w, place); }

nlog_status nlog_writer_mark_dead(nlog_writer *w, const char *name, size_t len) {
  TRY(check_process(w));
  return carried_mark_dead(&w->log, name, len);
}
nlog_status nlog_writer_mark_time(nlog_writer *w, const char *name, size_t len, int64_t mtime) {
  TRY(check_process(w));
  return carried_mark_time(&w->log, name, len, mtime);
}
nlog_status nlog_writer_clear_marks(nlog_writer *w) {
  TRY(check_process(w));
  return carried_clear_marks(&w->log);
}

nlog_status nlog_writer_close(nlog_writer *w) {
  nlog_status status = check(w);
  if (status != NLOG_OK && status != NLOG_BROKEN) return status;
  if (status == NLOG_OK && w->is_pending) status = enter_to_keep(w);
  if (status == NLOG_LOCKED) return status;
  if (status == NLOG_OK && w->is_pending) status = sync_log(w, false);
  let_go(w);
  return status;
}
