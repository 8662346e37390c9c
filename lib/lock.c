/* Which process has a log, and which file it is. Tested (tests/clib.py), and not proved.
 *
 *   no file --open--> a file --flock--> locked --look--> the log's, where the name shows it still
 *   a file, or locked --another has it, or the name shows another--> no file, and a wait
 *   the log's --unlock (shared)--> a file --flock, look--> the log's, or another's
 *   the log's --unlock, close--> no file
 *
 * A forked child has the same descriptors, whose locks keep it out of nothing. It may free the
 * writer, which closes them and leaves the lock alone, and each other call is refused. */
#include "writer.h"

#include <poll.h>
#include <signal.h>
#include <sys/file.h>
#include <sys/mman.h>
#include <time.h>

/* The one of programs with threads, which lies in libpthread before glibc 2.32: so a static program
 * without threads needs no such library, and there the other call is the same one of the system. */
#pragma weak pthread_sigmask

enum {
  MAX_PAUSE = 20000,  /* microseconds, before a lock is asked for again */
  MOST_LENT = 256,    /* descriptors, among which is one that has a lock from the start */
  MOST_REPLACED = 100 /* times that the log is another before its lock: then it counts as locked */
};

/* Remembers the process that opens the log, by a page that the system clears in a forked child: a
 * record makes no call of the system but its write. An emulator may answer any advice with 0. */
void remember_process(nlog_writer *w) {
  w->process = getpid();
#ifdef MADV_WIPEONFORK
  void *page = mmap(NULL, 1, PROT_READ | PROT_WRITE, MAP_PRIVATE | MAP_ANONYMOUS, -1, 0);
  if (page == MAP_FAILED) return;
  w->mark = (volatile char *)page;
  if (madvise(page, 1, MADV_WIPEONFORK) != 0 || madvise(page, 1, -1) == 0) forget_process(w);
  else *w->mark = 1;
#endif
}
void forget_process(nlog_writer *w) {
  if (w->mark != NULL) munmap((void *)w->mark, 1);
  w->mark = NULL;
}

bool is_forked(const nlog_writer *w) {
  return w->state != CLOSED && (w->mark != NULL ? *w->mark == 0 : w->process != getpid());
}

lock set_lock(int fd, bool is_locked) {
  int answer;
  AGAIN(answer, flock(fd, is_locked ? LOCK_EX | LOCK_NB : LOCK_UN));
  if (answer == 0) return TAKEN;
  if (errno == EWOULDBLOCK) return HELD;
  return errno == ENOLCK || is_lacking(errno) ? NO_LOCKS : LOCK_FAILED;
}

/* A forked child may have the descriptor too, and a lock is held until the last one is closed. */
void unlock_and_close(const nlog_writer *w, int *fd) {
  if (*fd >= 0 && !is_forked(w)) set_lock(*fd, false);
  close_at(fd);
}

bool is_one_file(const struct stat *one, const struct stat *two) {
  return one->st_dev == two->st_dev && one->st_ino == two->st_ino;
}

/* Whether the process has the lock already, as by `flock LOG COMMAND`: by a descriptor that whoever
 * started it left open. One that is close-on-exec is of a program's own. */
static bool has_lock(const nlog_writer *w) {
#ifdef __linux__
  char path[64], text[1024];
  struct stat log, about;
  if (fstat(w->log_fd, &log) != 0) return false;
  for (int fd = 0; fd < MOST_LENT; fd++) {
    const int flags = fcntl(fd, F_GETFD);
    if (flags < 0 || (flags & FD_CLOEXEC) != 0 || fstat(fd, &about) != 0) continue;
    if (!is_one_file(&about, &log)) continue;
    snprintf(path, sizeof path, "/proc/self/fdinfo/%d", fd);
    int file = open_off_streams(AT_FDCWD, path, O_RDONLY, 0);
    const ssize_t got = file < 0 ? 0 : read_whole(file, text, sizeof text - 1, 0);
    close_at(&file);
    text[got < 0 ? 0 : got] = 0;
    if (strstr(text, "FLOCK  ADVISORY  WRITE") != NULL) return true;
  }
#endif
  (void)w;
  return false;
}

static void mask_signals(int how, const sigset_t *set, sigset_t *before) {
  if (pthread_sigmask != NULL) pthread_sigmask(how, set, before);
  else sigprocmask(how, set, before);
}

/* Waits before a lock is asked for once more: a millisecond at first, and longer by and by, so that
 * of several that take turns none waits long. A signal ends the wait. All are kept back but within
 * its pauses, so that none is missed. `since`: when it waited first, or 0 before. */
static nlog_status wait_on(nlog_writer *w, uint64_t *since, sigset_t *before) {
  sigset_t set;
  struct timespec time;
  clock_gettime(CLOCK_MONOTONIC, &time);
  const uint64_t now = (uint64_t)time.tv_sec * 1000000 + (uint64_t)time.tv_nsec / 1000;
  if (*since == 0) {
    *since = now;
    sigfillset(&set);
    mask_signals(SIG_BLOCK, &set, before);
  }
  const uint64_t waited = now - *since, wait = (uint64_t)w->wait * 1000;
  const uint64_t rest = wait - LEAST(waited, wait), pause = LEAST(1000 + waited / 16, MAX_PAUSE);
  time.tv_sec = 0;
  time.tv_nsec = (long)LEAST(pause, rest) * 1000;
  bool is_ended = sigpending(&set) == 0 && (sigismember(&set, SIGINT) == 1 ||
      sigismember(&set, SIGTERM) == 1 || sigismember(&set, SIGHUP) == 1);
  if (rest > 0 && !is_ended) is_ended = ppoll(NULL, 0, &time, before) != 0 && errno == EINTR;
  if (rest > 0 && !is_ended) return NLOG_OK;
  fail(w, "flock", w->path, rest > 0 ? EINTR : EWOULDBLOCK);
  return NLOG_LOCKED;
}

/* Opens the log, and makes it where it is missing. One that may not be written is opened for
 * reading: what it holds is told before that it can't be changed. */
static nlog_status make_log(nlog_writer *w) {
  const int how = O_RDWR | O_APPEND | O_CREAT;
  int fd = open_off_streams(w->folder_fd, w->name, how, 0666);
  /* The folder may have been removed since it was opened, and another be there. */
  if (fd < 0 && errno == ENOENT) {
    if (open_folder(w) != NLOG_OK) return fail(w, "open", w->path, ENOENT);
    fd = open_off_streams(w->folder_fd, w->name, how, 0666);
  }
  const int error = fd < 0 ? errno : 0;
  w->denied = error == EACCES || error == EPERM || error == EROFS ? error : 0;
  if (w->denied != 0) fd = open_off_streams(w->folder_fd, w->name, O_RDONLY | O_NONBLOCK, 0);
  w->log_fd = fd;
  return fd >= 0 ? NLOG_OK : fail(w, "open", w->path, error);
}

/* What the log's name shows: 0, the file that was opened; -1, another; or the errno. */
int look(nlog_writer *w) {
  struct stat shown;
  if (fstatat(w->folder_fd, w->name, &shown, 0) != 0) return errno;
  if (!is_one_file(&shown, &w->about)) return -1;
  w->about = shown;
  return 0;
}

/* Asks once for the lock of the log, which is opened if it isn't. *other: as of a look then. */
static nlog_status try_lock(nlog_writer *w, bool is_open, lock *answer, int *other) {
  *other = 0;
  if (!is_open) TRY(make_log(w));
  /* What may only be read isn't locked: some file systems ask for the right to write for it. */
  *answer = w->denied != 0 ? NO_LOCKS : set_lock(w->log_fd, true);
  TRY(done(w, *answer != LOCK_FAILED, "flock", w->path));
  if (*answer == HELD && has_lock(w)) *answer = TAKEN;
  if (*answer == HELD) return NLOG_OK;
  if (!is_open) TRY(done(w, fstat(w->log_fd, &w->about) == 0, "fstat", w->path));
  if (is_open || *answer == TAKEN) *other = look(w);
  return *other > 0 && *other != ENOENT ? fail(w, "stat", w->path, *other) : NLOG_OK;
}

/* Takes the log's lock, for which it waits. *is_same: of the file that was open before. */
nlog_status lock_log(nlog_writer *w, bool *is_same) {
  sigset_t before;
  uint64_t since = 0;
  lock answer = HELD;
  int replaced = 0, other;
  nlog_status status;
  *is_same = w->log_fd >= 0;
  while ((status = try_lock(w, *is_same, &answer, &other)) == NLOG_OK) {
    if (answer != HELD && other == 0) break;
    if (answer != HELD) unlock_and_close(w, &w->log_fd);
    else if (!*is_same) close_at(&w->log_fd);
    *is_same = *is_same && answer == HELD;
    if (answer != HELD && replaced++ < MOST_REPLACED) continue;
    status = wait_on(w, &since, &before);
    if (status != NLOG_OK) break;
  }
  if (since != 0) mask_signals(SIG_SETMASK, &before, NULL);
  return status;
}
