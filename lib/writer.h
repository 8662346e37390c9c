/* What lib/writer.c, lib/lock.c and lib/file.c share: a writer, and what each has for the rest. */
#ifndef NLOG_WRITER_H
#define NLOG_WRITER_H

#if !defined(_GNU_SOURCE)
#define _GNU_SOURCE /* flock, and O_CLOEXEC, where a system hides them */
#endif
#define _FILE_OFFSET_BITS 64
#include "nlog.h"

#include <errno.h>
#include <fcntl.h>
#include <stdio.h>
#include <stdlib.h>
#include <string.h>
#include <sys/stat.h>
#include <sys/types.h>
#include <unistd.h>

/* The log is read, and a rewriting is written, in blocks of so many bytes, the last one aside. */
#define BLOCK 262144

/* The longest line of an entry less its name: two numbers of 11 bytes, one of 20, 16 digits of the
 * hash, four tabs and a newline. */
#define MAX_NUMBERS 63

/* The first line, "# ninja log v5" and its newline, and the digit of the version in it. */
#define FIRST_LINE 15
#define DIGIT_AT 13

/* How many bytes before the end of what was read tell whether the file begins as it did. */
#define LAST 1024

#define TRY(call)                       \
  do {                                  \
    nlog_status tried = (call);         \
    if (tried != NLOG_OK) return tried; \
  } while (0)

#define LEAST(one, two) ((one) < (two) ? (one) : (two))

/* Makes a call of the system, and again where a signal interrupted it. */
#define AGAIN(answer, call)                         \
  do {                                              \
    (answer) = (call);                              \
  } while ((answer) < 0 && errno == EINTR)

/* What makes a file the text, by the steps of `steps_of` in crates/nl_c/specs/Changes.antt. */
enum { KEEP, APPEND, CUT, REPLACE };

/* READ: open to read, before the first change. */
typedef enum state { CLOSED, READ, OPEN, BROKEN } state;

/* The file that was read, and what it was. */
typedef struct seen {
  int fd;              /* by which it was read, while the log is open to read and is there; or -1 */
  struct stat about;   /* before the read */
  uint64_t len, whole; /* how much was read, and up to and with the last newline */
  uint32_t change;     /* that makes it the text */
  char last[LAST];     /* the bytes before `len`, where there are so many, at its end */
  char first[DIGIT_AT + 22]; /* and a NUL, behind the longest number of a version that is told */
} seen;

struct nlog_writer {
  char *path, *scratch, *folder;   /* the last two are those of the path */
  const char *name, *scratch_name; /* in the folder */
  uint32_t version;                /* that was asked for */
  state state;
  pid_t process;       /* by which the log was opened */
  volatile char *mark; /* a byte of 1 in that process, and of 0 in its forked children; or NULL */
  nlog log;            /* the text and its table, which are proved */
  seen seen;
  uint64_t other_version; /* that the last refusal of another version was about, or 0 */
  uint64_t len;           /* of the file, which is that of the text while the log is open */
  struct stat about;      /* the log's file, by which it is known again, as it was last seen */
  int log_fd;    /* the descriptors, or -1: a locked one stays so until it is unlocked and closed */
  int other_fd;  /* the scratch; or behind a rename that isn't synced the file that was the log's */
  int folder_fd; /* by which each file is opened, looked at, renamed and removed */
  int denied;    /* the errno by which the log could be opened for reading alone, or 0 */
  bool is_pending;        /* something was recorded since the last sync */
  bool is_unsound;        /* a sync of the log failed, and no rewriting put another in its place */
  bool is_folder_unsound; /* a sync of the folder failed: for good */
  bool is_folder_closed;  /* the folder may be searched and not read, so it can't be synced */
  bool is_rewritten;      /* by the last open */
  bool is_shared;         /* the lock is held within calls alone, */
  bool is_held;           /* or from a hold to a release */
  bool is_apart;          /* the file isn't the text: it is read anew under the lock */
  uint32_t loose;         /* how many records had no lock */
  bool is_wary;           /* outputs that can't be trusted lose their entries */
  uint32_t wait;          /* for a lock, in milliseconds */
  char *buffer;           /* of `room` bytes: of an open log a block and the longest line */
  size_t room;
  int error; /* of the last call that failed, with its name and the path that it was about */
  const char *failed_call, *failed_path;
};

/* The proved calls of crates/nl_c/src/carried_exports.rt: of a log that is loaded in pieces, and of
 * one whose text its caller carries. */
nlog_status carried_more(nlog *log, const void *bytes, size_t len);
nlog_status carried_new(nlog *log);
nlog_status carried_open(nlog *log, nlog *found, bool wants_whole, uint32_t *change);
nlog_status carried_text(nlog *log, uint64_t from, void *bytes, size_t room, uint64_t *len);
nlog_status carried_header(nlog *log, void *bytes, size_t room);
nlog_status carried_line(nlog *log, size_t place, void *bytes, size_t room, size_t *len);
nlog_status carried_record(nlog *log, const char *name, size_t len, const nlog_entry *entry);
nlog_status carried_begin(nlog *log, const char *name, size_t len, int32_t moment, uint64_t hash);
nlog_status carried_plan(nlog *log, const char *name, size_t len, int32_t moment, uint64_t hash,
    bool anew, nlog_entry *before);
nlog_status carried_withdraw(nlog *log, const char *name, size_t len, const nlog_entry *before);
nlog_status carried_loose_line(nlog *log, const char *name, size_t len, const nlog_entry *entry,
    void *bytes, size_t room, size_t *used);
nlog_status carried_written(nlog *log, uint64_t len);
nlog_status carried_sync(nlog *log);
nlog_status carried_recompact(nlog *log);
nlog_status carried_restat(nlog *log, size_t *place);
nlog_status carried_close(nlog *log);
nlog_status carried_mark_dead(nlog *log, const char *name, size_t len);
nlog_status carried_mark_time(nlog *log, const char *name, size_t len, int64_t mtime);
nlog_status carried_clear_marks(nlog *log);

/* lib/nlog_secret.c */
nlog_status load_as(nlog *log, uint32_t version, const void *bytes, size_t len);

/* lib/nlog_reads.c */
void note_block(seen *seen, const char *bytes, size_t len);
char *read_all(int fd, struct stat *about, size_t *len, const char **call, int *error);
nlog_status load_blocks(nlog *log, uint32_t version, int fd, uint64_t end, char *block, seen *seen,
                        int *error);

/* lib/nlog_rights.c */
int keep_rights(int log, int scratch, char *room, struct stat *about, const char **call);

/* lib/file.c */
nlog_status fail(nlog_writer *w, const char *call, const char *path, int error);
nlog_status done(nlog_writer *w, bool is_done, const char *call, const char *path);
nlog_status of_text(nlog_writer *w, nlog_status status);
bool is_lacking(int error);
void close_at(int *fd);
int open_off_streams(int folder, const char *path, int how, mode_t mode);
ssize_t read_whole(int fd, char *bytes, size_t room, uint64_t at);
bool read_on(nlog_writer *w, uint64_t at, uint64_t end, size_t *used);
int ask_regular(int fd, struct stat *about);
size_t size_of(const struct stat *about);
nlog_status open_folder(nlog_writer *w);
nlog_status write_new(nlog_writer *w);
nlog_status sync_log(nlog_writer *w, bool has_folder);
nlog_status replace_log(nlog_writer *w, uint64_t own);
nlog_status carry_out(nlog_writer *w);

/* lib/writer.c */
nlog_status check_process(const nlog_writer *w);
nlog_status check(const nlog_writer *w);

/* lib/lock.c */
typedef enum lock { TAKEN, HELD, NO_LOCKS, LOCK_FAILED } lock;
void remember_process(nlog_writer *w);
void forget_process(nlog_writer *w);
bool is_forked(const nlog_writer *w);
lock set_lock(int fd, bool is_locked);
void unlock_and_close(const nlog_writer *w, int *fd);
bool is_one_file(const struct stat *one, const struct stat *two);
int look(nlog_writer *w);
nlog_status lock_log(nlog_writer *w, bool *is_same);

#endif
