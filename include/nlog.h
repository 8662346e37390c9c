/* nlog.h: Ninja's build log (.ninja_log, versions 4 to 7) for C and C++.
 * docs/LIBRARY.md has a whole program, and an example of each part.
 *
 * Part 1 reads logs that stand in memory, and part 2 writes a log on disk. The
 * page says what is proved of both.
 *
 * Three words: an output is distrusted if a damaged line may be about it, and
 *   no entry of it follows. A writer is wary if its open drops the entries of
 *   such outputs. A place is the number of an output, from 0, in the order in
 *   which the outputs first appear in the log.
 *
 * Status: each call answers one. No call prints, aborts, sets a signal's
 *   handler or has global state, but for two random numbers under which names
 *   are hashed. Unless a call says more, any status but NLOG_OK leaves the
 *   handle, and each thing that the call would have filled, as it was.
 * Pointers must not be NULL, except one to 0 bytes, an nlog_writer, or where a
 *   call allows it. What a call fills must not overlap anything else that is
 *   passed to it. Nothing that is passed is kept when the call returns. Only
 *   nlog_writer_failed_path and nlog_writer_failed_call hand out a pointer.
 * Memory: from malloc, freed by nlog_free and nlog_writer_free. If it gives
 *   none, the call answers NLOG_OUT_OF_MEMORY.
 * Threads: a call whose handle or writer is const only reads, and any number of
 *   these can run on one at once. Each other call must have it alone. Make no
 *   call in a signal handler, or in the forked child of a process with threads.
 * Fork: a child can go on with each handle and with each closed writer. A
 *   writer that is open, or broken, stays the parent's. In the child each call
 *   on it that has a status answers NLOG_FORKED, and does nothing.
 *   nlog_writer_free frees the child's part, and the parent's log stays locked.
 * Units: lengths are in bytes, start and end in milliseconds from the start of
 *   the build, and each mtime in nanoseconds since 1970. Names and commands are
 *   bytes, of no encoding, and end by their length. */
#ifndef NLOG_H
#define NLOG_H

#include <stdbool.h>
#include <stddef.h>
#include <stdint.h>

/* The version of this header: 1000000 times the first number, 1000 times the
 * second, and the third. nlog_version() is that of the library. */
#define NLOG_VERSION 2000

/* The longest name of an output. */
#define NLOG_MAX_NAME 65536

#ifdef __cplusplus
extern "C" {
#endif

typedef enum nlog_status {
  NLOG_OK = 0,
  NLOG_NO_HANDLE = 1,      /* the handle has no log, or the writer is NULL */
  NLOG_NOT_A_LOG = 2,      /* the bytes are no log */
  NLOG_OTHER_VERSION = 3,  /* a log of a version that isn't read, or that
                            * wasn't asked for */
  NLOG_OUT_OF_MEMORY = 4,
  NLOG_NOT_FOUND = 5,      /* no entry of this name, or at this place */
  NLOG_NO_ROOM = 6,        /* the buffer for the name is too short */
  /* of part 2 */
  NLOG_NOT_OPEN = 7,
  NLOG_ALREADY_OPEN = 8,
  NLOG_BROKEN = 9,         /* a change failed before: close, and open again,
                            * which repairs */
  NLOG_NEGATIVE_TIME = 10,
  NLOG_FAULT = 11,         /* a file couldn't be read, written or synced */
  NLOG_BAD_NAME = 12,      /* empty, longer than NLOG_MAX_NAME, or with a NUL,
                            * a tab or a newline */
  NLOG_LOCKED = 13,        /* another has had the log locked for as long as is
                            * waited, or until a signal came */
  NLOG_FORKED = 14,        /* this process's parent opened the writer's log */
  NLOG_STATUS_MAX = 0x7fffffff
} nlog_status;

/* The name of a status, as "NLOG_NOT_FOUND"; "NLOG_?" for a number that is
 * none. The library has this function too. */
static inline const char *nlog_status_name(nlog_status status) {
  switch (status) {
    case NLOG_OK: return "NLOG_OK";
    case NLOG_NO_HANDLE: return "NLOG_NO_HANDLE";
    case NLOG_NOT_A_LOG: return "NLOG_NOT_A_LOG";
    case NLOG_OTHER_VERSION: return "NLOG_OTHER_VERSION";
    case NLOG_OUT_OF_MEMORY: return "NLOG_OUT_OF_MEMORY";
    case NLOG_NOT_FOUND: return "NLOG_NOT_FOUND";
    case NLOG_NO_ROOM: return "NLOG_NO_ROOM";
    case NLOG_NOT_OPEN: return "NLOG_NOT_OPEN";
    case NLOG_ALREADY_OPEN: return "NLOG_ALREADY_OPEN";
    case NLOG_BROKEN: return "NLOG_BROKEN";
    case NLOG_NEGATIVE_TIME: return "NLOG_NEGATIVE_TIME";
    case NLOG_FAULT: return "NLOG_FAULT";
    case NLOG_BAD_NAME: return "NLOG_BAD_NAME";
    case NLOG_LOCKED: return "NLOG_LOCKED";
    case NLOG_FORKED: return "NLOG_FORKED";
    case NLOG_STATUS_MAX: break;
  }
  return "NLOG_?";
}

/* A status in words, as "out of memory": as much of it as there is room for,
 * and a NUL. The length of the whole text comes back. */
size_t nlog_status_text(nlog_status status, char *text, size_t room);

/* The version of the library. */
uint32_t nlog_version(void);

/* ---- Part 1: a log in memory ---- */

/* A log that was loaded, or none. The fields are the library's. A copy is not a
 * second handle: after either was passed to a call, the other is of no use. */
typedef struct nlog {
  uint64_t made;
  void *at;
} nlog;

/* A handle without a log. Memory of zeros is one too. */
#define NLOG_INIT {0, NULL}

/* What an entry has beside its name. The mtime is when the command started, by
 * the file system's clock, as in Ninja since 1.12 (1.11: the newest output's).
 * Take it before the command. */
typedef struct nlog_entry {
  int32_t start_ms;
  int32_t end_ms;
  int64_t mtime;
  uint64_t hash; /* of the command */
} nlog_entry;

/* What a load found, as `nlog check` has it. */
typedef struct nlog_facts {
  uint32_t version;  /* 4 to 7; 5 if the log is empty */
  bool is_due;       /* whether a writer should rewrite it: if it has version 4,
                      * or over 100 entry lines and over three an output */
  uint64_t total;    /* entry lines */
  uint64_t unique;   /* outputs */
  uint64_t skipped;  /* whole lines after the first that are no entries */
  uint64_t whole;    /* the bytes up to and with the last newline */
  uint64_t torn;     /* the bytes after it, of a line that a crash cut off */
} nlog_facts;

/* Loads the log that the bytes are. Time and memory grow with their length. The
 * handle then holds this log alone. No bytes are an empty log.
 * NLOG_NOT_A_LOG, NLOG_OTHER_VERSION, NLOG_OUT_OF_MEMORY: the handle holds what
 * it held. */
nlog_status nlog_load(nlog *log, const void *bytes, size_t len);

/* Frees the log, if there is one. The handle is then as NLOG_INIT. */
void nlog_free(nlog *log);

/* NLOG_NO_HANDLE of this call and the next three: the handle has no log. */
nlog_status nlog_get_facts(const nlog *log, nlog_facts *facts);

/* How many outputs there are. */
nlog_status nlog_count(const nlog *log, size_t *count);

/* The last entry of the output at a place. Its name is written into the buffer,
 * without a NUL, and the name's length into name_len. A buffer of NLOG_MAX_NAME
 * bytes is always enough.
 * NLOG_NO_ROOM: the entry and name_len are filled, the buffer is as it was.
 * NLOG_NOT_FOUND: there are no more than `place` outputs. */
nlog_status nlog_at(const nlog *log, size_t place, nlog_entry *entry,
    char *name, size_t room, size_t *name_len);

/* The last entry of an output. */
nlog_status nlog_find(const nlog *log, const char *name, size_t len,
    nlog_entry *entry);

/* Reads one line of a log of this version, without its newline: the entry and
 * its name, as nlog_at fills them.
 * NLOG_NOT_FOUND: the line is no entry. NLOG_NO_ROOM: as of nlog_at. */
nlog_status nlog_read_line(uint32_t version, const char *line, size_t len,
    nlog_entry *entry, char *name, size_t room, size_t *name_len);

/* What a line is that is no entry. */
typedef enum nlog_damage_kind {
  NLOG_SKIPPED = 0, /* a whole line that is no entry */
  NLOG_LONG = 1,    /* one of more than 262143 bytes, which isn't looked at */
  NLOG_TORN = 2,    /* the bytes after the last newline, of a line that a crash
                     * cut off */
  NLOG_DAMAGE_KIND_MAX = 0x7fffffff
} nlog_damage_kind;

/* A line that is no entry, as `nlog damage` has it. */
typedef struct nlog_damage {
  uint64_t number;       /* of the line, from 1. The first line is told only
                          * if it is torn. 0 before the first call */
  size_t from;           /* where it begins in the log's bytes */
  size_t len;            /* without the newline */
  nlog_damage_kind kind;
  size_t output_from;    /* where the output stands that its last five fields
                          * name, if they are an entry, as one that was written
                          * after a torn line */
  size_t output_len;     /* 0 if they are none, or the line is NLOG_LONG */
  size_t first_from;     /* the same of the output that plain Ninja takes the
                          * line for an entry of, between its tabs 3 and 4 */
  size_t first_len;
} nlog_damage;

#define NLOG_DAMAGE_INIT {0, 0, 0, NLOG_SKIPPED, 0, 0, 0, 0}

/* The next line that is no entry, after the one that `damage` holds, or the
 * first after NLOG_DAMAGE_INIT. The log is one that nlog_load takes, and
 * `version` that of nlog_get_facts. As many are told as nlog_facts.skipped
 * counts, and one more if there are torn bytes. It takes no memory.
 * NLOG_NOT_FOUND: there is no further one. */
nlog_status nlog_next_damage(uint32_t version, const void *bytes, size_t len,
    nlog_damage *damage);

/* Loads the log as nlog_load does, and keeps the entries of distrusted outputs
 * alone (docs/FORMAT.md, "Outputs that can't be trusted"). Make each again, as
 * if it had no entry. nlog_get_facts then has their number as `unique`, and its
 * `is_due` means nothing. Answered as nlog_load is. */
nlog_status nlog_load_distrusted(nlog *log, const void *bytes, size_t len);

/* The hash of a command in logs of version 5 and 6, and of version 7. */
uint64_t nlog_command_hash(const char *command, size_t len);
uint64_t nlog_command_hash_v7(const char *command, size_t len);

/* NLOG_OK if the bytes are a name that a log can hold, else NLOG_BAD_NAME. */
nlog_status nlog_check_name(const char *name, size_t len);

/* ---- Part 2: a log on disk, for POSIX with flock ---- */

/* A log at a path, which the writer opens, and keeps open and locked until the
 * close. A writer is in one of four states:
 *
 *     closed --nlog_writer_open--> open
 *     closed --nlog_writer_open_to_read--> open to read
 *     open to read --nlog_writer_open, or the first of record, record_edge,
 *       begin, sync, recompact, restat--> open
 *     open, or open to read in such a call --a call of the system fails-->
 *       broken
 *     open to read, open or broken --nlog_writer_close--> closed
 *
 * If a call of the system fails, the call here answers NLOG_FAULT, and
 * nlog_writer_errno says why. Each call that reads or changes the log then
 * answers NLOG_BROKEN until nlog_writer_close. The next nlog_writer_open
 * repairs the log. What a failed call was to change may be on disk in part, in
 * whole or not at all.
 *
 * Lock: flock on the log's file, as each `nlog` that changes a log takes it,
 *   and no Ninja does. If the file system has no locks, there is none. The
 *   close unlocks the log, even if a forked child lives on.
 * Signals: a call goes on if a signal interrupts it. But a wait for a lock ends
 *   if a handler runs in its thread, or if SIGINT, SIGTERM or SIGHUP is blocked
 *   and pending. It answers NLOG_LOCKED with EINTR, and can be made again.
 *   Block such a signal in all other threads. A process that limits the length
 *   of files (RLIMIT_FSIZE) must ignore SIGXFSZ.
 * Descriptors are close-on-exec, and no standard stream's.
 * Files: the scratch of a rewriting is the path with `.recompact` appended. A
 *   failure may leave it there, and the next rewriting removes it. A rewritten
 *   log is a new file, and replaces a symbolic link.
 * Syncs: first the log's folder is synced, if it can be, and then its file.
 * Others: let nobody else write, remove or replace the log while it is open,
 *   except writers that share it. Otherwise each sync, each close that syncs
 *   and each rewriting answers NLOG_FAULT, with ESTALE or ENOENT and "stat",
 *   and changes nothing. What was recorded since the last sync may be lost.
 * Memory: a log that is open, or open to read, takes its table, as nlog_load
 *   does, and a buffer of 327,743 bytes. An open takes no more, but a wary one
 *   of a damaged log also takes the log's bytes. Unless a call says more,
 *   NLOG_OUT_OF_MEMORY changed no file.
 * docs/LIBRARY.md has more on each of these.
 *
 * If the writer is NULL, every call but nlog_writer_new and nlog_writer_free
 * answers NLOG_NO_HANDLE, 0 or NULL. */
typedef struct nlog_writer nlog_writer;

/* A name by its bytes. */
typedef struct nlog_name {
  const char *bytes;
  size_t len;
} nlog_name;

/* Makes a closed writer of the log at a path, which is copied. No file is
 * touched. `version`: 5 (which takes 4 too), 6 or 7 is the version that the log
 * must have, and that a missing or empty log gets. 0 takes that of the log, and
 * 5 if it is missing or empty.
 * NLOG_OUT_OF_MEMORY, and NLOG_OTHER_VERSION of another number: *writer is
 * NULL. */
nlog_status nlog_writer_new(nlog_writer **writer, const char *path,
    uint32_t version);

/* Frees the writer, if there is one, and closes what is open without a sync.
 * *writer is then NULL. */
void nlog_writer_free(nlog_writer **writer);

/* Opens the log: locks it, makes it if it is missing, and reads it. The open
 * repairs it, and rewrites it if it is due, without what is marked dead.
 * NLOG_OK: all of that is on disk.
 * NLOG_ALREADY_OPEN, NLOG_BROKEN: nothing was done.
 * After any other status the writer is closed, and the log unlocked. After
 * NLOG_LOCKED, NLOG_NOT_A_LOG, NLOG_OTHER_VERSION and NLOG_OUT_OF_MEMORY the
 * log is as it was (made empty, if it was missing). An open that read the log
 * uses up each mark of a dead name that then has no entry.
 * After a failed sync of the log, this writer's next open rewrites the log.
 * After a failed sync of its folder, each later open answers NLOG_FAULT, with
 * EIO. */
nlog_status nlog_writer_open(nlog_writer *writer);

/* Opens the log to read it: reads it as it stands, and locks, writes and makes
 * no file. A log that is missing, or whose folder is, is an empty one. Calls
 * that read then answer as after nlog_writer_open, and marks of dead names are
 * used up as by it.
 * The first call that changes the log, or nlog_writer_open, locks it and does
 * what an open does. A log that is due is rewritten without what is marked dead
 * by then.
 * NLOG_OK: the log was read. A close is then answered NLOG_OK, and touches no
 * file.
 * Other statuses of this call: as of nlog_writer_open, and no file was touched.
 * Other statuses of the first change: NLOG_LOCKED and NLOG_BAD_NAME leave the
 * log open to read. Any other breaks the writer, or closes it if the call is
 * nlog_writer_open. */
nlog_status nlog_writer_open_to_read(nlog_writer *writer);

/* Whether the first change rewrites the log that is open to read: it is due, or
 * a wary writer dropped an entry. False if the log is open.
 * NLOG_NOT_OPEN, NLOG_BROKEN. */
nlog_status nlog_writer_is_due(const nlog_writer *writer, bool *is_due);

/* The number of the version that the last open, or a first change, refused;
 * UINT64_MAX if it is larger. 0 if none was refused, or if the number begins
 * with a 0. */
uint64_t nlog_writer_other_version(const nlog_writer *writer);

/* Whether the log is shared, which it isn't at first. Then the lock is held
 * within each call alone.
 * A call that changes the log takes in what others did. But a record of planned
 * names takes no lock: if another's rewriting loses it, their intents stand.
 * NLOG_OUT_OF_MEMORY breaks the writer if the log was read anew.
 * Calls that only read tell what the last call saw that had the lock.
 * NLOG_ALREADY_OPEN: the writer has to be closed; also of a broken one.
 * NLOG_LOCKED of a later call: nothing was done, the log is still open, and the
 * call can be made again. */
nlog_status nlog_writer_set_shared(nlog_writer *writer, bool is_shared);

/* A hold takes the lock of a shared log, and keeps it until the release or a
 * close, so that the calls between take none. Holds don't nest.
 * If the log isn't shared, both do nothing.
 * NLOG_LOCKED: nothing was done. */
nlog_status nlog_writer_hold(nlog_writer *writer);
nlog_status nlog_writer_release(nlog_writer *writer);

/* Whether the writer is wary, which it isn't at first. Then each open, also one
 * to read, drops the entries of distrusted outputs.
 * If there is such an output, the open rewrites the log, or the first change
 * does, without what is marked dead. So no kill brings a dropped entry back,
 * and no power cut does once the damaged line is on disk.
 * NLOG_ALREADY_OPEN: the writer has to be closed; also of a broken one. */
nlog_status nlog_writer_set_wary(nlog_writer *writer, bool is_wary);

/* How long a lock is waited for from now on, in milliseconds of
 * CLOCK_MONOTONIC: 10,000 at first. With 0 the lock is asked for once. */
nlog_status nlog_writer_set_wait(nlog_writer *writer, uint32_t milliseconds);

/* Whether the log is open, or open to read. */
nlog_status nlog_writer_is_open(const nlog_writer *writer, bool *is_open);

/* Whether the last open rewrote the log, also at the first change after an open
 * to read. NLOG_NOT_OPEN, NLOG_BROKEN. */
nlog_status nlog_writer_rewrote(const nlog_writer *writer, bool *rewrote);

/* The version of the log: 5, 6 or 7. The hash of each entry must be that of the
 * version. NLOG_NOT_OPEN, NLOG_BROKEN. */
nlog_status nlog_writer_version(const nlog_writer *writer, uint32_t *version);

/* Adds the entry of an output, by one write.
 * NLOG_OK: a load finds it, unless the power fails before the next
 * nlog_writer_sync.
 * NLOG_NOT_OPEN, NLOG_BROKEN, NLOG_BAD_NAME, NLOG_OUT_OF_MEMORY: nothing was
 * added. */
nlog_status nlog_writer_record(nlog_writer *writer, const char *name,
    size_t len, const nlog_entry *entry);

/* Adds one entry for each name, in order, by one write.
 * NLOG_NOT_OPEN, NLOG_BROKEN, NLOG_BAD_NAME: none is added.
 * NLOG_OUT_OF_MEMORY: those of the first names may be added. */
nlog_status nlog_writer_record_edge(nlog_writer *writer, const nlog_name *names,
    size_t count, const nlog_entry *entry);

/* Before a command of this hash runs: adds the intent (docs/FORMAT.md,
 * "Intents") of each of its outputs that has another entry. The moment is that
 * of now, as the start of an entry. One write adds them. If power may be lost,
 * call nlog_writer_sync afterwards.
 * Refused as nlog_writer_record_edge is. */
nlog_status nlog_writer_begin(nlog_writer *writer, const nlog_name *names,
    size_t count, int32_t moment_ms, uint64_t hash);

/* A name that a plan is about to make. */
typedef struct nlog_planned {
  nlog_name name;
  uint64_t hash;     /* of the command that will run */
  bool anew;         /* an intent also if the name has no entry */
  bool had, written; /* filled: it had an entry; an intent stands */
  nlog_entry before; /* filled: that entry */
} nlog_planned;

/* Before the first command of a plan runs: adds the intent of each name that
 * has an entry or is `anew`, and syncs. The moment is as of nlog_writer_begin.
 * One write adds them, or one for each 262,144 bytes. Plan a name once.
 * NLOG_OK: whatever comes, no name has the entry that it had.
 * NLOG_NOT_OPEN, NLOG_BROKEN, NLOG_BAD_NAME, NLOG_LOCKED: nothing was done.
 * Others: run no command. Intents that stand do no harm, and can be withdrawn
 * after NLOG_OUT_OF_MEMORY. */
nlog_status nlog_writer_begin_plan(nlog_writer *writer, nlog_planned *planned,
    size_t count, int32_t moment_ms);

/* Gives back their entries to names of a plan whose commands never began, by
 * writes as of nlog_writer_begin_plan, without a sync. It leaves out a name
 * that has another line since, and all if another rewrote the log.
 * *withdrawn: how many got theirs.
 * Refused as nlog_writer_record_edge is. */
nlog_status nlog_writer_withdraw(nlog_writer *writer,
    const nlog_planned *planned, size_t count, size_t *withdrawn);

/* As nlog_count, nlog_at and nlog_find, of the log, open or open to read, with
 * all that was recorded. NLOG_NOT_OPEN, NLOG_BROKEN. */
nlog_status nlog_writer_count(const nlog_writer *writer, size_t *count);
nlog_status nlog_writer_at(const nlog_writer *writer, size_t place,
    nlog_entry *entry, char *name, size_t room, size_t *name_len);
nlog_status nlog_writer_find(const nlog_writer *writer, const char *name,
    size_t len, nlog_entry *entry);

/* NLOG_OK: all that was recorded before is safe on disk.
 * NLOG_NOT_OPEN, NLOG_BROKEN. */
nlog_status nlog_writer_sync(nlog_writer *writer);

/* Rewrites the log with the last entry of each output that isn't marked dead.
 * Such marks are used up, also if a file fails.
 * NLOG_OK: it is on disk.
 * NLOG_NOT_OPEN, NLOG_BROKEN, NLOG_OUT_OF_MEMORY: the log wasn't changed. */
nlog_status nlog_writer_recompact(nlog_writer *writer);

/* Rewrites the log, and gives each output that is marked with a time this
 * mtime, unless its entry is an intent. Such marks are used up, also if a file
 * fails.
 * NLOG_OK: it is on disk.
 * NLOG_NEGATIVE_TIME: nothing was changed, and place is that of the first
 * negative one in the order of the marks. */
nlog_status nlog_writer_restat(nlog_writer *writer, size_t *place);

/* Marks an output as one that the next rewriting leaves out, in any state of
 * the writer.
 * NLOG_BAD_NAME, NLOG_OUT_OF_MEMORY: nothing was changed. */
nlog_status nlog_writer_mark_dead(nlog_writer *writer, const char *name,
    size_t len);

/* Marks an output with the mtime that the next nlog_writer_restat gives it. The
 * last mark of a name counts. Refused as nlog_writer_mark_dead is. */
nlog_status nlog_writer_mark_time(nlog_writer *writer, const char *name,
    size_t len, int64_t mtime);
nlog_status nlog_writer_clear_marks(nlog_writer *writer);

/* Syncs what was recorded, closes the log and unlocks it. The writer is closed
 * afterwards, unless the status is NLOG_LOCKED, and can be opened again. Marks
 * stay.
 * NLOG_OK: all that was recorded is on disk.
 * NLOG_LOCKED, of a log that is shared: nothing was done, and the close can be
 * made again.
 * NLOG_BROKEN: it was broken. NLOG_NOT_OPEN. */
nlog_status nlog_writer_close(nlog_writer *writer);

/* The last call of the system that failed since the last open began. These tell
 * its errno, the path that it was about, and its name, as "fsync". If none
 * failed, they are 0 and NULL. After NLOG_LOCKED the errno is EWOULDBLOCK, or
 * EINTR. The texts last until the next call on the writer. */
int nlog_writer_errno(const nlog_writer *writer);
const char *nlog_writer_failed_path(const nlog_writer *writer);
const char *nlog_writer_failed_call(const nlog_writer *writer);

/* Reads the file and loads it, as nlog_load. The file isn't locked, and nothing
 * is changed.
 * NLOG_FAULT: it couldn't be read, and *error is the errno. ENOENT: it is
 * missing. EISDIR, EINVAL: it is a folder, a pipe, a device or the like. After
 * any other status *error is as it was. */
nlog_status nlog_load_file(nlog *log, const char *path, int *error);

/* Reads the file once, and loads the log, and its distrusted outputs, as
 * nlog_load_distrusted. Unless it answers NLOG_OK, both handles hold what they
 * held. */
nlog_status nlog_load_file_distrusted(nlog *log, nlog *distrusted,
    const char *path, int *error);

#ifdef __cplusplus
}
#endif

#endif
