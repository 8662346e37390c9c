/* Calls each function of nlog.h as its words say, and prints what came of it: tests/clib.py compares that with what the format says.
 * It is C11 and C++17. */
#include "nlog.h"

#include <errno.h>
#include <fcntl.h>
#include <inttypes.h>
#include <signal.h>
#include <stdio.h>
#include <stdlib.h>
#include <string.h>
#include <sys/types.h>
#include <sys/wait.h>
#include <time.h>
#include <unistd.h>

#ifdef REFUSES
/* Linked with --wrap: memory is refused from the time on when nothing is left. */
#ifdef __cplusplus
extern "C" {
#endif
void *__real_malloc(size_t size);
void *__wrap_malloc(size_t size);
void *__real_realloc(void *block, size_t size);
void *__wrap_realloc(void *block, size_t size);
void *__real_calloc(size_t count, size_t size);
void *__wrap_calloc(size_t count, size_t size);
void __real_free(void *block);
void __wrap_free(void *block);
static long left = -1, blocks = 0, requests = 0;
static void *counted(void *block) {
  blocks += block != NULL;
  requests++;
  return block;
}
void *__wrap_malloc(size_t size) { return left >= 0 && left-- == 0 ? NULL : counted(__real_malloc(size)); }
void *__wrap_realloc(void *block, size_t size) {
  void *again = left >= 0 && left-- == 0 ? NULL : __real_realloc(block, size);
  requests++;
  blocks += block == NULL && again != NULL;
  return again;
}
void *__wrap_calloc(size_t count, size_t size) { return left >= 0 && left-- == 0 ? NULL : counted(__real_calloc(count, size)); }
void __wrap_free(void *block) {
  blocks -= block != NULL;
  __real_free(block);
}
#ifdef __cplusplus
}
#endif
#endif

#ifdef TIMELESS
/* Linked with --wrap: on a file system whose times tell nothing. */
#include <sys/stat.h>
int __real_fstat64(int fd, struct stat *about);
int __wrap_fstat64(int fd, struct stat *about);
int __real_fstatat64(int folder, const char *path, struct stat *about, int how);
int __wrap_fstatat64(int folder, const char *path, struct stat *about, int how);

static dev_t devices_more = 0; /* by so much the number of each file's device is raised */

static int without_times(int answer, struct stat *about) {
  about->st_dev += devices_more;
  memset(&about->st_mtim, 0, sizeof about->st_mtim);
  memset(&about->st_ctim, 0, sizeof about->st_ctim);
  return answer;
}

int __wrap_fstat64(int fd, struct stat *about) { return without_times(__real_fstat64(fd, about), about); }
int __wrap_fstatat64(int folder, const char *path, struct stat *about, int how) { return without_times(__real_fstatat64(folder, path, about, how), about); }
#endif

#ifdef RECORDS
/* Linked with --wrap: each call of the system about a file is written down, with the file that it is about, in the file of this process in the
 * folder NLOG_STEPS; each of the proved calls that says what was written or synced; and each call of the writer, with the log as it finds it and as
 * it leaves it, and what the library then holds: descriptors, pages and memory (tests/clib_steps.py). */
#include <stdarg.h>
#include <sys/file.h>
#include <sys/mman.h>
#include <sys/stat.h>
#ifdef __cplusplus
#error "the driver records its steps as C alone"
#endif
int __real_fsync(int fd);
int __wrap_fsync(int fd);
int __real_ftruncate64(int fd, int64_t len);
int __wrap_ftruncate64(int fd, int64_t len);
ssize_t __real_write(int fd, const void *bytes, size_t len);
ssize_t __wrap_write(int fd, const void *bytes, size_t len);
int __real_openat64(int folder, const char *path, int how, mode_t mode);
int __wrap_openat64(int folder, const char *path, int how, ...);
int __real_unlinkat(int folder, const char *path, int how);
int __wrap_unlinkat(int folder, const char *path, int how);
int __real_renameat(int from, const char *path, int to, const char *name);
int __wrap_renameat(int from, const char *path, int to, const char *name);
int __real_flock(int fd, int how);
int __wrap_flock(int fd, int how);
int __real_fchmod(int fd, mode_t mode);
int __wrap_fchmod(int fd, mode_t mode);
int __real_close(int fd);
int __wrap_close(int fd);
int __real_fstat64(int fd, struct stat *about);
int __wrap_fstat64(int fd, struct stat *about);
int __real_fstatat64(int folder, const char *path, struct stat *about, int how);
int __wrap_fstatat64(int folder, const char *path, struct stat *about, int how);
void *__real_mmap64(void *at, size_t len, int rights, int how, int fd, int64_t from);
void *__wrap_mmap64(void *at, size_t len, int rights, int how, int fd, int64_t from);
int __real_munmap(void *at, size_t len);
int __wrap_munmap(void *at, size_t len);
void *__real_malloc(size_t size);
void *__wrap_malloc(size_t size);
void *__real_calloc(size_t count, size_t size);
void *__wrap_calloc(size_t count, size_t size);
void __real_free(void *block);
void __wrap_free(void *block);
nlog_status __real_carried_written(nlog *log, uint64_t len);
nlog_status __wrap_carried_written(nlog *log, uint64_t len);
nlog_status __real_carried_sync(nlog *log);
nlog_status __wrap_carried_sync(nlog *log);

static FILE *steps = NULL;
static pid_t steps_of = 0;
static char file_is[256]; /* of a descriptor: `f` the folder, `l` the log, `r` one that is read alone, `s` the scratch, `o` the log before a rename */
static char is_locked[256];
static int pages = 0, blocks = 0;

static char kind_of(int fd) { return fd >= 0 && fd < 256 && file_is[fd] != 0 ? file_is[fd] : '-'; }

static void note_step(const char *what, char kind, int64_t number, const void *bytes, bool is_done) {
  int error = errno;
  if (steps != NULL && getpid() == steps_of) {
    fprintf(steps, "%s %c %" PRId64 " %d %zu\n", what, kind, number, is_done, bytes == NULL ? (size_t)0 : (size_t)number);
    if (bytes != NULL) fwrite(bytes, 1, (size_t)number, steps);
    fflush(steps);
  }
  errno = error;
}

int __wrap_fsync(int fd) {
  int answer = __real_fsync(fd);
  note_step("sync", kind_of(fd), 0, NULL, answer == 0);
  return answer;
}

int __wrap_ftruncate64(int fd, int64_t len) {
  int answer = __real_ftruncate64(fd, len);
  note_step("cut", kind_of(fd), len, NULL, answer == 0);
  return answer;
}

ssize_t __wrap_write(int fd, const void *bytes, size_t len) {
  ssize_t count = __real_write(fd, bytes, len);
  if (kind_of(fd) != '-') note_step("write", kind_of(fd), count < 0 ? 0 : count, bytes, count >= 0);
  return count;
}

int __wrap_openat64(int folder, const char *path, int how, ...) {
  size_t len = strlen(path);
  va_list rest;
  mode_t mode;
  int fd;
  va_start(rest, how);
  mode = va_arg(rest, mode_t);
  va_end(rest);
  fd = __real_openat64(folder, path, how, mode);
  if (fd >= 0 && fd < 256) {
    file_is[fd] = (how & O_DIRECTORY) != 0 ? 'f' : len > 10 && strcmp(path + len - 10, ".recompact") == 0 ? 's' : folder == AT_FDCWD ? 0 : (how & O_ACCMODE) == O_RDONLY ? 'r' : 'l';
    is_locked[fd] = 0;
  }
  if ((how & O_EXCL) != 0) note_step("make", kind_of(fd), (int64_t)mode, NULL, fd >= 0);
  return fd;
}

int __wrap_unlinkat(int folder, const char *path, int how) {
  int answer = __real_unlinkat(folder, path, how);
  note_step("unlink", '-', 0, NULL, answer == 0 || errno == ENOENT);
  return answer;
}

int __wrap_renameat(int from, const char *path, int to, const char *name) {
  int answer = __real_renameat(from, path, to, name), fd;
  for (fd = 0; fd < 256 && answer == 0; fd++) {
    if (file_is[fd] == 'l') file_is[fd] = 'o';
    if (file_is[fd] == 's') file_is[fd] = 'l';
  }
  note_step("rename", '-', 0, NULL, answer == 0);
  return answer;
}

int __wrap_flock(int fd, int how) {
  int answer = __real_flock(fd, how);
  if (kind_of(fd) != '-' && answer == 0) is_locked[fd] = (how & LOCK_UN) == 0;
  note_step((how & LOCK_UN) != 0 ? "unlock" : "lock", kind_of(fd), 0, NULL, answer == 0);
  return answer;
}

int __wrap_fchmod(int fd, mode_t mode) {
  int answer = __real_fchmod(fd, mode);
  note_step("mode", kind_of(fd), (int64_t)mode, NULL, answer == 0);
  return answer;
}

int __wrap_close(int fd) {
  int answer;
  if (kind_of(fd) != '-') {
    note_step("close", kind_of(fd), is_locked[fd], NULL, true);
    file_is[fd] = is_locked[fd] = 0;
  }
  answer = __real_close(fd);
  return answer;
}

int __wrap_fstat64(int fd, struct stat *about) {
  int answer = __real_fstat64(fd, about);
  if (kind_of(fd) != '-') note_step("ask", kind_of(fd), 0, NULL, answer == 0);
  return answer;
}

int __wrap_fstatat64(int folder, const char *path, struct stat *about, int how) {
  int answer = __real_fstatat64(folder, path, about, how);
  if ((how & AT_SYMLINK_NOFOLLOW) == 0) note_step("look", '-', answer == 0 ? about->st_size : 0, NULL, answer == 0);
  return answer;
}

void *__wrap_mmap64(void *at, size_t len, int rights, int how, int fd, int64_t from) {
  void *page = __real_mmap64(at, len, rights, how, fd, from);
  if (page != MAP_FAILED) pages++;
  return page;
}

int __wrap_munmap(void *at, size_t len) {
  int answer = __real_munmap(at, len);
  if (answer == 0) pages--;
  return answer;
}

void *__wrap_malloc(size_t size) {
  void *block = __real_malloc(size);
  if (block != NULL) blocks++;
  return block;
}

void *__wrap_calloc(size_t count, size_t size) {
  void *block = __real_calloc(count, size);
  if (block != NULL) blocks++;
  return block;
}

void __wrap_free(void *block) {
  if (block != NULL) blocks--;
  __real_free(block);
}

nlog_status __wrap_carried_written(nlog *log, uint64_t len) {
  nlog_status status = __real_carried_written(log, len);
  note_step("written", '-', (int64_t)len, NULL, status == NLOG_OK);
  return status;
}

nlog_status __wrap_carried_sync(nlog *log) {
  nlog_status status = __real_carried_sync(log);
  note_step("synced", '-', 0, NULL, status == NLOG_OK);
  return status;
}

/* What the library holds: of each descriptor of its files the kind, whether it is locked, and whether it is close-on-exec; pages, and blocks of
 * memory. */
static void note_held(void) {
  char text[4096];
  int fd, used = 0;
  for (fd = 0; fd < 256; fd++) {
    int flags = fcntl(fd, F_GETFD);
    if (file_is[fd] == 0 || flags < 0) continue;
    used += snprintf(text + used, sizeof text - (size_t)used, "%c%d%d ", file_is[fd], is_locked[fd], (flags & FD_CLOEXEC) != 0);
  }
  note_step("held", '-', used, text, true);
  note_step("pages", '-', pages, NULL, true);
  note_step("blocks", '-', blocks, NULL, true);
}

static void note_log(const char *what, const char *word, const char *log) {
  struct stat about;
  FILE *file;
  char *bytes = NULL;
  size_t len = 0;
  int error = errno;
  if (steps == NULL) return;
  if (strcmp(what, "call") != 0) note_held();
  file = stat(log, &about) == 0 && S_ISREG(about.st_mode) ? fopen(log, "rb") : NULL;
  if (file != NULL) {
    bytes = (char *)malloc((size_t)about.st_size + 1);
    if (bytes != NULL) len = fread(bytes, 1, (size_t)about.st_size, file);
  }
  fprintf(steps, "%s %s %d 1 %zu\n", what, word, bytes != NULL, len);
  if (len > 0) fwrite(bytes, 1, len, steps);
  fflush(steps);
  free(bytes);
  if (file != NULL) fclose(file);
  errno = error;
}

static void begin_steps(const char *log, uint32_t version) {
  char path[4096], word[16];
  const char *folder = getenv("NLOG_STEPS");
  if (folder == NULL) return;
  steps_of = getpid();
  snprintf(path, sizeof path, "%s/%d", folder, (int)steps_of);
  steps = fopen(path, "ab");
  snprintf(word, sizeof word, "%u", (unsigned int)version);
  if (steps != NULL) setvbuf(steps, NULL, _IOFBF, 1 << 16);
  note_log("run", word, log);
}
#define NOTE_LOG(what, word, log) note_log(what, word, log)
#define BEGIN_STEPS(log, version) begin_steps(log, version)
#define END_STEPS() (steps != NULL ? fclose(steps) : 0)
#else
#define NOTE_LOG(what, word, log) ((void)0)
#define BEGIN_STEPS(log, version) ((void)0)
#define END_STEPS() ((void)0)
#endif

static int wrong = 0;

/* How many descriptors are open. */
static int descriptors(void) {
  int fd, count = 0;
  for (fd = 0; fd < 256; fd++)
    if (fcntl(fd, F_GETFD) >= 0) count++;
  return count;
}

#define WANT(is_good)                                                       \
  do {                                                                      \
    if (!(is_good)) {                                                       \
      printf("wrong: line %d: %s\n", __LINE__, #is_good);                   \
      wrong = 1;                                                            \
    }                                                                       \
  } while (0)

static char *file_of(const char *path, size_t *len) {
  FILE *file = fopen(path, "rb");
  char *bytes;
  long size;
  if (file == NULL || fseek(file, 0, SEEK_END) != 0 || (size = ftell(file)) < 0) exit(3);
  rewind(file);
  *len = (size_t)size;
  bytes = (char *)malloc(*len + (*len == 0));
  if (bytes == NULL || fread(bytes, 1, *len, file) != *len) exit(3);
  fclose(file);
  return bytes;
}

static void show(const nlog_entry *entry, const char *name, size_t len) {
  printf("%" PRId32 "\t%" PRId32 "\t%" PRId64 "\t", entry->start_ms, entry->end_ms, entry->mtime);
  fwrite(name, 1, len, stdout);
  printf("\t%" PRIx64 "\n", entry->hash);
}

/* Loads the file, and prints its facts, each entry, and what a look-up of each name of the table and of each word gives. */
static void read_log(int count, char **words) {
  nlog log = NLOG_INIT;
  nlog_facts facts;
  nlog_entry entry, again;
  size_t len, outputs, place, name_len;
  char *bytes = file_of(words[0], &len), *name = (char *)malloc(NLOG_MAX_NAME);
  nlog_status status = nlog_load(&log, bytes, len);
  free(bytes);
  printf("%s\n", nlog_status_name(status));
  if (status == NLOG_OK) {
    WANT(nlog_get_facts(&log, &facts) == NLOG_OK);
    printf("%" PRIu32 " %" PRIu64 " %" PRIu64 " %" PRIu64 " %" PRIu64 " %" PRIu64 " %s\n", facts.version, facts.total, facts.unique, facts.skipped,
           facts.whole, facts.torn, facts.is_due ? "yes" : "no");
    WANT(nlog_count(&log, &outputs) == NLOG_OK && outputs == facts.unique);
    for (place = 0; place < outputs; place++) {
      WANT(nlog_at(&log, place, &entry, name, NLOG_MAX_NAME, &name_len) == NLOG_OK);
      show(&entry, name, name_len);
      WANT(nlog_find(&log, name, name_len, &again) == NLOG_OK && again.start_ms == entry.start_ms && again.end_ms == entry.end_ms &&
           again.mtime == entry.mtime && again.hash == entry.hash);
    }
    WANT(nlog_at(&log, outputs, &entry, name, NLOG_MAX_NAME, &name_len) == NLOG_NOT_FOUND);
    for (; count > 1; count--) {
      status = nlog_find(&log, words[count - 1], strlen(words[count - 1]), &entry);
      printf("%s %s", words[count - 1], nlog_status_name(status));
      if (status == NLOG_OK) printf(" %" PRId64, entry.mtime);
      printf("\n");
    }
  }
  nlog_free(&log);
  free(name);
}

/* Reads the line that the file is. */
static void read_line(uint32_t version, const char *path) {
  static char name[NLOG_MAX_NAME];
  nlog_entry entry;
  size_t len, name_len = 0;
  char *line = file_of(path, &len);
  nlog_status status = nlog_read_line(version, line, len, &entry, name, sizeof name, &name_len);
  printf("%s", nlog_status_name(status));
  if (status == NLOG_OK) {
    printf(" ");
    show(&entry, name, name_len);
    WANT(nlog_read_line(version, line, len, &entry, NULL, 0, &name_len) == NLOG_NO_ROOM && name_len > 0);
  } else {
    printf("\n");
  }
  free(line);
}

/* Tells the entries of the file's outputs that can't be trusted, from its bytes and from the file. */
static void tell_distrusted(const char *path) {
  nlog log = NLOG_INIT, found = NLOG_INIT, again = NLOG_INIT;
  nlog_entry entry;
  nlog_facts facts;
  size_t len, count, place, name_len;
  int error = 77;
  char *bytes = file_of(path, &len), *name = (char *)malloc(NLOG_MAX_NAME);
  nlog_status status = nlog_load_distrusted(&found, bytes, len);
  WANT(nlog_load_file_distrusted(&log, &again, path, &error) == status && error == 77);
  if (status == NLOG_OK) {
    WANT(nlog_count(&found, &count) == NLOG_OK && nlog_get_facts(&found, &facts) == NLOG_OK && facts.unique == count);
    for (place = 0; place < count; place++) {
      WANT(nlog_at(&found, place, &entry, name, NLOG_MAX_NAME, &name_len) == NLOG_OK);
      show(&entry, name, name_len);
      WANT(nlog_find(&log, name, name_len, &entry) == NLOG_OK && nlog_find(&again, name, name_len, &entry) == NLOG_OK);
    }
    WANT(nlog_count(&again, &place) == NLOG_OK && place == count);
    WANT(nlog_load(&found, bytes, len) == NLOG_OK && nlog_count(&found, &count) == NLOG_OK && nlog_count(&log, &place) == NLOG_OK && place == count);
  } else {
    printf("%s\n", nlog_status_name(status));
    WANT(nlog_count(&log, &count) == NLOG_NO_HANDLE && nlog_count(&again, &count) == NLOG_NO_HANDLE && nlog_count(&found, &count) == NLOG_NO_HANDLE);
  }
  free(bytes);
  free(name);
  nlog_free(&log);
  nlog_free(&found);
  nlog_free(&again);
}

/* Tells the damage of the log that the file is, as `nlog damage` does. */
static void tell_damage(const char *path) {
  static const char *const kinds[] = {"skipped", "long", "torn"};
  nlog_damage damage = NLOG_DAMAGE_INIT, before;
  nlog log = NLOG_INIT;
  nlog_facts facts;
  nlog_status status;
  uint64_t told = 0;
  size_t len;
  char *bytes = file_of(path, &len);
  status = nlog_load(&log, bytes, len);
  if (status == NLOG_OK) {
    WANT(nlog_get_facts(&log, &facts) == NLOG_OK);
    while (nlog_next_damage(facts.version, bytes, len, &damage) == NLOG_OK) {
      const char *output = damage.output_len > 0 ? bytes + damage.output_from : "-";
      const char *first = damage.first_len > 0 ? bytes + damage.first_from : "-";
      printf("%" PRIu64 "\t%s\t%zu\t", damage.number, kinds[damage.kind], damage.len);
      fwrite(output, 1, damage.output_len > 0 ? damage.output_len : 1, stdout);
      printf("\t");
      fwrite(first, 1, damage.first_len > 0 ? damage.first_len : 1, stdout);
      printf("\n");
      told += 1;
      memcpy(&before, &damage, sizeof damage);
    }
    WANT(told == facts.skipped + (facts.torn > 0));
    WANT(told == 0 ? damage.number == 0 : memcmp(&before, &damage, sizeof damage) == 0);
  } else {
    printf("%s\n", nlog_status_name(status));
  }
  nlog_free(&log);
  free(bytes);
}

static const char GOOD[] = "# ninja log v5\n1\t2\t3\tone\taa\n4\t5\t6\ttwo\tbb\n";

/* Each call of a handle without a log: its status, and that nothing is filled. */
static void without_a_log(nlog *log) {
  nlog_facts facts, facts_before;
  nlog_entry entry, before;
  size_t count = 77, name_len = 88;
  char name[4] = {'a', 'b', 'c', 'd'};
  memset(&facts, 0x55, sizeof facts);
  memset(&entry, 0x55, sizeof entry);
  memcpy(&facts_before, &facts, sizeof facts);
  memcpy(&before, &entry, sizeof entry);
  WANT(nlog_get_facts(log, &facts) == NLOG_NO_HANDLE);
  WANT(nlog_count(log, &count) == NLOG_NO_HANDLE);
  WANT(nlog_at(log, 0, &entry, name, sizeof name, &name_len) == NLOG_NO_HANDLE);
  WANT(nlog_find(log, "one", 3, &entry) == NLOG_NO_HANDLE);
  WANT(memcmp(&facts, &facts_before, sizeof facts) == 0 && memcmp(&entry, &before, sizeof entry) == 0);
  WANT(count == 77 && name_len == 88 && memcmp(name, "abcd", 4) == 0);
}

static void without_a_writer(void) {
  nlog_entry entry = {1, 2, 3, 4};
  nlog_name name = {"a", 1};
  nlog_writer *none = NULL;
  uint32_t number = 66;
  size_t count = 77, name_len = 88;
  bool is = true;
  char bytes[4] = {'a', 'b', 'c', 'd'};
  WANT(nlog_writer_open_to_read(none) == NLOG_NO_HANDLE && nlog_writer_is_due(none, &is) == NLOG_NO_HANDLE && nlog_writer_other_version(none) == 0);
  WANT(nlog_writer_open(none) == NLOG_NO_HANDLE && nlog_writer_close(none) == NLOG_NO_HANDLE && nlog_writer_sync(none) == NLOG_NO_HANDLE);
  WANT(nlog_writer_is_open(none, &is) == NLOG_NO_HANDLE && nlog_writer_rewrote(none, &is) == NLOG_NO_HANDLE && is);
  WANT(nlog_writer_version(none, &number) == NLOG_NO_HANDLE && number == 66);
  WANT(nlog_writer_record(none, "a", 1, &entry) == NLOG_NO_HANDLE && nlog_writer_record_edge(none, &name, 1, &entry) == NLOG_NO_HANDLE);
  WANT(nlog_writer_begin(none, &name, 1, 7, 8) == NLOG_NO_HANDLE);
  WANT(nlog_writer_count(none, &count) == NLOG_NO_HANDLE && nlog_writer_find(none, "a", 1, &entry) == NLOG_NO_HANDLE);
  WANT(nlog_writer_at(none, 0, &entry, bytes, sizeof bytes, &name_len) == NLOG_NO_HANDLE);
  WANT(count == 77 && name_len == 88 && entry.hash == 4 && memcmp(bytes, "abcd", 4) == 0);
  WANT(nlog_writer_recompact(none) == NLOG_NO_HANDLE && nlog_writer_restat(none, &count) == NLOG_NO_HANDLE && count == 77);
  WANT(nlog_writer_mark_dead(none, "a", 1) == NLOG_NO_HANDLE && nlog_writer_mark_time(none, "a", 1, 5) == NLOG_NO_HANDLE);
  WANT(nlog_writer_clear_marks(none) == NLOG_NO_HANDLE && nlog_writer_set_wait(none, 0) == NLOG_NO_HANDLE);
  WANT(nlog_writer_hold(none) == NLOG_NO_HANDLE && nlog_writer_release(none) == NLOG_NO_HANDLE);
  WANT(nlog_writer_errno(none) == 0 && nlog_writer_failed_path(none) == NULL && nlog_writer_failed_call(none) == NULL);
  nlog_writer_free(&none);
  WANT(none == NULL);
}

static void misuse(void) {
  nlog log = NLOG_INIT, zeros;
  nlog_entry entry, before;
  nlog_facts facts;
  size_t count = 0, name_len = 0;
  char name[8], text[64];
  memset(&zeros, 0, sizeof zeros);
  without_a_log(&zeros);
  without_a_writer();
  nlog_free(&zeros);
  nlog_free(&zeros);
  without_a_log(&log);
  /* A load that is refused leaves a handle without a log so. */
  WANT(nlog_load(&log, "hello\n", 6) == NLOG_NOT_A_LOG);
  without_a_log(&log);
  WANT(nlog_load(&log, GOOD, sizeof GOOD - 1) == NLOG_OK);
  WANT(nlog_count(&log, &count) == NLOG_OK && count == 2);
  /* And one with a log too. */
  WANT(nlog_load(&log, "hello\n", 6) == NLOG_NOT_A_LOG);
  WANT(nlog_load(&log, "# ninja log v9\n", 15) == NLOG_OTHER_VERSION);
  WANT(nlog_find(&log, "two", 3, &entry) == NLOG_OK && entry.start_ms == 4 && entry.end_ms == 5 && entry.mtime == 6 && entry.hash == 0xbb);
  /* Names that aren't there, the empty one included: the entry is as it was. */
  memcpy(&before, &entry, sizeof entry);
  WANT(nlog_find(&log, "tw", 2, &entry) == NLOG_NOT_FOUND && nlog_find(&log, "twos", 4, &entry) == NLOG_NOT_FOUND);
  WANT(nlog_find(&log, "", 0, &entry) == NLOG_NOT_FOUND && nlog_find(&log, NULL, 0, &entry) == NLOG_NOT_FOUND);
  name_len = 9;
  memcpy(name, "........", 8);
  WANT(nlog_at(&log, 2, &entry, name, 8, &name_len) == NLOG_NOT_FOUND && nlog_at(&log, SIZE_MAX, &entry, name, 8, &name_len) == NLOG_NOT_FOUND);
  WANT(name_len == 9 && memcmp(name, "........", 8) == 0 && memcmp(&entry, &before, sizeof entry) == 0);
  /* A buffer that is one byte too short, none, one that is just enough, one with more. */
  WANT(nlog_at(&log, 0, &entry, name, 2, &name_len) == NLOG_NO_ROOM && name_len == 3 && entry.hash == 0xaa && memcmp(name, "........", 8) == 0);
  WANT(nlog_at(&log, 0, &entry, NULL, 0, &name_len) == NLOG_NO_ROOM && name_len == 3);
  WANT(nlog_at(&log, 0, &entry, name, 3, &name_len) == NLOG_OK && name_len == 3 && memcmp(name, "one.....", 8) == 0);
  WANT(nlog_at(&log, 1, &entry, name, 8, &name_len) == NLOG_OK && name_len == 3 && memcmp(name, "two.....", 8) == 0);
  /* Another log in its place, which is empty; then freed twice. */
  WANT(nlog_load(&log, NULL, 0) == NLOG_OK);
  WANT(nlog_get_facts(&log, &facts) == NLOG_OK && facts.version == 5 && facts.total == 0 && facts.unique == 0 && !facts.is_due);
  nlog_free(&log);
  without_a_log(&log);
  nlog_free(&log);
  WANT(nlog_load(&log, GOOD, sizeof GOOD - 1) == NLOG_OK);
  nlog_free(&log);
  /* Versions, names and texts. */
  WANT(nlog_version() == NLOG_VERSION);
  WANT(strcmp(nlog_status_name(NLOG_LOCKED), "NLOG_LOCKED") == 0 && strcmp(nlog_status_name((nlog_status)99), "NLOG_?") == 0);
  memset(text, '.', sizeof text);
  WANT(nlog_status_text(NLOG_NOT_A_LOG, text, sizeof text) == 15 && memcmp(text, "not a ninja log\0..", 18) == 0);
  memset(text, '.', sizeof text);
  WANT(nlog_status_text(NLOG_OUT_OF_MEMORY, text, 4) == 13 && memcmp(text, "out\0..", 6) == 0);
  WANT(nlog_status_text(NLOG_OK, text, 3) == 2 && memcmp(text, "ok\0", 3) == 0 && nlog_status_text(NLOG_OK, text, 2) == 2 && memcmp(text, "o\0", 2) == 0);
  memset(text, '.', sizeof text);
  WANT(nlog_status_text(NLOG_OK, text, 1) == 2 && memcmp(text, "\0.", 2) == 0 && nlog_status_text(NLOG_OK, NULL, 0) == 2);
  WANT(nlog_status_text(NLOG_FORKED, text, sizeof text) == 33 && strcmp(text, "the parent process opened the log") == 0);
  WANT(nlog_status_text((nlog_status)99, text, sizeof text) == 14 && strcmp(text, "unknown status") == 0);
  printf("done\n");
}

/* Loads a log, and records so many entries of one output to it: how many outputs it has. */
static void load_and_record(const char *path, int count) {
  nlog log = NLOG_INIT;
  nlog_writer *writer = NULL;
  nlog_entry entry = {0, 0, 0, 0xaa};
  size_t len, outputs = 0;
  int i;
  char *bytes = file_of(path, &len);
  WANT(nlog_load(&log, bytes, len) == NLOG_OK && nlog_count(&log, &outputs) == NLOG_OK);
  printf("%zu\n", outputs);
  if (count > 0) {
    WANT(nlog_writer_new(&writer, path, 0) == NLOG_OK && nlog_writer_open(writer) == NLOG_OK);
    for (i = 0; i < count; i++) {
      entry.start_ms = entry.end_ms = i;
      WANT(nlog_writer_record(writer, "more", 4, &entry) == NLOG_OK);
    }
    WANT(nlog_writer_find(writer, "more", 4, &entry) == NLOG_OK && entry.start_ms == count - 1);
    WANT(nlog_writer_count(writer, &len) == NLOG_OK && len == outputs + 1 && nlog_writer_close(writer) == NLOG_OK);
  }
  nlog_writer_free(&writer);
  nlog_free(&log);
  free(bytes);
}

#ifdef REFUSES
/* Refuses memory at each place of a load in turn, with and without a log in the handle. */
static void refuse(const char *path) {
  size_t len, count;
  char *bytes = file_of(path, &len);
  nlog_status status;
  long at, refused = 0;
  int is_held;
  for (is_held = 0; is_held < 2; is_held++) {
    for (at = 0;; at++) {
      nlog log = NLOG_INIT;
      if (is_held) WANT(nlog_load(&log, GOOD, sizeof GOOD - 1) == NLOG_OK);
      left = at;
      status = nlog_load(&log, bytes, len);
      left = -1;
      if (status == NLOG_OK) {
        nlog_free(&log);
        break;
      }
      refused++;
      WANT(status == NLOG_OUT_OF_MEMORY);
      if (is_held) WANT(nlog_count(&log, &count) == NLOG_OK && count == 2);
      else without_a_log(&log);
      nlog_free(&log);
    }
  }
  /* The same of a file, with what can't be trusted of it: no block of memory is left where it is refused. */
  for (at = 0;; at++) {
    nlog log = NLOG_INIT, distrusted = NLOG_INIT;
    const long before = blocks;
    int error = 77;
    left = at;
    status = nlog_load_file_distrusted(&log, &distrusted, path, &error);
    left = -1;
    if (status != NLOG_OK) {
      WANT(status == NLOG_OUT_OF_MEMORY && error == 77 && blocks == before);
      without_a_log(&distrusted);
      refused++;
    } else {
      /* What the handles held is freed where they get another log. */
      WANT(nlog_load_file_distrusted(&log, &distrusted, path, &error) == NLOG_OK && nlog_load_file(&log, path, &error) == NLOG_OK);
    }
    nlog_free(&log);
    nlog_free(&distrusted);
    WANT(blocks == before);
    if (status == NLOG_OK) break;
  }
  free(bytes);
  printf("%s\n", refused > 16 ? "done" : "memory was hardly refused");
}
#endif

/* ---- Lines that ask for calls ---- */

static size_t unhex(const char *text, char *to) {
  size_t len = 0;
  unsigned int byte;
  for (; text[0] != 0 && text[1] != 0 && sscanf(text, "%2x", &byte) == 1; text += 2) to[len++] = (char)byte;
  return len;
}

/* What a line asks for: its first word, and what stands behind it. Names are in hexadecimal digits, `-` for none. */
typedef struct request {
  const char *word;
  nlog_entry entry;
  nlog_name names[1000];
  int64_t times[1000];
  size_t count;
  uint64_t number;
} request;

static bool next_request(request *to) {
  static char line[2000000], bytes[900000], *words[2000];
  size_t count = 0, used = 0, i = 1;
  char *word;
  bool has_entry, has_times;
  if (fgets(line, sizeof line, stdin) == NULL) return false;
  for (word = strtok(line, " \n"); word != NULL && count < 2000; word = strtok(NULL, " \n")) words[count++] = word;
  memset(to, 0, sizeof *to);
  to->word = count > 0 ? words[0] : "-";
  has_entry = strcmp(to->word, "record") == 0 || strcmp(to->word, "edge") == 0 || strcmp(to->word, "begin") == 0 || strcmp(to->word, "plan") == 0;
  has_times = strcmp(to->word, "time") == 0;
  if (has_entry && count >= 5) {
    to->entry.start_ms = (int32_t)strtol(words[1], NULL, 10);
    to->entry.end_ms = (int32_t)strtol(words[2], NULL, 10);
    to->entry.mtime = strtoll(words[3], NULL, 10);
    to->entry.hash = strtoull(words[4], NULL, 16);
    i = 5;
  } else if (count > 1) {
    to->number = strtoull(words[1], NULL, 10);
  }
  for (; i < count && to->count < 1000; i++) {
    if (has_times && i + 1 < count) to->times[to->count] = strtoll(words[i++], NULL, 10);
    to->names[to->count].bytes = bytes + used;
    to->names[to->count].len = strcmp(words[i], "-") == 0 ? 0 : unhex(words[i], bytes + used);
    used += to->names[to->count++].len;
  }
  return true;
}

static bool is(const request *it, const char *word) { return strcmp(it->word, word) == 0; }

static void show_found(const nlog_entry *entry) {
  printf(" %" PRId32 " %" PRId32 " %" PRId64 " %" PRIx64, entry->start_ms, entry->end_ms, entry->mtime, entry->hash);
}

static void show_hex(const char *bytes, size_t len) {
  size_t i;
  for (i = 0; i < len; i++) printf("%02x", (unsigned int)(unsigned char)bytes[i]);
}

/* ---- A log on disk ---- */

static const char *error_name(int error) {
  switch (error) {
    case 0: return "0";
    case EACCES: return "EACCES";
    case EFBIG: return "EFBIG";
    case EIO: return "EIO";
    case EINTR: return "EINTR";
    case ENOLCK: return "ENOLCK";
    case ENOMEM: return "ENOMEM";
    case EINVAL: return "EINVAL";
    case EISDIR: return "EISDIR";
    case ELOOP: return "ELOOP";
    case ENAMETOOLONG: return "ENAMETOOLONG";
    case ENOENT: return "ENOENT";
    case ENOSPC: return "ENOSPC";
    case ENOTDIR: return "ENOTDIR";
    case EPERM: return "EPERM";
    case EROFS: return "EROFS";
    case ESTALE: return "ESTALE";
    case EWOULDBLOCK: return "EWOULDBLOCK";
    default: return "E?";
  }
}

/* Why the last call failed: its errno, its name, and which file it was about. */
static void show_failure(const nlog_writer *writer, const char *log) {
  const char *path = nlog_writer_failed_path(writer), *call = nlog_writer_failed_call(writer);
  printf(" %s %s", error_name(nlog_writer_errno(writer)), call == NULL ? "-" : call);
  if (path == NULL) printf(" -");
  else if (strcmp(path, log) == 0) printf(" log");
  else if (strlen(path) > strlen(log) && memcmp(path, log, strlen(log)) == 0) printf(" scratch");
  else printf(" folder");
}

#define SAY(call) printf("%s ", nlog_status_name(call))

/* Makes each call on the writer in a forked child, which then frees it, and waits for the child's end. */
static nlog_status call_in_child(nlog_writer *writer) {
  nlog_entry entry = {7, 8, 9, 10};
  nlog_name name = {"child", 5};
  nlog_planned one = {{"a", 1}, 8, false, true, true, {1, 2, 3, 4}};
  char buffer[16];
  size_t size = 0;
  uint32_t number;
  bool flag;
  int ended = 1;
  pid_t child = fork();
  if (child != 0) return child > 0 && waitpid(child, &ended, 0) == child && ended == 0 ? NLOG_OK : NLOG_FAULT;
  SAY(nlog_writer_open(writer));
  SAY(nlog_writer_open_to_read(writer));
  SAY(nlog_writer_is_due(writer, &flag));
  SAY(nlog_writer_set_shared(writer, true));
  SAY(nlog_writer_set_wary(writer, true));
  SAY(nlog_writer_hold(writer));
  SAY(nlog_writer_release(writer));
  SAY(nlog_writer_set_wait(writer, 0));
  SAY(nlog_writer_is_open(writer, &flag));
  SAY(nlog_writer_rewrote(writer, &flag));
  SAY(nlog_writer_version(writer, &number));
  SAY(nlog_writer_record(writer, "child", 5, &entry));
  SAY(nlog_writer_record_edge(writer, &name, 1, &entry));
  SAY(nlog_writer_begin(writer, &name, 1, 7, 8));
  SAY(nlog_writer_begin_plan(writer, &one, 1, 7));
  SAY(nlog_writer_withdraw(writer, &one, 1, &size));
  SAY(nlog_writer_count(writer, &size));
  SAY(nlog_writer_at(writer, 0, &entry, buffer, sizeof buffer, &size));
  SAY(nlog_writer_find(writer, "a", 1, &entry));
  SAY(nlog_writer_sync(writer));
  SAY(nlog_writer_mark_dead(writer, "a", 1));
  SAY(nlog_writer_mark_time(writer, "a", 1, 5));
  SAY(nlog_writer_recompact(writer));
  SAY(nlog_writer_restat(writer, &size));
  SAY(nlog_writer_clear_marks(writer));
  SAY(nlog_writer_close(writer));
  nlog_writer_free(&writer);
  printf("%s\n", writer == NULL && entry.hash == 10 ? "freed" : "?");
  fflush(stdout);
  _exit(0);
}

/* Opens the log by a closed writer in a forked child, and records "child" there. */
static nlog_status open_in_child(nlog_writer *writer) {
  nlog_entry entry = {7, 8, 9, 10};
  int ended = 1;
  pid_t child = fork();
  if (child != 0) return child > 0 && waitpid(child, &ended, 0) == child && ended == 0 ? NLOG_OK : NLOG_FAULT;
  SAY(nlog_writer_open(writer));
  SAY(nlog_writer_record(writer, "child", 5, &entry));
  SAY(nlog_writer_close(writer));
  printf("closed\n");
  fflush(stdout);
  _exit(0);
}

/* Opens the log by a writer of its own in a forked child. */
static nlog_status rival_in_child(const char *log) {
  nlog_writer *writer;
  int ended = 1;
  pid_t child = fork();
  if (child != 0) return child > 0 && waitpid(child, &ended, 0) == child && WIFEXITED(ended) ? (nlog_status)WEXITSTATUS(ended) : NLOG_FAULT;
  if (nlog_writer_new(&writer, log, 0) != NLOG_OK || nlog_writer_set_wait(writer, 50) != NLOG_OK) _exit(99);
  _exit((int)nlog_writer_open(writer));
}

/* Forks a child that does nothing, until this process ends it. */
static nlog_status keep_child(pid_t *child) {
  *child = fork();
  if (*child != 0) return *child > 0 ? NLOG_OK : NLOG_FAULT;
  close(1);
  for (;;) pause();
}

/* Keeps back the signals that ask for an end, as a build tool does that looks for them between calls. */
static nlog_status block_signals(void) {
  sigset_t kept;
  sigemptyset(&kept);
  sigaddset(&kept, SIGINT);
  sigaddset(&kept, SIGTERM);
  sigaddset(&kept, SIGHUP);
  return sigprocmask(SIG_BLOCK, &kept, NULL) == 0 ? NLOG_OK : NLOG_FAULT;
}

/* The names that were planned, each as its last plan left it. */
static nlog_planned planned[1000], kept[1000];
static char kept_bytes[200000];
static size_t kept_count = 0, kept_used = 0;

/* Plans the names of a line, whose end says whether an intent is wanted anyway. */
static nlog_status plan(nlog_writer *writer, const request *it) {
  nlog_status status;
  size_t i, at;
  memset(planned, 0, sizeof planned);
  for (i = 0; i < it->count; i++) {
    planned[i].name = it->names[i];
    planned[i].hash = it->entry.hash;
    planned[i].anew = it->entry.end_ms != 0;
  }
  status = nlog_writer_begin_plan(writer, planned, it->count, it->entry.start_ms);
  for (i = 0; i < it->count && status == NLOG_OK; i++) {
    const nlog_name *name = &planned[i].name;
    for (at = 0; at < kept_count && (kept[at].name.len != name->len || memcmp(kept[at].name.bytes, name->bytes, name->len) != 0); at++) continue;
    if (at == kept_count) {
      if (at == 1000 || kept_used + name->len > sizeof kept_bytes) exit(3);
      kept[kept_count++].name.bytes = (const char *)memcpy(kept_bytes + kept_used, name->bytes, name->len);
      kept_used += name->len;
    }
    planned[i].name.bytes = kept[at].name.bytes;
    kept[at] = planned[i];
  }
  return status;
}

/* Withdraws the names of a line, as their plans left them. */
static nlog_status withdraw(nlog_writer *writer, const request *it, size_t *withdrawn) {
  static nlog_planned some[1000];
  size_t i, at, count = 0;
  for (i = 0; i < it->count; i++)
    for (at = 0; at < kept_count; at++)
      if (kept[at].name.len == it->names[i].len && memcmp(kept[at].name.bytes, it->names[i].bytes, kept[at].name.len) == 0) some[count++] = kept[at];
  return nlog_writer_withdraw(writer, some, count, withdrawn);
}

static void heed_nothing(int number) { (void)number; }

/* A signal that is handled, and interrupts what isn't restarted. */
static void handle_signals(void) {
  struct sigaction action;
  memset(&action, 0, sizeof action);
  action.sa_handler = heed_nothing;
  action.sa_flags = SA_RESTART;
  sigaction(SIGUSR1, &action, NULL);
}

static double seconds_by(clockid_t clock) {
  struct timespec now;
  clock_gettime(clock, &now);
  return (double)now.tv_sec + (double)now.tv_nsec / 1e9;
}

static double seconds(void) { return seconds_by(CLOCK_MONOTONIC); }

/* Which other processes don't stretch. */
static double processor_seconds(void) { return seconds_by(CLOCK_PROCESS_CPUTIME_ID); }

static void write_log(const char *log, uint32_t version) {
  static request it;
  double begun, took = 0;
  static char name[NLOG_MAX_NAME];
  nlog_writer *writer = NULL;
  nlog_entry entry;
  size_t i, count, place, name_len;
  uint32_t number;
  bool flag;
  int error;
  nlog loaded = NLOG_INIT;
  pid_t child = -1;
  nlog_status status = nlog_writer_new(&writer, log, version);
  handle_signals();
  BEGIN_STEPS(log, version);
  if (status != NLOG_OK) printf("%s\n", nlog_status_name(status));
  while (next_request(&it)) {
    status = NLOG_STATUS_MAX;
    place = 99;
    NOTE_LOG("call", it.word, log);
    begun = seconds();
    if (is(&it, "open")) status = nlog_writer_open(writer);
    if (is(&it, "look")) status = nlog_writer_open_to_read(writer);
    if (is(&it, "record")) status = nlog_writer_record(writer, it.names[0].bytes, it.names[0].len, &it.entry);
    if (is(&it, "edge")) status = nlog_writer_record_edge(writer, it.names, it.count, &it.entry);
    if (is(&it, "begin")) status = nlog_writer_begin(writer, it.names, it.count, it.entry.start_ms, it.entry.hash);
    if (is(&it, "plan")) status = plan(writer, &it);
    if (is(&it, "withdraw")) status = withdraw(writer, &it, &count);
    if (is(&it, "sync")) status = nlog_writer_sync(writer);
    if (is(&it, "recompact")) status = nlog_writer_recompact(writer);
    if (is(&it, "restat")) status = nlog_writer_restat(writer, &place);
    for (i = 0; i < it.count && is(&it, "dead"); i++) status = nlog_writer_mark_dead(writer, it.names[i].bytes, it.names[i].len);
    for (i = 0; i < it.count && is(&it, "time"); i++) status = nlog_writer_mark_time(writer, it.names[i].bytes, it.names[i].len, it.times[i]);
    if (is(&it, "clear")) status = nlog_writer_clear_marks(writer);
    if (is(&it, "close")) status = nlog_writer_close(writer);
    if (is(&it, "is_open")) status = nlog_writer_is_open(writer, &flag);
    if (is(&it, "rewrote")) status = nlog_writer_rewrote(writer, &flag);
    if (is(&it, "is_due")) status = nlog_writer_is_due(writer, &flag);
    if (is(&it, "block")) status = block_signals();
    if (is(&it, "version")) status = nlog_writer_version(writer, &number);
    if (is(&it, "count")) status = nlog_writer_count(writer, &count);
    if (is(&it, "at")) status = nlog_writer_at(writer, (size_t)it.number, &entry, name, sizeof name, &name_len);
    if (is(&it, "find")) status = nlog_writer_find(writer, it.names[0].bytes, it.names[0].len, &entry);
    if (is(&it, "check")) status = nlog_check_name(it.names[0].bytes, it.names[0].len);
    if (is(&it, "load")) status = nlog_load_file(&loaded, log, &error);
    if (is(&it, "shared")) status = nlog_writer_set_shared(writer, true);
    if (is(&it, "wary")) status = nlog_writer_set_wary(writer, true);
    if (is(&it, "hold")) status = nlog_writer_hold(writer);
    if (is(&it, "release")) status = nlog_writer_release(writer);
    if (is(&it, "other")) status = NLOG_OK;
    if (is(&it, "wait")) status = nlog_writer_set_wait(writer, (uint32_t)it.number);
#ifdef TIMELESS
    if (is(&it, "device")) {
      devices_more = 1;
      status = NLOG_OK;
    }
#endif
    if (is(&it, "cd")) {
      snprintf(name, sizeof name, "%.*s", (int)it.names[0].len, it.names[0].bytes);
      status = chdir(name) == 0 ? NLOG_OK : NLOG_FAULT;
    }
    if (is(&it, "keep-child")) status = keep_child(&child);
    if (is(&it, "call-in-child")) status = call_in_child(writer);
    if (is(&it, "open-in-child")) status = open_in_child(writer);
    if (is(&it, "rival")) status = rival_in_child(log);
    if (is(&it, "free")) {
      nlog_writer_free(&writer);
      status = writer == NULL ? NLOG_OK : NLOG_FAULT;
    }
    if (is(&it, "took")) status = NLOG_OK;
    else took = seconds() - begun;
    NOTE_LOG("done", nlog_status_name(status), log);
    printf("%s", nlog_status_name(status));
    if ((status == NLOG_FAULT || status == NLOG_LOCKED) && !is(&it, "rival")) show_failure(writer, log);
    if (is(&it, "restat") && status == NLOG_NEGATIVE_TIME) printf(" %zu", place);
    if ((is(&it, "is_open") || is(&it, "rewrote") || is(&it, "is_due")) && status == NLOG_OK) printf(" %d", flag);
    if (status == NLOG_OTHER_VERSION || is(&it, "other")) printf(" %" PRIu64, nlog_writer_other_version(writer));
    if (is(&it, "version") && status == NLOG_OK) printf(" %" PRIu32, number);
    if ((is(&it, "count") || is(&it, "withdraw")) && status == NLOG_OK) printf(" %zu", count);
    for (i = 0; i < it.count && is(&it, "plan") && status == NLOG_OK; i++) {
      printf(" %d%d", planned[i].had, planned[i].written);
      if (planned[i].had) show_found(&planned[i].before);
    }
    if (is(&it, "took")) printf(" %d", (int)(took * 1000));
    if ((is(&it, "find") || is(&it, "at")) && status == NLOG_OK) show_found(&entry);
    if (is(&it, "at") && status == NLOG_OK) {
      printf(" ");
      show_hex(name, name_len);
    }
    printf("\n");
    fflush(stdout);
  }
  nlog_writer_free(&writer);
  nlog_free(&loaded);
  END_STEPS();
  if (child > 0) {
    kill(child, SIGKILL);
    waitpid(child, NULL, 0);
  }
}

/* Loads a file by its path. */
static void load_file(const char *path) {
  nlog log = NLOG_INIT;
  int error = 77;
  size_t count = 99;
  nlog_status status = nlog_load_file(&log, path, &error);
  printf("%s %s", nlog_status_name(status), error == 77 ? "-" : error_name(error));
  if (nlog_count(&log, &count) == NLOG_OK) printf(" %zu", count);
  printf("\n");
  nlog_free(&log);
}

/* Loads a file by its path and from memory. Prints the status and the facts of the first, and wants the same of both. */
static void load_both(const char *path) {
  nlog one = NLOG_INIT, other = NLOG_INIT;
  nlog_facts facts, others;
  size_t len, place, count = 0, one_len, other_len;
  char *bytes = file_of(path, &len);
  static char one_name[NLOG_MAX_NAME], other_name[NLOG_MAX_NAME];
  int error = 77;
  nlog_status status = nlog_load_file(&one, path, &error);
  WANT(nlog_load(&other, bytes, len) == status && error == 77);
  printf("%s", nlog_status_name(status));
  memset(&facts, 0, sizeof facts);
  memset(&others, 0, sizeof others);
  WANT(nlog_get_facts(&one, &facts) == nlog_get_facts(&other, &others));
  WANT(memcmp(&facts, &others, sizeof facts) == 0);
  printf(" %" PRIu32 " %" PRIu64 " %" PRIu64, facts.version, facts.total, facts.unique);
  printf(" %" PRIu64 " %" PRIu64 " %" PRIu64 "\n", facts.skipped, facts.whole, facts.torn);
  nlog_count(&one, &count);
  for (place = 0; place < count; place++) {
    nlog_entry entry, others_entry;
    WANT(nlog_at(&one, place, &entry, one_name, sizeof one_name, &one_len) == NLOG_OK);
    WANT(nlog_at(&other, place, &others_entry, other_name, sizeof other_name, &other_len) == NLOG_OK);
    WANT(one_len == other_len && memcmp(one_name, other_name, one_len) == 0);
    WANT(entry.start_ms == others_entry.start_ms && entry.end_ms == others_entry.end_ms);
    WANT(entry.mtime == others_entry.mtime && entry.hash == others_entry.hash);
  }
  nlog_free(&one);
  nlog_free(&other);
  free(bytes);
}

/* Records so many entries, and syncs after each so many, or only at the end; prints how many then stand. */
static int write_many(const char *log, int count, int syncs) {
  nlog_writer *writer;
  nlog_entry entry;
  nlog_status status = nlog_writer_new(&writer, log, 0), closed;
  char name[32];
  int i;
  if (status == NLOG_OK) status = nlog_writer_open(writer);
  for (i = 0; status == NLOG_OK && i < count; i++) {
    entry.start_ms = i;
    entry.end_ms = i + 5;
    entry.mtime = 1000 + i;
    entry.hash = (uint64_t)i + 1;
    snprintf(name, sizeof name, "out%d", i);
    status = nlog_writer_record(writer, name, strlen(name), &entry);
    if (status == NLOG_OK && (syncs != 0 ? i % syncs == syncs - 1 : i == count - 1)) {
      status = nlog_writer_sync(writer);
      if (status == NLOG_OK) {
        printf("%d\n", i + 1);
        fflush(stdout);
      }
    }
  }
  closed = nlog_writer_close(writer);
  nlog_writer_free(&writer);
  printf("%s\n", nlog_status_name(status == NLOG_OK ? closed : status));
  return 0;
}

/* The time of a record, beside fprintf and fflush of the same line into a file that is open for appending. Both go on in turn, a block of each, so
 * that what else the machine does falls on both. As many outputs as there are records: each is new. */
static void fill_entry(int i, nlog_entry *entry) {
  entry->start_ms = i;
  entry->end_ms = i + 5;
  entry->mtime = 1700000000000000000 + i;
  entry->hash = 0x9e3779b97f4a7c15u * (uint64_t)(i + 1);
}

static int time_records(const char *log, const char *plain, int count, int outputs, const char *how) {
  enum { TIMED = 500, ROOM = 48 };
  char(*names)[ROOM] = (char(*)[ROOM])malloc((size_t)outputs * ROOM);
  nlog_writer *writer;
  nlog_entry entry;
  nlog_status status = nlog_writer_new(&writer, log, 0);
  double begun, ours = 0, theirs = 0;
  int i, from;
  FILE *file = fopen(plain, "ab");
  if (status == NLOG_OK && how != NULL) status = nlog_writer_set_shared(writer, true);
  if (status == NLOG_OK) status = nlog_writer_open(writer);
  if (status == NLOG_OK && how != NULL && strcmp(how, "held") == 0) status = nlog_writer_hold(writer);
  if (names == NULL || file == NULL || setvbuf(file, NULL, _IOLBF, BUFSIZ) != 0 || status != NLOG_OK) return 1;
  for (i = 0; i < outputs; i++) snprintf(names[i], ROOM, "obj/src/module%03d/source_file_%d.o", i % 200, i);
  for (from = 0; from < count; from += TIMED) {
    begun = processor_seconds();
    for (i = from; status == NLOG_OK && i < count && i < from + TIMED; i++) {
      fill_entry(i, &entry);
      status = nlog_writer_record(writer, names[i % outputs], strlen(names[i % outputs]), &entry);
    }
    ours += processor_seconds() - begun;
    begun = processor_seconds();
    for (i = from; i < count && i < from + TIMED; i++) {
      fill_entry(i, &entry);
      if (fprintf(file, "%" PRId32 "\t%" PRId32 "\t%" PRId64 "\t%s\t%" PRIx64 "\n", entry.start_ms, entry.end_ms, entry.mtime, names[i % outputs], entry.hash) < 0) return 1;
      if (fflush(file) != 0) return 1;
    }
    theirs += processor_seconds() - begun;
  }
  fclose(file);
  free(names);
  nlog_writer_free(&writer);
  printf("%.0f %.0f\n", ours / count * 1e9, theirs / count * 1e9);
  return status != NLOG_OK;
}

/* The time of a name of so many edges of so many outputs, which are the same in each, in nanoseconds; where memory can be refused, how often it
 * was asked for. */
static int time_edges(const char *log, size_t count, int edges) {
  char(*bytes)[16] = (char(*)[16])malloc(count * sizeof *bytes);
  nlog_name *names = (nlog_name *)malloc(count * sizeof *names);
  nlog_writer *writer;
  nlog_entry entry = {1, 2, 3, 4};
  nlog_status status = nlog_writer_new(&writer, log, 0);
  double begun;
  size_t i;
  int edge;
  if (bytes == NULL || names == NULL) return 1;
  for (i = 0; i < count; i++) {
    names[i].bytes = bytes[i];
    names[i].len = (size_t)snprintf(bytes[i], sizeof bytes[i], "out%zu", i);
  }
  if (status == NLOG_OK) status = nlog_writer_open(writer);
#ifdef REFUSES
  requests = 0;
#endif
  begun = processor_seconds();
  for (edge = 0; status == NLOG_OK && edge < edges; edge++) status = nlog_writer_record_edge(writer, names, count, &entry);
#ifdef REFUSES
  printf("%ld\n", requests);
  (void)begun;
#else
  printf("%.0f\n", (processor_seconds() - begun) / ((double)count * edges) * 1e9);
#endif
  nlog_writer_free(&writer);
  free(names);
  free(bytes);
  return status != NLOG_OK;
}

#ifdef REFUSES
/* Somebody else begins a line, and doesn't end it. */
static nlog_status tear(const char *log) {
  FILE *file = fopen(log, "ab");
  const bool is_done = file != NULL && fputs("4\t5", file) >= 0;
  return file != NULL && fclose(file) == 0 && is_done ? NLOG_OK : NLOG_FAULT;
}

/* Does what the lines of standard input say, and refuses memory at one place of the last of so many. Prints the status of that call, that of the
 * same call again where it was refused, and that of a close. */
static void refuse_call(const char *log, long at, int count) {
  static request it;
  nlog_writer *writer = NULL;
  nlog_status status = NLOG_OK, first = NLOG_OK;
  size_t place = 0, i;
  int line, turn;
  WANT(nlog_writer_new(&writer, log, 0) == NLOG_OK);
  for (line = 1; line <= count && next_request(&it); line++) {
    for (turn = 0; turn < 2; turn++) {
      if (line == count && turn == 0) left = at;
      if (is(&it, "open")) status = nlog_writer_open(writer);
      if (is(&it, "look")) status = nlog_writer_open_to_read(writer);
      if (is(&it, "wary")) status = nlog_writer_set_wary(writer, true);
      if (is(&it, "shared")) status = nlog_writer_set_shared(writer, true);
      if (is(&it, "torn")) status = tear(log);
      if (is(&it, "plan")) status = plan(writer, &it);
      if (is(&it, "record")) status = nlog_writer_record(writer, it.names[0].bytes, it.names[0].len, &it.entry);
      if (is(&it, "edge")) status = nlog_writer_record_edge(writer, it.names, it.count, &it.entry);
      if (is(&it, "begin")) status = nlog_writer_begin(writer, it.names, it.count, it.entry.start_ms, it.entry.hash);
      if (is(&it, "sync")) status = nlog_writer_sync(writer);
      if (is(&it, "recompact")) status = nlog_writer_recompact(writer);
      if (is(&it, "restat")) status = nlog_writer_restat(writer, &place);
      for (i = 0; i < it.count && is(&it, "dead"); i++) status = nlog_writer_mark_dead(writer, it.names[i].bytes, it.names[i].len);
      for (i = 0; i < it.count && is(&it, "time"); i++) status = nlog_writer_mark_time(writer, it.names[i].bytes, it.names[i].len, it.times[i]);
      left = -1;
      if (line < count) WANT(status == NLOG_OK);
      if (status == NLOG_OK) break;
      if (turn == 0) first = status;
    }
  }
  printf("%s %s", nlog_status_name(first), nlog_status_name(status));
  printf(" %s\n", nlog_status_name(nlog_writer_close(writer)));
  nlog_writer_free(&writer);
}
#endif


/* With the standard streams closed: no descriptor is left, none is a standard stream's. What came is printed into a file. */
static void closed_streams(const char *log, const char *to) {
  FILE *file = fopen(to, "w");
  nlog_entry entry = {1, 2, 3, 4};
  nlog_writer *writer = NULL;
  nlog_status made, opened, recorded, rewritten, closed;
  int before, streams, after, fd, kept = 0;
  if (file == NULL) exit(3);
  close(0);
  close(1);
  close(2);
  before = descriptors();
  made = nlog_writer_new(&writer, log, 0);
  opened = nlog_writer_open(writer);
  recorded = nlog_writer_record(writer, "a", 1, &entry);
  rewritten = nlog_writer_recompact(writer);
  for (fd = 3; fd < 256; fd++) kept += fd != fileno(file) && fcntl(fd, F_GETFD) == 0; /* over an exec */
  streams = (dup2(0, 0) >= 0) + (dup2(1, 1) >= 0) + (dup2(2, 2) >= 0);
  closed = nlog_writer_close(writer);
  after = descriptors();
  nlog_writer_free(&writer);
  fprintf(file, "%s %s %s %s %s %d %d %d\n", nlog_status_name(made), nlog_status_name(opened), nlog_status_name(recorded), nlog_status_name(rewritten),
          nlog_status_name(closed), streams, kept, after - before);
  fclose(file);
  exit(0);
}

int main(int count, char **words) {
  size_t len;
  char *bytes;
  const int before = descriptors();
  if (count >= 3 && strcmp(words[1], "read") == 0) {
    read_log(count - 2, words + 2);
  } else if (count == 2 && strcmp(words[1], "misuse") == 0) {
    misuse();
#ifdef REFUSES
  } else if (count == 3 && strcmp(words[1], "refuse") == 0) {
    refuse(words[2]);
  } else if (count == 5 && strcmp(words[1], "refuse-call") == 0) {
    refuse_call(words[2], atol(words[3]), atoi(words[4]));
#endif
  } else if (count == 3 && strcmp(words[1], "hash") == 0) {
    bytes = file_of(words[2], &len);
    printf("%" PRIx64 " %" PRIx64 "\n", nlog_command_hash(bytes, len), nlog_command_hash_v7(bytes, len));
    free(bytes);
  } else if (count == 4 && strcmp(words[1], "line") == 0) {
    read_line((uint32_t)strtoul(words[2], NULL, 10), words[3]);
  } else if (count == 3 && strcmp(words[1], "damage") == 0) {
    tell_damage(words[2]);
  } else if (count == 3 && strcmp(words[1], "distrusted") == 0) {
    tell_distrusted(words[2]);
  } else if (count == 4 && strcmp(words[1], "write") == 0) {
    write_log(words[2], (uint32_t)strtoul(words[3], NULL, 10));
  } else if (count == 3 && strcmp(words[1], "load") == 0) {
    load_file(words[2]);
  } else if (count == 3 && strcmp(words[1], "load-both") == 0) {
    load_both(words[2]);
  } else if (count == 5 && strcmp(words[1], "many") == 0) {
    wrong |= write_many(words[2], atoi(words[3]), atoi(words[4]));
  } else if (count == 4 && strcmp(words[1], "large") == 0) {
    load_and_record(words[2], atoi(words[3]));
  } else if ((count == 6 || count == 7) && strcmp(words[1], "time") == 0) {
    wrong |= time_records(words[2], words[3], atoi(words[4]), atoi(words[5]), count == 7 ? words[6] : NULL);
  } else if (count == 5 && strcmp(words[1], "edges") == 0) {
    wrong |= time_edges(words[2], (size_t)atol(words[3]), atoi(words[4]));
  } else if (count == 4 && strcmp(words[1], "closed") == 0) {
    closed_streams(words[2], words[3]);
  } else {
    return 2;
  }
  WANT(descriptors() == before);
  return wrong;
}
