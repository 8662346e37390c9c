/* Calls each function of lib/heap.c and lib/program/host.c as its standard input says, and prints what came of it: tests/host.py compares that with
 * their contracts. It stands in the place of the proved program, so its `main` is that of host.c. */
#include <errno.h>
#include <fcntl.h>
#include <inttypes.h>
#include <stdbool.h>
#include <stddef.h>
#include <stdint.h>
#include <stdio.h>
#include <stdlib.h>
#include <string.h>
#include <sys/stat.h>
#include <unistd.h>

/* By the contracts, and not by the files under trial. */
typedef struct {
  bool ok;
  unsigned char *p;
} tried;
tried rattle_alloc(size_t n, size_t a);
tried rattle_realloc(unsigned char *p, size_t kept, size_t n, size_t a);
void rattle_dealloc(unsigned char *p);
ptrdiff_t rattle_arg(size_t i, unsigned char *buf, size_t len);
ptrdiff_t rattle_env(const unsigned char *name, unsigned char *buf, size_t len);
ptrdiff_t rattle_env_at(size_t i, unsigned char *buf, size_t len);
int32_t rattle_errno(void);
void rattle_set_errno(int32_t error);
int32_t rattle_open_dir_at(int32_t dir, const unsigned char *name);
int proved_main(void);

static unsigned char room[1 << 17];

/* The answer, and the room of so many bytes with one behind it, which were all `#`. */
static void show(ptrdiff_t answer, size_t len) {
  size_t i;
  printf("%td ", answer);
  for (i = 0; i <= len; i++) printf("%02x", room[i]);
  printf("\n");
}

static void clear(size_t len) { memset(room, '#', len + 1); }

static void alloc(size_t n, size_t a) {
  tried it = rattle_alloc(n, a);
  if (!it.ok) {
    printf("refused %s\n", it.p != NULL ? "not null" : "null");
    return;
  }
  memset(it.p, 'x', n);
  printf("ok %s\n", (uintptr_t)it.p % a == 0 ? "aligned" : "askew");
  rattle_dealloc(it.p);
}

/* A block of so many bytes, of which the first are kept, is made one of n. */
static void resize(size_t old, size_t kept, size_t n, size_t a) {
  tried was = rattle_alloc(old, a), it;
  size_t i, same = 0;
  for (i = 0; i < kept; i++) was.p[i] = (unsigned char)(i * 7 + 1);
  it = rattle_realloc(was.p, kept, n, a);
  if (it.ok) was = it;
  for (i = 0; i < kept; i++) same += was.p[i] == (unsigned char)(i * 7 + 1);
  if (it.ok) memset(it.p, 'x', n);
  printf("%s %s %zu\n", it.ok ? "ok" : "refused", it.p == NULL ? "null" : (uintptr_t)was.p % a == 0 ? "aligned" : "askew", same);
  rattle_dealloc(was.p);
}

static void open_dir(const char *folder, const char *name) {
  int at = strcmp(folder, ".") == 0 ? AT_FDCWD : open(folder, O_RDONLY | O_DIRECTORY | O_CLOEXEC), fd;
  struct stat about;
  fd = rattle_open_dir_at(at, (const unsigned char *)name);
  if (fd < 0) {
    printf("%d %" PRId32 "\n", fd, rattle_errno());
  } else {
    fstat(fd, &about);
    printf("%s %s %s\n", S_ISDIR(about.st_mode) ? "folder" : "no folder", (fcntl(fd, F_GETFD) & FD_CLOEXEC) != 0 ? "closed by exec" : "left",
           (fcntl(fd, F_GETFL) & O_ACCMODE) == O_RDONLY ? "to read" : "to write");
    close(fd);
  }
  if (at >= 0) close(at);
}

int proved_main(void) {
  char line[4096], a[2048], b[2048];
  size_t n, m, k, l;
  while (fgets(line, sizeof line, stdin) != NULL) {
    if (sscanf(line, "arg %zu %zu", &n, &m) == 2) {
      clear(m);
      show(rattle_arg(n, room, m), m);
    } else if (sscanf(line, "env_at %zu %zu", &n, &m) == 2) {
      clear(m);
      show(rattle_env_at(n, room, m), m);
    } else if (sscanf(line, "env %2047s %zu", a, &m) == 2) {
      clear(m);
      show(rattle_env((const unsigned char *)a, room, m), m);
    } else if (sscanf(line, "set %zu", &n) == 1) {
      rattle_set_errno((int32_t)n);
      printf("%d %" PRId32 "\n", errno, rattle_errno());
    } else if (sscanf(line, "alloc %zu %zu", &n, &m) == 2) {
      alloc(n, m);
    } else if (sscanf(line, "resize %zu %zu %zu %zu", &n, &m, &k, &l) == 4) {
      resize(n, m, k, l);
    } else if (sscanf(line, "open %2047s %2047s", a, b) == 2) {
      open_dir(a, b);
    }
  }
  return fflush(stdout) == 0 ? 7 : 1;
}
