/* What the proved program asks of its system beside the C library's own calls: its words, the environment, errno, and a folder. The contracts are
 * those of the toolchain's os/src/c.rt, which nothing proves; tests/host.py tries each. The words are set before the program begins, errno is each
 * thread's own, and nothing sets a variable of the environment: so several threads may call these. */
#define _GNU_SOURCE /* environ */
#include <errno.h>
#include <fcntl.h>
#include <stddef.h>
#include <stdlib.h>
#include <string.h>
#include <sys/types.h>
#include <unistd.h>

ssize_t rattle_arg(size_t index, unsigned char *to, size_t room);
ssize_t rattle_env(const char *name, unsigned char *to, size_t room);
ssize_t rattle_env_at(size_t index, unsigned char *to, size_t room);
int rattle_errno(void);
void rattle_set_errno(int number);
int rattle_open_dir_at(int folder, const char *name);
/* The program's own `main`, by the name that lib/program.sh gives it. */
int proved_main(void);

static size_t count;
static char **words;

/* Puts a text at the start of the room. Gives its length; -1 where there is no text; -2 where it doesn't fit, and the room is then full. */
static ssize_t put(const char *text, unsigned char *to, size_t room) {
  size_t length;
  if (text == NULL) return -1;
  for (length = 0; text[length] != '\0'; length++) {
    if (length == room) return -2;
    to[length] = (unsigned char)text[length];
  }
  return (ssize_t)length;
}

/* The word of this number, of which number 0 is the program's name, as `put` does. */
ssize_t rattle_arg(size_t index, unsigned char *to, size_t room) {
  return put(index < count ? words[index] : NULL, to, room);
}

/* The value of a variable of the environment, whose name ends with a 0, as `put` does. */
ssize_t rattle_env(const char *name, unsigned char *to, size_t room) {
  return put(getenv(name), to, room);
}

/* The entry of this number in the environment, `NAME=VALUE`, as `put` does. */
ssize_t rattle_env_at(size_t index, unsigned char *to, size_t room) {
  size_t at;
  if (environ == NULL) return -1;
  for (at = 0; at < index; at++) {
    if (environ[at] == NULL) return -1;
  }
  return put(environ[index], to, room);
}

/* The number of the last call's error. */
int rattle_errno(void) {
  return errno;
}

/* Sets that number. */
void rattle_set_errno(int number) {
  errno = number;
}

/* Opens for reading the folder that a name, which ends with a 0, reaches from another. -1, with errno, where it can't, where the name's last part is a
 * symbolic link, and where it is no folder. */
int rattle_open_dir_at(int folder, const char *name) {
  return openat(folder, name, O_RDONLY | O_DIRECTORY | O_NOFOLLOW | O_CLOEXEC);
}

int main(int argc, char **argv) {
  count = argc > 0 ? (size_t)argc : 0;
  words = argv;
  return proved_main();
}
