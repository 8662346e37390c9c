/* Who may read and write a log that is written anew: a new file gets the owner, the group, the mode, the ACL and the security labels of the one
 * before, as far as the process may give them, and where it may not, nobody has a right by the new file that he hadn't by the old one. This file
 * is tested (tests/clib_rights.py), and not proved. */
#include "writer.h"

#ifdef __linux__
#include <sys/xattr.h>

#define ACL "system.posix_acl_access"
#define LABEL "security."

/* The most bytes that the names of a file's attributes have, and one's value. `room` has three times as many. */
#define MOST 65536

/* Whether an attribute is a label by which the system knows who may do what. A capability is let go of as setuid is, since others may have written
 * the bytes; and the other two are about the old bytes. */
static bool is_label(const char *name) {
  if (strncmp(name, LABEL, strlen(LABEL)) != 0) return false;
  name += strlen(LABEL);
  return strcmp(name, "capability") != 0 && strcmp(name, "ima") != 0 && strcmp(name, "evm") != 0;
}

/* Whether a call answered that there is no such attribute, or none at all. */
static bool is_none(int error) { return error == ENODATA || error == ENOTSUP || error == EOPNOTSUPP || error == ENOSYS; }

/* Gives the scratch one of the log's attributes, where it hasn't it already. */
static bool keep_attribute(int log, int scratch, const char *name, char *value, char *own) {
  ssize_t len = fgetxattr(log, name, value, MOST);
  if (len < 0) return false;
  if (fgetxattr(scratch, name, own, MOST) == len && memcmp(own, value, (size_t)len) == 0) return true;
  return fsetxattr(scratch, name, value, (size_t)len, 0) == 0;
}

/* Gives the scratch the log's labels and then its ACL, which widens, and none that its folder gave it. Whether it has them all. The ACL is none
 * where its classes mean others by now. */
static bool keep_attributes(int log, int scratch, char *room, bool is_same) {
  char *value = room + MOST, *own = room + 2 * MOST;
  ssize_t len = flistxattr(log, room, MOST), at;
  bool is_kept = len >= 0 || is_none(errno), has_acl = false;
  if (fremovexattr(scratch, ACL) != 0 && !is_none(errno)) is_kept = false;
  for (at = 0; at < len; at += (ssize_t)strlen(room + at) + 1) {
    if (strcmp(room + at, ACL) == 0) has_acl = true;
    if (is_label(room + at) && !keep_attribute(log, scratch, room + at, value, own)) is_kept = false;
  }
  return is_kept && (!has_acl || (is_same && keep_attribute(log, scratch, ACL, value, own)));
}
#else
static bool keep_attributes(int log, int scratch, char *room, bool is_same) {
  (void)log, (void)scratch, (void)room, (void)is_same;
  return true;
}
#endif

/* What of the log's mode the new file may have. Where its group is another, who was of the group may be of the others now, and the other way
 * round. Where its owner is another, the old one is of either. */
static mode_t mode_of(const struct stat *log, const struct stat *made) {
  mode_t owner = log->st_mode >> 6 & 7, group = log->st_mode >> 3 & 7, others = log->st_mode & 7, most = 7;
  if (made->st_gid != log->st_gid) most = group & others;
  if (made->st_uid != log->st_uid) most &= owner;
  return owner << 6 | (group & most) << 3 | (others & most);
}

/* Gives a scratch that is whole, and that its owner alone may read so far, the rights of the log. What widens them comes last. 0, or the errno of
 * the call that failed. `about`: what the log is, and then what the scratch is. */
int keep_rights(int log, int scratch, char *room, struct stat *about, const char **call) {
  const struct stat before = *about;
  mode_t mode;
  if (fchown(scratch, before.st_uid, before.st_gid) != 0 && fchown(scratch, (uid_t)-1, before.st_gid) != 0) errno = 0; /* they are looked at */
  *call = "fstat";
  if (fstat(scratch, about) != 0) return errno;
  mode = mode_of(&before, about);
  if (!keep_attributes(log, scratch, room, about->st_gid == before.st_gid && mode == (before.st_mode & 0777))) mode &= 0700;
  *call = "fchmod";
  return (about->st_mode & 07777) == mode || fchmod(scratch, mode) == 0 ? 0 : errno;
}
