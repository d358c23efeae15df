#define _GNU_SOURCE
#include "files.h"

#include <errno.h>
#include <fcntl.h>
#include <limits.h>
#include <poll.h>
#include <stdio.h>
#include <stdlib.h>
#include <string.h>
#include <sys/file.h>
#include <sys/stat.h>
#include <unistd.h>

/* As many links in a row as the system follows. The name of a part file has 255 bytes at most. */
enum { MOST_LINKS = 40, LAST_NAME = 246, NAME = 255 };
static const char PART[] = ".kpn-part", STANDARD[3][12] = {"/dev/stdin", "/dev/stdout", "/dev/stderr"};

void kpn_fill_standard(void) {
  int got;
  do {
    got = open("/", O_RDONLY);
  } while (got >= 0 && got <= STDERR_FILENO);
  if (got >= 0) {
    close(got);
  }
}

/* A path as its folder and its last name. */
struct path {
  char text[PATH_MAX];
};

static char *last_of(struct path *path) {
  char *slash = strrchr(path->text, '/');
  return slash ? slash + 1 : path->text;
}

static bool set_path(struct path *path, const char *text) {
  size_t length = strlen(text);
  if (length == 0 || length >= sizeof path->text) {
    return false;
  }
  memcpy(path->text, text, length + 1);
  return true;
}

/* What a path leads to. */
enum leads { TO_FILE, TO_DEVICE, TO_NOTHING };

/* Puts the text of a link in place of its name, or of the whole path if it begins at the root. */
static bool follow_link(struct path *path) {
  char to[PATH_MAX];
  ssize_t length = readlink(path->text, to, sizeof to - 1);
  if (length < 0) {
    return false;
  }
  to[length] = 0;
  size_t folder = to[0] == '/' ? 0 : (size_t)(last_of(path) - path->text);
  if (folder + (size_t)length >= sizeof path->text) {
    return false;
  }
  memcpy(path->text + folder, to, (size_t)length + 1);
  return true;
}

/* Follows the links of a name to the plain file that is there or can be made. A device, a terminal, a pipe, and a file
   by a descriptor of a process, which need have no name, are written themselves. */
static enum leads behind_links(struct path *path, const char *name) {
  struct stat told, own;
  if (!set_path(path, name)) {
    return TO_NOTHING;
  }
  if (stat(name, &told) == 0 && !S_ISREG(told.st_mode)) {
    return TO_DEVICE;
  }
  for (int k = 0; k <= MOST_LINKS; k++) {
    if (lstat(path->text, &told) != 0 || !S_ISLNK(told.st_mode)) {
      return TO_FILE;
    }
    if (lstat("/proc/self", &own) == 0 && own.st_dev == told.st_dev) {
      return TO_DEVICE;
    }
    if (!follow_link(path)) {
      return TO_NOTHING;
    }
  }
  return TO_NOTHING;
}

/* The folder of a path: its text is cut at the last slash. */
static const char *folder_of(struct path *path) {
  char *last = last_of(path);
  if (last == path->text) {
    return ".";
  }
  last[last == path->text + 1 ? 0 : -1] = 0;
  return path->text;
}

/* Makes the path of a file that of its part file. A name that is too long is cut between two characters. */
static bool add_part(struct path *path) {
  char *last = last_of(path);
  size_t length = strnlen(last, NAME + 1);
  if (length > LAST_NAME) {
    length = LAST_NAME;
    while (length > 0 && ((unsigned char)last[length] & 0xc0) == 0x80) {
      length--;
    }
  }
  if ((size_t)(last - path->text) + length + sizeof PART > sizeof path->text) {
    return false;
  }
  memcpy(last + length, PART, sizeof PART);
  return true;
}

/* What two names of one plain file have in common: the device and the inode of the file, or those of its folder and the
   last name if it is not there. */
struct identity {
  bool is_plain, is_there;
  dev_t device;
  ino_t inode;
  struct path path;
};

static void identify(struct identity *found, const char *name) {
  struct stat told;
  found->is_there = stat(name, &told) == 0;
  found->is_plain = found->is_there && S_ISREG(told.st_mode);
  if (!found->is_there && behind_links(&found->path, name) == TO_FILE) {
    struct path folder = found->path;
    found->is_plain = stat(folder_of(&folder), &told) == 0;
  }
  found->device = told.st_dev;
  found->inode = told.st_ino;
}

static void identify_part(struct identity *found, const char *name) {
  struct path part;
  found->is_plain = false;
  if (behind_links(&part, name) == TO_FILE && add_part(&part)) {
    identify(found, part.text);
  }
}

static bool is_same(struct identity *a, struct identity *b) {
  return a->is_plain && b->is_plain && a->is_there == b->is_there && a->device == b->device && a->inode == b->inode &&
         (a->is_there || strcmp(last_of(&a->path), last_of(&b->path)) == 0);
}

/* Whether an output, or its part file, is the plain file of another name. */
static bool is_file_of(const char *name, const char *other, bool is_output) {
  struct identity own, part, found;
  identify(&own, name);
  identify_part(&part, name);
  identify(&found, other);
  if (is_same(&own, &found) || is_same(&part, &found)) {
    return true;
  }
  identify_part(&found, other);
  return is_output && (is_same(&own, &found) || is_same(&part, &found));
}

bool kpn_file_clashes(const char *name, const char *const *others, size_t count, bool are_outputs) {
  for (size_t k = 0; k < count; k++) {
    if (strcmp(name, others[k]) == 0 || is_file_of(name, others[k], are_outputs)) {
      return true;
    }
  }
  return false;
}

bool kpn_file_is_same(const char *name, const char *other) {
  return is_file_of(name, other, false);
}

bool kpn_file_is_standard(const char *name) {
  for (size_t k = 0; k < 3; k++) {
    if (is_file_of(name, STANDARD[k], false)) {
      return true;
    }
  }
  return false;
}

bool kpn_file_is_one_device(const char *name, const char *other) {
  struct stat told, found;
  return stat(name, &told) == 0 && stat(other, &found) == 0 && !S_ISREG(told.st_mode) &&
         told.st_dev == found.st_dev && told.st_ino == found.st_ino;
}

/* Opens the part file beside a plain target, locked, with the rights of the file that it will replace. */
static bool open_part(struct kpn_file *file, const struct stat *old) {
  struct stat there;
  for (int k = 0; k < 2; k++) {
    file->to = open(file->part, O_WRONLY | O_CREAT | O_EXCL | O_CLOEXEC | O_NOFOLLOW,
                    old ? old->st_mode & 07777 : 0666);
    if (file->to >= 0) {
      if (old) {
        fchmod(file->to, old->st_mode & 07777);
      }
      return flock(file->to, LOCK_EX | LOCK_NB) == 0;
    }
    int left = open(file->part, O_RDWR | O_CLOEXEC | O_NOFOLLOW | O_NONBLOCK);
    bool is_ours = left >= 0 && fstat(left, &there) == 0 && S_ISREG(there.st_mode) &&
                   flock(left, LOCK_EX | LOCK_NB) == 0 && unlink(file->part) == 0;
    if (left >= 0) {
      close(left);
    }
    if (!is_ours) {
      return false;
    }
  }
  return false;
}

/* Whether something can be stored here: nothing, or a plain file that may be written, in a folder that can be synced.
   It is told what was there. */
static bool can_be_stored(struct path path, struct stat *old, bool *is_there) {
  const char *last = last_of(&path);
  *is_there = lstat(path.text, old) == 0;
  if ((!*is_there && errno != ENOENT) || (*is_there && (!S_ISREG(old->st_mode) || access(path.text, W_OK) != 0)) ||
      *last == 0 || strcmp(last, ".") == 0 || strcmp(last, "..") == 0) {
    return false;
  }
  int folder = open(folder_of(&path), O_RDONLY | O_DIRECTORY | O_CLOEXEC);
  return folder >= 0 && close(folder) == 0;
}

bool kpn_file_prepare(struct kpn_file *file) {
  struct path path;
  struct stat old;
  bool is_there = false;
  switch (behind_links(&path, file->name)) {
  case TO_DEVICE:
    file->to = open(file->name, O_WRONLY | O_CLOEXEC);
    return file->is_open = file->to >= 0;
  case TO_NOTHING:
    return false;
  case TO_FILE:
    break;
  }
  file->target = can_be_stored(path, &old, &is_there) ? strdup(path.text) : NULL;
  file->part = file->target && add_part(&path) ? strdup(path.text) : NULL;
  return file->is_open = file->part && open_part(file, is_there ? &old : NULL);
}

bool kpn_may_retry(int device, short events) {
  struct pollfd asked = {.fd = device, .events = events};
  if (errno == EAGAIN || errno == EWOULDBLOCK) {
    return poll(&asked, 1, -1) >= 0 || errno == EINTR;
  }
  return errno == EINTR;
}

size_t kpn_write_most(int to, const char *text, size_t length) {
  size_t taken = 0;
  while (taken < length) {
    ssize_t count = write(to, text + taken, length - taken);
    if (count < 0 && !kpn_may_retry(to, POLLOUT)) {
      break;
    }
    taken += count > 0 ? (size_t)count : 0;
  }
  return taken;
}

bool kpn_write_all(int to, const char *text, size_t length) {
  return kpn_write_most(to, text, length) == length;
}

/* Whether it is a plain file by a descriptor, which is written itself. */
static bool is_plain_itself(const struct kpn_file *file) {
  struct stat told;
  return !file->part && fstat(file->to, &told) == 0 && S_ISREG(told.st_mode);
}

bool kpn_file_write(void *to, const char *text, size_t length) {
  struct kpn_file *file = to;
  if (!file->is_begun && is_plain_itself(file) && ftruncate(file->to, 0) != 0) {
    return false;
  }
  file->is_begun = true;
  return kpn_write_all(file->to, text, length);
}

bool kpn_file_store(struct kpn_file *file) {
  struct path path;
  if (!file->part) {
    return (!is_plain_itself(file) || fsync(file->to) == 0) && close(file->to) == 0;
  }
  if (fsync(file->to) != 0 || rename(file->part, file->target) != 0) {
    return false;
  }
  free(file->part);
  file->part = NULL;
  close(file->to);
  file->is_open = false;
  if (!set_path(&path, file->target)) {
    return false;
  }
  int folder = open(folder_of(&path), O_RDONLY | O_DIRECTORY | O_CLOEXEC);
  bool is_synced = folder >= 0 && fsync(folder) == 0;
  if (folder >= 0) {
    close(folder);
  }
  return is_synced;
}

void kpn_file_drop(struct kpn_file *file) {
  if (file->part && file->is_open) {
    unlink(file->part);
  }
  free(file->part);
  free(file->target);
  file->part = file->target = NULL;
}
