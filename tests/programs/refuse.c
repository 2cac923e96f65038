// A library to preload into a program (LD_PRELOAD): it counts what the program asks the C library for, and refuses one
// request, so that a test sees what the program makes of it.
//
//   REFUSE=allocation, read, write or file    which requests are refused; without it none is. A file's are those that open, list, sync,
//                                       lock, cut and rename it, that give it to an owner or set its mode, that find its true
//                                       name, and that choose a random one
//   REFUSE_AT=N                         the Nth of them, from 1
//   REFUSE_ALSO_AFTER=1                 and each one after it
//   REFUSE_HOW=fail, signal, short, again or full   it fails; it is interrupted by a signal; it moves one byte alone; it fails as
//                                       where nothing can be moved now; it fails as where the disk is full
//   REFUSE_COUNTS=FD                    at exit five numbers go to this file descriptor: how many allocations, reads, writes
//                                       and requests for files there were, and how many requests were refused
//
// An allocation can only fail. Needs the GNU C library, under whose names the true calls are reached.
#define _GNU_SOURCE
#include <errno.h>
#include <fcntl.h>
#include <limits.h>
#include <stdarg.h>
#include <stdio.h>
#include <stdlib.h>
#include <string.h>
#include <dlfcn.h>
#include <sys/syscall.h>
#include <sys/types.h>
#include <unistd.h>

extern void *__libc_malloc(size_t);
extern void *__libc_realloc(void *, size_t);
extern void *__libc_calloc(size_t, size_t);
extern void *__libc_memalign(size_t, size_t);

enum request { ALLOCATION, READ, WRITE, FILES, REQUESTS };
enum outcome { FAIL, SIGNAL, SHORT, AGAIN, FULL, OUTCOMES };

static const char *const request_names[] = {"allocation", "read", "write", "file"};
static const char *const outcome_names[] = {"fail", "signal", "short", "again", "full"};

static long made[REQUESTS];
static long refused;
static int wanted = -1;
static long at;
static int also_after;
static int outcome = FAIL;
static int counts = -1;

static long number(const char *name, long otherwise) {
  const char *text = getenv(name);
  return text ? atol(text) : otherwise;
}

static int named(const char *name, const char *const *names, int count, int otherwise) {
  const char *text = getenv(name);
  for (int i = 0; text && i < count; i++) {
    if (!strcmp(text, names[i])) return i;
  }
  return otherwise;
}

__attribute__((constructor)) static void begin(void) {
  at = number("REFUSE_AT", 0);
  also_after = number("REFUSE_ALSO_AFTER", 0) != 0;
  outcome = named("REFUSE_HOW", outcome_names, OUTCOMES, FAIL);
  counts = number("REFUSE_COUNTS", -1);
  memset(made, 0, sizeof made);
  wanted = named("REFUSE", request_names, REQUESTS, -1);
}

__attribute__((destructor)) static void end(void) {
  char text[128];
  wanted = -1;
  if (counts >= 0) {
    int length = snprintf(text, sizeof text, "%ld %ld %ld %ld %ld\n", made[ALLOCATION], made[READ], made[WRITE], made[FILES],
                          refused);
    syscall(SYS_write, counts, text, (size_t)length);
  }
}

static int is_refused(enum request request) {
  long number = ++made[request];
  if ((int)request != wanted || number < at || (number > at && !also_after)) return 0;
  refused++;
  return 1;
}

static int no_memory(void) {
  if (!is_refused(ALLOCATION)) return 0;
  errno = ENOMEM;
  return 1;
}

void *malloc(size_t size) { return no_memory() ? NULL : __libc_malloc(size); }

void *realloc(void *old, size_t size) { return no_memory() ? NULL : __libc_realloc(old, size); }

void *calloc(size_t count, size_t size) { return no_memory() ? NULL : __libc_calloc(count, size); }

void *aligned_alloc(size_t align, size_t size) { return no_memory() ? NULL : __libc_memalign(align, size); }

int posix_memalign(void **to, size_t align, size_t size) {
  if (no_memory()) return ENOMEM;
  *to = __libc_memalign(align, size);
  return *to ? 0 : ENOMEM;
}

// What a refused read or write returns; `call` moves bytes in its place where one byte alone is to be moved.
static ssize_t moved(long call, int fd, void *bytes, size_t size) {
  if (outcome == SHORT && size) return syscall(call, fd, bytes, (size_t)1);
  errno = outcome == SIGNAL ? EINTR : outcome == AGAIN ? EAGAIN : outcome == FULL ? ENOSPC : EIO;
  return -1;
}

// Whether a request for a file is refused: then it fails.
static int no_file(void) {
  if (!is_refused(FILES)) return 0;
  errno = outcome == FULL ? ENOSPC : EIO;
  return 1;
}

int open64(const char *path, int flags, ...) {
  va_list rest;
  va_start(rest, flags);
  mode_t mode = flags & O_CREAT ? va_arg(rest, mode_t) : 0;
  va_end(rest);
  return no_file() ? -1 : (int)syscall(SYS_openat, AT_FDCWD, path, flags, mode);
}

int open(const char *path, int flags, ...) {
  va_list rest;
  va_start(rest, flags);
  mode_t mode = flags & O_CREAT ? va_arg(rest, mode_t) : 0;
  va_end(rest);
  return open64(path, flags, mode);
}

int openat(int folder, const char *path, int flags, ...) {
  va_list rest;
  va_start(rest, flags);
  mode_t mode = flags & O_CREAT ? va_arg(rest, mode_t) : 0;
  va_end(rest);
  return no_file() ? -1 : (int)syscall(SYS_openat, folder, path, flags, mode);
}

ssize_t getdents64(int fd, void *entries, size_t size) { return no_file() ? -1 : syscall(SYS_getdents64, fd, entries, size); }

int rename(const char *from, const char *to) {
  return no_file() ? -1 : (int)syscall(SYS_renameat2, AT_FDCWD, from, AT_FDCWD, to, 0);
}

int fsync(int fd) { return no_file() ? -1 : (int)syscall(SYS_fsync, fd); }

int ftruncate64(int fd, off64_t size) { return no_file() ? -1 : (int)syscall(SYS_ftruncate, fd, size); }

int ftruncate(int fd, off_t size) { return ftruncate64(fd, size); }

int flock(int fd, int how) { return no_file() ? -1 : (int)syscall(SYS_flock, fd, how); }

int fchmod(int fd, mode_t mode) { return no_file() ? -1 : (int)syscall(SYS_fchmod, fd, mode); }

int fchown(int fd, uid_t owner, gid_t group) { return no_file() ? -1 : (int)syscall(SYS_fchown, fd, owner, group); }

int getentropy(void *bytes, size_t size) {
  if (no_file()) return -1;
  return syscall(SYS_getrandom, bytes, size, 0) == (long)size ? 0 : -1;
}

char *realpath(const char *path, char *resolved) {
  if (no_file()) return NULL;
  char *(*true_call)(const char *, char *) = (char *(*)(const char *, char *))dlvsym(RTLD_NEXT, "realpath", "GLIBC_2.3");
  if (!true_call) true_call = (char *(*)(const char *, char *))dlsym(RTLD_NEXT, "realpath");
  return true_call(path, resolved);
}

ssize_t read(int fd, void *bytes, size_t size) {
  return is_refused(READ) ? moved(SYS_read, fd, bytes, size) : syscall(SYS_read, fd, bytes, size);
}

ssize_t write(int fd, const void *bytes, size_t size) {
  return is_refused(WRITE) ? moved(SYS_write, fd, (void *)bytes, size) : syscall(SYS_write, fd, bytes, size);
}
