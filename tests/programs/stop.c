// A library to preload into a program (LD_PRELOAD): it counts the requests by which the program changes files, and stops one of
// them, so that a test sees what the files then hold.
//
//   STOP_AT=N             which request is stopped, from 1: a write at a place, a change of length, a sync; 0: none
//   STOP_HOW=fail, full, kill, torn or after
//                         it fails (EIO); it fails as where the disk is full (ENOSPC); the program is killed before it, or when a
//                         half of the write is done, or behind it
//   STOP_ALSO_AFTER=1     where it fails, each one after it fails as well
//   STOP_COUNT=FD         at exit the number of requests goes to this file descriptor
//
// Needs Linux, whose calls are reached by their numbers.
#define _GNU_SOURCE
#include <errno.h>
#include <stdio.h>
#include <stdlib.h>
#include <string.h>
#include <sys/syscall.h>
#include <sys/types.h>
#include <unistd.h>

enum how { FAIL, FULL, KILL, TORN, AFTER, HOWS };
static const char *const how_names[] = {"fail", "full", "kill", "torn", "after"};

static long made, at;
static int how = FAIL, also_after, count = -1;

static long number(const char *name, long otherwise) {
  const char *text = getenv(name);
  return text ? atol(text) : otherwise;
}

__attribute__((constructor)) static void begin(void) {
  const char *text = getenv("STOP_HOW");
  at = number("STOP_AT", 0);
  also_after = number("STOP_ALSO_AFTER", 0) != 0;
  count = number("STOP_COUNT", -1);
  for (int i = 0; text && i < HOWS; i++) {
    if (!strcmp(text, how_names[i])) how = i;
  }
}

__attribute__((destructor)) static void end(void) {
  char text[32];
  if (count >= 0) syscall(SYS_write, count, text, (size_t)snprintf(text, sizeof text, "%ld\n", made));
}

static void kill_now(void) { syscall(SYS_kill, syscall(SYS_getpid), 9); }

// Whether the request that is made now is stopped.
static int is_stopped(void) {
  long n = ++made;
  return at > 0 && (n == at || (n > at && also_after && how <= FULL));
}

// What a request returns that is stopped: of `size` bytes a half may be written first, by `call`.
static long stopped(long call, int fd, const void *bytes, size_t size, off_t place) {
  if (how == FAIL || how == FULL) {
    errno = how == FAIL ? EIO : ENOSPC;
    return -1;
  }
  if (how == TORN && size) syscall(call, fd, bytes, size / 2, place);
  if (how == AFTER) syscall(call, fd, bytes, size, place);
  kill_now();
  return -1;
}

ssize_t pwrite64(int fd, const void *bytes, size_t size, off64_t place) {
  return is_stopped() ? stopped(SYS_pwrite64, fd, bytes, size, place) : syscall(SYS_pwrite64, fd, bytes, size, place);
}

ssize_t pwrite(int fd, const void *bytes, size_t size, off_t place) { return pwrite64(fd, bytes, size, place); }

int ftruncate64(int fd, off64_t size) {
  return is_stopped() ? stopped(SYS_ftruncate, fd, (const void *)size, 0, 0) : syscall(SYS_ftruncate, fd, size);
}

int ftruncate(int fd, off_t size) { return ftruncate64(fd, size); }

int fsync(int fd) { return is_stopped() ? stopped(SYS_fsync, fd, NULL, 0, 0) : syscall(SYS_fsync, fd); }

int fdatasync(int fd) { return is_stopped() ? stopped(SYS_fdatasync, fd, NULL, 0, 0) : syscall(SYS_fdatasync, fd); }
