/* Loaded before the C library: each write to standard output is interrupted before it writes anything, and the others go through. */
#define _GNU_SOURCE
#include <errno.h>
#include <sys/syscall.h>
#include <unistd.h>

static ssize_t interrupted(int file, const void *bytes, size_t count) {
  if (file != STDOUT_FILENO) return syscall(SYS_write, file, bytes, count);
  errno = EINTR;
  return -1;
}

ssize_t write(int file, const void *bytes, size_t count) { return interrupted(file, bytes, count); }

ssize_t __write(int file, const void *bytes, size_t count) { return interrupted(file, bytes, count); }
