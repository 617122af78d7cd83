/* Standard streams that move a byte a call, and of which one call fails: FAIL_READ and FAIL_WRITE have the numbers of the
   calls, from 0 on, on standard input and on standard output. */
#define _GNU_SOURCE
#include <errno.h>
#include <stdlib.h>
#include <sys/syscall.h>
#include <unistd.h>
static long reads, writes, bad_read = -1, bad_write = -1;
__attribute__((constructor)) static void begin(void) {
  if (getenv("FAIL_READ")) bad_read = atol(getenv("FAIL_READ"));
  if (getenv("FAIL_WRITE")) bad_write = atol(getenv("FAIL_WRITE"));
}
static int fails(void) { errno = EIO; return -1; }
ssize_t read(int file, void *to, size_t size) {
  if (file != 0) return syscall(SYS_read, file, to, size);
  if (reads++ == bad_read) return fails();
  return syscall(SYS_read, file, to, size ? 1 : 0);
}
ssize_t write(int file, const void *from, size_t size) {
  if (file != 1) return syscall(SYS_write, file, from, size);
  if (writes++ == bad_write) return fails();
  return syscall(SYS_write, file, from, size ? 1 : 0);
}
