/* What a program asks for memory by, with one failure put in: that of the allocation of which FAIL_ALLOC tells the
   number. It is told by a line that is written to file 9. */
#include <stdatomic.h>
#include <stddef.h>
#include <stdlib.h>
#include <unistd.h>
void *__libc_malloc(size_t);
void *__libc_realloc(void *, size_t);
static atomic_long left;
__attribute__((constructor)) static void begin(void) { left = atol(getenv("FAIL_ALLOC")); }
static int fails(void) { return left > 0 && atomic_fetch_sub(&left, 1) == 1 && write(9, "failed\n", 7) == 7; }
void *malloc(size_t size) { return fails() ? NULL : __libc_malloc(size); }
void *realloc(void *old, size_t size) { return fails() ? NULL : __libc_realloc(old, size); }
