// For `fail-alloc`: loaded before the C library, it refuses the one growth of memory whose number, from 1, stands in REFUSE_AT, and writes
// its size into the file REFUSE_TOLD then. The growths of all threads are counted together, as they come.
#include <errno.h>
#include <fcntl.h>
#include <stdatomic.h>
#include <stddef.h>
#include <stdlib.h>
#include <unistd.h>

extern void *__libc_malloc(size_t size);
extern void *__libc_calloc(size_t count, size_t size);
extern void *__libc_realloc(void *old, size_t size);
extern void *__libc_memalign(size_t align, size_t size);

static atomic_long left = -1;
static const char *told;

__attribute__((constructor)) static void begin(void) {
  const char *at = getenv("REFUSE_AT");
  told = getenv("REFUSE_TOLD");
  left = at ? atol(at) : -1;
}

static int is_refused(size_t size) {
  if (left <= 0 || atomic_fetch_sub(&left, 1) != 1) return 0;
  if (told) {
    int file = open(told, O_CREAT | O_WRONLY, 0600);
    if (write(file, &size, sizeof size) < 0) abort();
    close(file);
  }
  errno = ENOMEM;
  return 1;
}

void *malloc(size_t size) { return is_refused(size) ? NULL : __libc_malloc(size); }
void *calloc(size_t count, size_t size) { return is_refused(count * size) ? NULL : __libc_calloc(count, size); }
void *realloc(void *old, size_t size) { return is_refused(size) ? NULL : __libc_realloc(old, size); }
void *aligned_alloc(size_t align, size_t size) { return is_refused(size) ? NULL : __libc_memalign(align, size); }

int posix_memalign(void **made, size_t align, size_t size) {
  if (is_refused(size)) return ENOMEM;
  *made = __libc_memalign(align, size);
  return *made ? 0 : ENOMEM;
}
