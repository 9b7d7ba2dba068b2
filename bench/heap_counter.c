/* Counts the bytes on the heap of the program into which it is preloaded. A
 * block counts as what glibc takes for it: its usable size and eight bytes.
 *
 *     cc -O2 -shared -fPIC heap_counter.c -o heap_counter.so
 */
#include <errno.h>
#include <malloc.h>
#include <stdint.h>
#include <stdlib.h>

/* The allocator of glibc under its other names. */
extern void *__libc_malloc(size_t size);
extern void *__libc_calloc(size_t count, size_t size);
extern void *__libc_realloc(void *block, size_t size);
extern void *__libc_memalign(size_t alignment, size_t size);
extern void __libc_free(void *block);

int64_t heap_now(void);
int64_t heap_peak(void);
int64_t heap_taken(void);

static int64_t now, peak, taken;

static int64_t size_of(void *block) {
  return block == NULL ? 0 : (int64_t)malloc_usable_size(block) + 8;
}

static void *count(void *block) {
  if (block != NULL) {
    now += size_of(block);
    taken++;
    if (now > peak)
      peak = now;
  }
  return block;
}

void *malloc(size_t size) { return count(__libc_malloc(size)); }

void *calloc(size_t number, size_t size) {
  return count(__libc_calloc(number, size));
}

void free(void *block) {
  now -= size_of(block);
  __libc_free(block);
}

void *realloc(void *block, size_t size) {
  int64_t before = size_of(block);
  void *moved = __libc_realloc(block, size);
  if (moved != NULL || size == 0)
    now -= before;
  return count(moved);
}

void *memalign(size_t alignment, size_t size) {
  return count(__libc_memalign(alignment, size));
}

void *aligned_alloc(size_t alignment, size_t size) {
  return memalign(alignment, size);
}

int posix_memalign(void **block, size_t alignment, size_t size) {
  *block = memalign(alignment, size);
  return *block == NULL ? ENOMEM : 0;
}

int64_t heap_now(void) { return now; }

int64_t heap_peak(void) {
  int64_t most = peak;
  peak = now;
  return most;
}

int64_t heap_taken(void) { return taken; }
