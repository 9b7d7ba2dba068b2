/* Counts what the library asks of malloc and realloc, and can refuse one such
 * request. Linked with -Wl,--wrap=malloc,--wrap=realloc,--wrap=free. */
#ifndef WRAPPED_H
#define WRAPPED_H
#include <stddef.h>

void *__real_malloc(size_t size);
void *__real_realloc(void *at, size_t size);
void __real_free(void *at);
void *__wrap_malloc(size_t size);
void *__wrap_realloc(void *at, size_t size);
void __wrap_free(void *at);

/* The request to be refused, if above 0; how many were made; how many pieces of
 * memory are held. */
static long countdown, asked, held;

static int refuses(void) {
  asked++;
  return countdown > 0 && --countdown == 0;
}

void *__wrap_malloc(size_t size) {
  if (refuses())
    return NULL;
  held++;
  return __real_malloc(size);
}

void *__wrap_realloc(void *at, size_t size) {
  if (refuses())
    return NULL;
  held += at == NULL;
  return __real_realloc(at, size);
}

void __wrap_free(void *at) {
  held -= at != NULL;
  __real_free(at);
}
#endif
