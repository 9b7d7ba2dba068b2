/* The input of a harness, from which it draws calls and bytes. With -DMAIN the
 * program runs over the files that are named. */
#ifndef INPUT_H
#define INPUT_H
#include <stdint.h>
#include <stdio.h>
#include <stdlib.h>

int LLVMFuzzerTestOneInput(const uint8_t *data, size_t size);

static struct {
  const uint8_t *at;
  size_t left;
} input;

/* The number in the next bytes, or in those that are left. */
static uint64_t take(unsigned bytes) {
  uint64_t value = 0;
  for (; bytes > 0 && input.left > 0; bytes--, input.left--)
    value = value << 8 | *input.at++;
  return value;
}

/* What holds whatever the input is. */
static void must(int holds) {
  if (!holds)
    abort();
}

#ifdef MAIN
int main(int argc, char **argv) {
  static uint8_t data[1 << 16];
  for (int i = 1; i < argc; i++) {
    FILE *file = fopen(argv[i], "rb");
    if (!file)
      return 2;
    (void)LLVMFuzzerTestOneInput(data, fread(data, 1, sizeof data, file));
    fclose(file);
  }
  return 0;
}
#endif
#endif
