// The heap of a Rattle program, which refuses one request for memory, and a
// loop that runs the program many times.
//
// The loop reads lines `NUMBER INPUT OUTPUT` from standard input. For each it
// runs the program with the file INPUT as its standard input and OUTPUT as its
// standard output, refuses the request for memory of that number, counted from
// 1 (0: none), and prints the exit status and how many requests there were.
#define _GNU_SOURCE
#include <fcntl.h>
#include <stdio.h>
#include <stdlib.h>
#include <sys/mman.h>
#include <sys/wait.h>
#include <unistd.h>

enum { NAME = 1000, SECONDS = 60 };

struct answer {
  unsigned long is_given;
  void *memory;
};

static unsigned long *requests;
static unsigned long refused;
static char nowhere;

static struct answer answer_of(void *memory) {
  return (struct answer){memory != NULL, memory ? memory : &nowhere};
}

static int is_refused(void) { return requests && ++*requests == refused; }

struct answer rattle_alloc(size_t size, size_t alignment) {
  return answer_of(is_refused() ? NULL : malloc(size ? size : alignment));
}

struct answer rattle_realloc(void *old, size_t old_size, size_t size,
                             size_t alignment) {
  (void)old_size;
  return answer_of(is_refused() ? NULL : realloc(old, size ? size : alignment));
}

void rattle_dealloc(void *memory) { free(memory); }

static void open_as(int number, const char *name, int flags) {
  int file = open(name, flags, 0600);
  if (file < 0 || dup2(file, number) < 0) {
    _exit(125);
  }
}

// Returns in each child, whose main is then the program's own.
__attribute__((constructor)) static void run_many(void) {
  FILE *orders = fdopen(dup(0), "r"), *answers = fdopen(dup(1), "w");
  char line[2 * NAME + 40], input[NAME], output[NAME];
  requests = mmap(NULL, sizeof *requests, PROT_READ | PROT_WRITE,
                  MAP_SHARED | MAP_ANONYMOUS, -1, 0);
  if (!orders || !answers || requests == MAP_FAILED) {
    _exit(125);
  }
  while (fgets(line, sizeof line, orders)) {
    if (sscanf(line, "%lu %999s %999s", &refused, input, output) != 3) {
      _exit(125);
    }
    *requests = 0;
    pid_t child = fork();
    if (child == 0) {
      open_as(0, input, O_RDONLY);
      open_as(1, output, O_WRONLY | O_CREAT | O_TRUNC);
      alarm(SECONDS);
      return;
    }
    int status;
    if (child < 0 || waitpid(child, &status, 0) < 0) {
      _exit(125);
    }
    fprintf(answers, "%d %lu\n",
            WIFEXITED(status) ? WEXITSTATUS(status) : 128 + WTERMSIG(status),
            *requests);
    fflush(answers);
  }
  _exit(0);
}
