/* Preloaded into a program, it refuses allocations, each in a run of its own. At an allocation it forks: in the child that one is refused, and
   those after it are given; the parent waits for the child and goes on. So one run of the program tries all, and no child does again what came
   before. It takes these variables:

     REFUSE_RESULTS   the file that gets what the runs came to: for each way in which one ended a line 'STATUS COUNT FIRST BYTES', where STATUS
                      is the exit status, or 256 and the signal, FIRST the number of the first allocation that led to it, counted from 1, and
                      BYTES how much was written, then so many bytes and a line feed; and last a line 'allocations COUNT'
     REFUSE_STEP, REFUSE_REST   only the allocations are refused whose number, divided by STEP, leaves REST; those from 1 on where STEP is 1, and
                      none where it is 0

   It takes no memory by malloc itself, and needs Linux with the C library of GNU. */
#define _GNU_SOURCE
#include <errno.h>
#include <stdio.h>
#include <stdlib.h>
#include <string.h>
#include <sys/mman.h>
#include <sys/stat.h>
#include <sys/wait.h>
#include <unistd.h>

extern void *__libc_malloc(size_t);
extern void *__libc_calloc(size_t, size_t);
extern void *__libc_realloc(void *, size_t);
extern void *__libc_memalign(size_t, size_t);

enum { ENDS = 64, FILES = 16, SECONDS = 60 };

struct end {
  int status;
  unsigned long count, first;
  size_t length;
  char *bytes;
};

static struct end ends[ENDS];
static int ended, output = -1;
static const char *results;
static unsigned long made, step, rest;

static unsigned long number_of(const char *name) {
  const char *text = getenv(name);
  return text ? strtoul(text, NULL, 10) : 0;
}

static void fail(const char *why) {
  dprintf(2, "refuse.c: %s\n", why);
  _exit(99);
}

__attribute__((constructor)) static void begin(void) {
  step = number_of("REFUSE_STEP");
  rest = number_of("REFUSE_REST");
  output = memfd_create("output", 0);
  if (output < 0) fail("no file in memory");
  results = getenv("REFUSE_RESULTS");
}

/* Notes how a child ended, and what it wrote. */
static void note(int status) {
  struct stat about;
  if (fstat(output, &about) != 0) fail("the output is lost");
  size_t length = (size_t)about.st_size;
  char *bytes = length ? mmap(NULL, length, PROT_READ, MAP_PRIVATE, output, 0) : NULL;
  if (length && bytes == MAP_FAILED) fail("no room for the output");
  int i = 0;
  while (i < ended && !(ends[i].status == status && ends[i].length == length && (!length || !memcmp(ends[i].bytes, bytes, length)))) i++;
  if (i == ENDS) fail("more ways to end than can be told");
  if (i == ended) {
    ends[ended++] = (struct end){status, 0, made, length, NULL};
    if (length) {
      ends[i].bytes = mmap(NULL, length, PROT_READ | PROT_WRITE, MAP_PRIVATE | MAP_ANONYMOUS, -1, 0);
      if (ends[i].bytes == MAP_FAILED) fail("no room for the output");
      memcpy(ends[i].bytes, bytes, length);
    }
  }
  ends[i].count++;
  if (length) munmap(bytes, length);
}

/* Whether this allocation is refused. */
static int is_refused(void) {
  if (!results) return 0;
  made++;
  if (!step || made % step != rest) return 0;
  off_t places[FILES];
  for (int file = 3; file < FILES; file++) places[file] = file == output ? -1 : lseek(file, 0, SEEK_CUR);
  if (ftruncate(output, 0) != 0 || lseek(output, 0, SEEK_SET) != 0) fail("the output isn't empty");
  int kept = errno;
  pid_t child = fork();
  if (child < 0) fail("no child");
  if (child == 0) {
    results = NULL;
    alarm(SECONDS);
    if (dup2(output, 1) < 0) fail("no output");
    errno = ENOMEM;
    return 1;
  }
  int status;
  if (waitpid(child, &status, 0) != child) fail("a child is lost");
  note(WIFSIGNALED(status) ? 256 + WTERMSIG(status) : WEXITSTATUS(status));
  /* (the child reads the same open files) */
  for (int file = 3; file < FILES; file++)
    if (places[file] >= 0) lseek(file, places[file], SEEK_SET);
  errno = kept;
  return 0;
}

__attribute__((destructor)) static void tell(void) {
  if (!results) return;
  FILE *to = NULL;
  const char *name = results;
  results = NULL;
  to = fopen(name, "w");
  if (!to) fail("the results can't be written");
  for (int i = 0; i < ended; i++) {
    fprintf(to, "%d %lu %lu %zu\n", ends[i].status, ends[i].count, ends[i].first, ends[i].length);
    fwrite(ends[i].bytes, 1, ends[i].length, to);
    fputc('\n', to);
  }
  fprintf(to, "allocations %lu\n", made);
  if (fclose(to) != 0) fail("the results can't be written");
}

void *malloc(size_t size) { return is_refused() ? NULL : __libc_malloc(size); }

void *calloc(size_t count, size_t size) { return is_refused() ? NULL : __libc_calloc(count, size); }

void *realloc(void *old, size_t size) { return is_refused() ? NULL : __libc_realloc(old, size); }

void *memalign(size_t align, size_t size) { return is_refused() ? NULL : __libc_memalign(align, size); }

void *aligned_alloc(size_t align, size_t size) { return memalign(align, size); }

int posix_memalign(void **to, size_t align, size_t size) {
  void *got = memalign(align, size);
  if (!got) return ENOMEM;
  *to = got;
  return 0;
}
