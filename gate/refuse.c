/* Is loaded before a program (LD_PRELOAD), and makes one of its calls of the system fail. Calls are counted from 1:
     REFUSE_MEMORY=N   the N-th call of malloc or realloc gives nothing
     FAIL_IO=N         the N-th call of read or write fails with an error of input and output
     SHORT_IO=N        the N-th call of read or write moves one byte at most
   At its end the program's counts are written to the file that REFUSE_COUNTS names: "allocations calls". */
#include <errno.h>
#include <fcntl.h>
#include <stdatomic.h>
#include <stdio.h>
#include <stdlib.h>
#include <sys/syscall.h>
#include <unistd.h>

extern void *__libc_malloc(size_t size);
extern void *__libc_realloc(void *place, size_t size);

static atomic_long allocations, calls;
static long refused, failed, shortened;

static long number_in(const char *key) {
  const char *text = getenv(key);
  return text == NULL ? 0 : strtol(text, NULL, 10);
}

__attribute__((constructor)) static void start(void) {
  refused = number_in("REFUSE_MEMORY");
  failed = number_in("FAIL_IO");
  shortened = number_in("SHORT_IO");
  atomic_store(&allocations, 0);
}

static void write_counts(void) {
  const char *path = getenv("REFUSE_COUNTS");
  char text[64];
  if (path == NULL) return;
  int file = open(path, O_WRONLY | O_CREAT | O_TRUNC, 0644);
  int size = snprintf(text, sizeof text, "%ld %ld\n", atomic_load(&allocations), atomic_load(&calls));
  syscall(SYS_write, file, text, (size_t)size);
  close(file);
}

__attribute__((destructor)) static void end(void) { write_counts(); }

/* A program may end without its destructors. */
void _exit(int status) {
  write_counts();
  for (;;) syscall(SYS_exit_group, status);
}

static int is_refused(void) { return atomic_fetch_add(&allocations, 1) + 1 == refused; }

void *malloc(size_t size) { return is_refused() ? NULL : __libc_malloc(size); }

void *realloc(void *place, size_t size) { return is_refused() ? NULL : __libc_realloc(place, size); }

/* A call of read or write, by its number in the system. */
static ssize_t move(long which, int file, void *bytes, size_t size) {
  long call = atomic_fetch_add(&calls, 1) + 1;
  if (call == failed) {
    errno = EIO;
    return -1;
  }
  return syscall(which, file, bytes, call == shortened && size > 1 ? 1 : size);
}

ssize_t read(int file, void *bytes, size_t size) { return move(SYS_read, file, bytes, size); }

ssize_t write(int file, const void *bytes, size_t size) { return move(SYS_write, file, (void *)bytes, size); }
