/* What the toolchain's own library does for the program on x86-64, for Linux on arm64: memory, the words of the command line, the
 * environment, the number of the last error, and the one call that the program makes by its number. */
#include <errno.h>
#include <stdlib.h>
#include <sys/syscall.h>
#include <unistd.h>

typedef struct { size_t granted; void *block; } answer;

enum { NONE = -1, DOES_NOT_FIT = -2, FUTEX_OF_X86_64 = 202 };

extern char **environ;
static unsigned char nothing[1];
static size_t arg_count;
static char **args;

__attribute__((constructor)) static void keep(int count, char **words) {
  arg_count = (size_t)count;
  args = words;
}

/* A block of no bytes is one of its alignment, as on x86-64. Where none is granted, the block is one that is never used. */
static answer granted(void *block) { return (answer){block != 0, block ? block : nothing}; }
answer rattle_alloc(size_t bytes, size_t alignment) { return granted(malloc(bytes ? bytes : alignment)); }
answer rattle_realloc(void *block, size_t kept, size_t bytes, size_t alignment) {
  (void)kept;
  return granted(realloc(block, bytes ? bytes : alignment));
}
void rattle_dealloc(void *block) { free(block); }

static ssize_t copy_text(const char *text, unsigned char *to, size_t room) {
  size_t length = 0;
  if (!text) return NONE;
  for (; text[length]; length++) {
    if (length == room) return DOES_NOT_FIT;
    to[length] = (unsigned char)text[length];
  }
  return (ssize_t)length;
}

size_t rattle_arg_count(void) { return arg_count; }
ssize_t rattle_arg(size_t index, unsigned char *to, size_t room) { return copy_text(index < arg_count ? args[index] : 0, to, room); }
ssize_t rattle_env(const char *name, unsigned char *to, size_t room) { return copy_text(getenv(name), to, room); }
ssize_t rattle_env_at(size_t index, unsigned char *to, size_t room) {
  char **at = environ;
  while (at && *at && index) at++, index--;
  return copy_text(at ? *at : 0, to, room);
}
int rattle_errno(void) { return errno; }
void rattle_set_errno(int error) { errno = error; }

/* A lock waits and wakes by this call. Its number is that of x86-64, for which the module was made. */
long syscall_of_x86_64(long number, void *word, long operation, long value, void *limit, ...) {
  if (number == FUTEX_OF_X86_64) return syscall(SYS_futex, word, operation, value, limit, 0L, 0L);
  errno = ENOSYS;
  return -1;
}
