/* The part of an operating system that the program asks for, as WebAssembly: the words of its command line, files to read, the three
 * standard streams, and an end. The host gives `host.open`, `host.read`, `host.write` and `host.exit`. `open` answers a descriptor
 * above 4, or a number below 0 where there is no such file. Descriptor 4 gives the words, each with a nul behind it; of more than
 * fit, the last ones are left out. */
typedef unsigned long size;
typedef long count;

__attribute__((import_module("host"), import_name("open"))) count host_open(const char *path, size length);
__attribute__((import_module("host"), import_name("read"))) count host_read(int descriptor, void *to, size most);
__attribute__((import_module("host"), import_name("write"))) count host_write(int descriptor, const void *from, size most);
__attribute__((import_module("host"), import_name("exit"), noreturn)) void host_exit(int status);

enum { NO_SUCH_FILE = 2, INPUT_OUTPUT = 5, OUT_OF_RANGE = 34, THE_WORDS = 4, MOST_BYTES = 1 << 16 };
static char command_line[MOST_BYTES];
static size bytes_of_words;
static int last_error;

static count copy_text(const char *text, unsigned char *to, size room) {
  size length = 0;
  while (text[length]) {
    if (length == room) return -2;
    to[length] = (unsigned char)text[length];
    length++;
  }
  return (count)length;
}

static count answered(count result) {
  if (result < 0) last_error = INPUT_OUTPUT;
  return result < 0 ? -1 : result;
}

/* Reads the words of the command line, where they are not read yet. */
static void read_words(void) {
  while (bytes_of_words < MOST_BYTES) {
    count more = host_read(THE_WORDS, command_line + bytes_of_words, MOST_BYTES - bytes_of_words);
    if (more <= 0) return;
    bytes_of_words += (size)more;
  }
}

size rattle_arg_count(void) {
  size words = 0;
  read_words();
  for (size at = 0; at < bytes_of_words; at++) words += !command_line[at];
  return words;
}

count rattle_arg(size index, unsigned char *to, size room) {
  const char *word = command_line;
  if (index >= rattle_arg_count()) return -1;
  while (index--) {
    while (*word++) {
    }
  }
  return copy_text(word, to, room);
}
count rattle_env(const unsigned char *name, unsigned char *to, size room) { return -1; }
count rattle_env_at(size index, unsigned char *to, size room) { return -1; }
int rattle_errno(void) { return last_error; }
void rattle_set_errno(int error) { last_error = error; }

int open(const char *path, int flags, ...) {
  size length = 0;
  while (path[length]) length++;
  count descriptor = host_open(path, length);
  if (descriptor > THE_WORDS) return (int)descriptor;
  last_error = NO_SUCH_FILE;
  return -1;
}
int close(int descriptor) { return 0; }
_Noreturn void _exit(int status) { host_exit(status); }
count read(int descriptor, void *to, size most) { return answered(host_read(descriptor, to, most)); }
count write(int descriptor, const void *from, size most) { return answered(host_write(descriptor, from, most)); }
count __write(int descriptor, const void *from, size most) { return write(descriptor, from, most); }
/* No stream is a terminal, and nothing is known of the file but its bytes. */
int isatty(int descriptor) { return 0; }
int statx(int folder, const char *path, int flags, unsigned mask, void *to) {
  last_error = NO_SUCH_FILE;
  return -1;
}
long __sysv_signal(int signal, long handler) { return 0; }
int __xpg_strerror_r(int error, unsigned char *to, size room) {
  count length = copy_text("input or output failed", to, room ? room - 1 : 0);
  if (length < 0) return OUT_OF_RANGE;
  to[length] = 0;
  return 0;
}
