/* Loaded before the C library by tools/try-refused and tools/try-streams: it counts calls of the program, and lets some of them fail.

   FAULT_KIND   memory, open, read, write or close: the calls that fail
   FAULT_ON     a descriptor: only calls on it are counted and fail
   FAULT_AT     the number of the call that fails, from 1; with FAULT_AFTER all after it fail too
   FAULT_TWICE  each call fails at first, and is made when it is repeated
   FAULT_ERROR  the error of a call that fails, as a number
   FAULT_SIZE   the call of the number FAULT_AT doesn't fail: before it the file is made so many bytes long
   FAULT_MOST   a read or a write takes at most so many bytes
   FAULT_COUNTS a file for the counts: of each kind, and the calls for memory before the first write */
#define _GNU_SOURCE
#include <dlfcn.h>
#include <errno.h>
#include <fcntl.h>
#include <stdarg.h>
#include <stdio.h>
#include <stdlib.h>
#include <string.h>
#include <sys/syscall.h>
#include <unistd.h>

enum { MEMORY, OPEN, READ, WRITE, CLOSE, KINDS };
static const char *const names[KINDS] = {"memory", "open", "read", "write", "close"};

static int ready, kind = -1, on = -1, after, twice, error;
static unsigned long at, calls[KINDS], before_write;
static long size = -1, most = -1;

static void *(*real_malloc)(size_t);
static void *(*real_realloc)(void *, size_t);
static int (*real_open)(const char *, int, ...);
static int (*real_openat)(int, const char *, int, ...);
static ssize_t (*real_read)(int, void *, size_t);
static ssize_t (*real_write)(int, const void *, size_t);
static int (*real_close)(int);

static void find(void) {
  if (real_close) return;
  real_malloc = dlsym(RTLD_NEXT, "malloc");
  real_realloc = dlsym(RTLD_NEXT, "realloc");
  real_open = dlsym(RTLD_NEXT, "open");
  real_openat = dlsym(RTLD_NEXT, "openat");
  real_read = dlsym(RTLD_NEXT, "read");
  real_write = dlsym(RTLD_NEXT, "write");
  real_close = dlsym(RTLD_NEXT, "close");
}

static long number_of(const char *name, long otherwise) {
  const char *text = getenv(name);
  return text ? strtol(text, 0, 10) : otherwise;
}

__attribute__((constructor)) static void begin(void) {
  const char *text = getenv("FAULT_KIND");
  find();
  for (int it = 0; text && it < KINDS; it++)
    if (!strcmp(text, names[it])) kind = it;
  on = (int)number_of("FAULT_ON", -1);
  at = (unsigned long)number_of("FAULT_AT", 0);
  after = getenv("FAULT_AFTER") != 0;
  twice = getenv("FAULT_TWICE") != 0;
  error = (int)number_of("FAULT_ERROR", kind == MEMORY ? ENOMEM : EIO);
  size = number_of("FAULT_SIZE", -1);
  most = number_of("FAULT_MOST", -1);
  ready = 1;
}

__attribute__((destructor)) static void end(void) {
  char text[200];
  const char *path = getenv("FAULT_COUNTS");
  ready = 0;
  if (!path) return;
  int to = (int)syscall(SYS_openat, AT_FDCWD, path, O_WRONLY | O_CREAT | O_TRUNC, 0644);
  int length = snprintf(text, sizeof text, "%lu %lu %lu %lu %lu %lu\n", calls[MEMORY], calls[OPEN], calls[READ], calls[WRITE],
                        calls[CLOSE], before_write);
  if (to >= 0 && syscall(SYS_write, to, text, length) >= 0) syscall(SYS_close, to);
}

/* Counts a call, and says whether it is one of those that fail. */
static int is_chosen(int which, int descriptor) {
  if (!ready || (which == kind && on >= 0 && descriptor != on)) return 0;
  unsigned long number = ++calls[which];
  if (which != kind) return 0;
  if (twice) return number % 2 == 1;
  return number == at || (after && at && number > at);
}

static int fails(int which, int descriptor) {
  if (!is_chosen(which, descriptor)) return 0;
  errno = error;
  return 1;
}

void *malloc(size_t bytes) {
  find();
  return fails(MEMORY, -1) ? 0 : real_malloc(bytes);
}

void *realloc(void *there, size_t bytes) {
  find();
  return fails(MEMORY, -1) ? 0 : real_realloc(there, bytes);
}

/* The mode of a file that a call may make. */
#define MODE(flags, mode)                \
  int mode = 0;                          \
  if ((flags) & (O_CREAT | O_TMPFILE)) { \
    va_list rest;                        \
    va_start(rest, flags);               \
    mode = va_arg(rest, int);            \
    va_end(rest);                        \
  }

int open(const char *path, int flags, ...) {
  MODE(flags, mode)
  find();
  return fails(OPEN, -1) ? -1 : real_open(path, flags, mode);
}

int open64(const char *path, int flags, ...) {
  MODE(flags, mode)
  find();
  return fails(OPEN, -1) ? -1 : real_open(path, flags, mode);
}

int openat(int folder, const char *path, int flags, ...) {
  MODE(flags, mode)
  find();
  return fails(OPEN, -1) ? -1 : real_openat(folder, path, flags, mode);
}

int openat64(int folder, const char *path, int flags, ...) {
  MODE(flags, mode)
  find();
  return fails(OPEN, -1) ? -1 : real_openat(folder, path, flags, mode);
}

/* How many bytes a call takes of those that it is given. */
static size_t taken(int which, int descriptor, size_t bytes) {
  int is_short = ready && which == kind && most >= 0 && (on < 0 || on == descriptor);
  return is_short && bytes > (size_t)most ? (size_t)most : bytes;
}

static void resize(int descriptor) {
  char path[40];
  snprintf(path, sizeof path, "/proc/self/fd/%d", descriptor);
  if (truncate(path, size)) abort();
}

ssize_t read(int descriptor, void *to, size_t bytes) {
  find();
  if (is_chosen(READ, descriptor)) {
    if (size < 0) {
      errno = error;
      return -1;
    }
    resize(descriptor);
  }
  return real_read(descriptor, to, taken(READ, descriptor, bytes));
}

ssize_t write(int descriptor, const void *from, size_t bytes) {
  find();
  if (descriptor == 1 && !calls[WRITE]) before_write = calls[MEMORY];
  if (fails(WRITE, descriptor)) return -1;
  bytes = taken(WRITE, descriptor, bytes);
  return bytes ? real_write(descriptor, from, bytes) : 0;
}

int close(int descriptor) {
  find();
  int outcome = real_close(descriptor);
  return fails(CLOSE, descriptor) ? -1 : outcome;
}
