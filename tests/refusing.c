// A library to be loaded before the C library: it counts calls of the system, and lets some of them fail.
//     DCVALID_COUNTS=FILE   at the end the numbers of growths, opens, reads and writes stand in the file
//     DCVALID_REFUSES=WHAT  which calls: growth, open, read, write
//     DCVALID_FIRST=N       the Nth of them fails, counted from 1
//     DCVALID_FROM_THERE=1  and so do all later ones
//     DCVALID_SHORT=1       each read and write moves one byte
#define _GNU_SOURCE
#include <dlfcn.h>
#include <errno.h>
#include <fcntl.h>
#include <stdarg.h>
#include <stdio.h>
#include <stdlib.h>
#include <string.h>
#include <sys/types.h>
#include <unistd.h>

enum call { GROWTH, OPEN, READ, WRITE };
static const char *const names[] = {"growth", "open", "read", "write"};
static unsigned long counts[4];
static int begun, refuses = -1, from_there, is_short;
static unsigned long first;

static const char *setting(const char *name) {
  const char *value = getenv(name);
  return value ? value : "";
}

// The settings are read as soon as the library is there, and calls before that are not counted.
__attribute__((constructor)) static void begin(void) {
  for (int call = 0; call < 4; call++)
    if (!strcmp(setting("DCVALID_REFUSES"), names[call])) refuses = call;
  first = strtoul(setting("DCVALID_FIRST"), NULL, 10);
  from_there = *setting("DCVALID_FROM_THERE") != 0;
  is_short = *setting("DCVALID_SHORT") != 0;
  begun = 1;
}

__attribute__((destructor)) static void end(void) {
  begun = 0;
  const char *name = setting("DCVALID_COUNTS");
  if (!*name) return;
  FILE *file = fopen(name, "w");
  if (!file) return;
  for (int call = 0; call < 4; call++) fprintf(file, "%lu\n", counts[call]);
  fclose(file);
}

static int fails(enum call call) {
  if (!begun) return 0;
  unsigned long number = ++counts[call];
  return (int)call == refuses && (number == first || (from_there && number > first));
}

extern void *__libc_malloc(size_t);
extern void *__libc_realloc(void *, size_t);

void *malloc(size_t size) { return fails(GROWTH) ? NULL : __libc_malloc(size); }

void *realloc(void *old, size_t size) { return fails(GROWTH) ? NULL : __libc_realloc(old, size); }

static int opened(int (*next)(const char *, int, ...), const char *name, int flags, mode_t mode) {
  if (fails(OPEN)) {
    errno = EMFILE;
    return -1;
  }
  return next(name, flags, mode);
}

#define OPENING(name)                                                             \
  int name(const char *path, int flags, ...) {                                    \
    va_list rest;                                                                 \
    va_start(rest, flags);                                                        \
    mode_t mode = (flags & O_CREAT) ? va_arg(rest, mode_t) : 0;                   \
    va_end(rest);                                                                 \
    return opened((int (*)(const char *, int, ...))dlsym(RTLD_NEXT, #name), path, flags, mode); \
  }
OPENING(open)
OPENING(open64)

ssize_t read(int file, void *bytes, size_t size) {
  static ssize_t (*next)(int, void *, size_t);
  if (!next) next = (ssize_t (*)(int, void *, size_t))dlsym(RTLD_NEXT, "read");
  if (fails(READ)) {
    errno = EIO;
    return -1;
  }
  return next(file, bytes, is_short && size > 1 ? 1 : size);
}

ssize_t write(int file, const void *bytes, size_t size) {
  static ssize_t (*next)(int, const void *, size_t);
  if (!next) next = (ssize_t (*)(int, const void *, size_t))dlsym(RTLD_NEXT, "write");
  if (fails(WRITE)) {
    errno = EIO;
    return -1;
  }
  return next(file, bytes, is_short && size > 1 ? 1 : size);
}
