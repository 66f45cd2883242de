/*
 * A library that is loaded before the program's own (LD_PRELOAD) and refuses one of its calls: the one whose number
 * among those of its kind, from 1, is in REFUSED_NUMBER; 0 refuses none.
 *
 * REFUSED_KIND is `memory` (growths of memory) or `calls` (calls on files, folders and streams). A refused growth
 * gives no memory, and a refused call fails with the number that REFUSED_ERROR has. How many calls of the kind there
 * were is counted in the file REFUSED_COUNT, which has room for a number, so that it is there however the program ends.
 */
#define _GNU_SOURCE
#include <dlfcn.h>
#include <errno.h>
#include <fcntl.h>
#include <stdarg.h>
#include <stddef.h>
#include <stdlib.h>
#include <string.h>
#include <sys/mman.h>
#include <sys/stat.h>
#include <sys/types.h>
#include <unistd.h>

static unsigned long *count;
static unsigned long number;
static int error;
static int memory;

#define REAL(name) ((__typeof__(&name))dlsym(RTLD_NEXT, #name))

__attribute__((constructor)) static void begin(void) {
  const char *kind = getenv("REFUSED_KIND"), *file = getenv("REFUSED_COUNT");
  if (!kind || !file) return;
  int handle = REAL(open)(file, O_RDWR);
  void *counter = mmap(NULL, sizeof *count, PROT_READ | PROT_WRITE, MAP_SHARED, handle, 0);
  if (handle < 0 || counter == MAP_FAILED) abort();
  close(handle);
  number = strtoul(getenv("REFUSED_NUMBER"), NULL, 10);
  error = atoi(getenv("REFUSED_ERROR"));
  memory = !strcmp(kind, "memory");
  count = counter;
  *count = 0;
}

/* Whether this call is the one to refuse. */
static int is_refused(int is_memory) {
  if (!count || is_memory != memory || ++*count != number) return 0;
  errno = is_memory ? ENOMEM : error;
  return 1;
}

/* ---- growths of memory */

void *__libc_malloc(size_t);
void *__libc_calloc(size_t, size_t);
void *__libc_realloc(void *, size_t);
void *__libc_memalign(size_t, size_t);

void *malloc(size_t size) { return is_refused(1) ? NULL : __libc_malloc(size); }

void *calloc(size_t many, size_t size) { return is_refused(1) ? NULL : __libc_calloc(many, size); }

void *realloc(void *old, size_t size) { return is_refused(1) ? NULL : __libc_realloc(old, size); }

void *aligned_alloc(size_t align, size_t size) { return is_refused(1) ? NULL : __libc_memalign(align, size); }

int posix_memalign(void **out, size_t align, size_t size) {
  if (is_refused(1)) return ENOMEM;
  *out = __libc_memalign(align, size);
  return *out ? 0 : ENOMEM;
}

/* ---- calls on files, folders and streams */

static mode_t mode_in(int flags, va_list rest) { return flags & (O_CREAT | O_TMPFILE) ? va_arg(rest, mode_t) : 0; }

int open(const char *path, int flags, ...) {
  va_list rest;
  va_start(rest, flags);
  mode_t mode = mode_in(flags, rest);
  va_end(rest);
  return is_refused(0) ? -1 : REAL(open)(path, flags, mode);
}

int openat(int folder, const char *path, int flags, ...) {
  va_list rest;
  va_start(rest, flags);
  mode_t mode = mode_in(flags, rest);
  va_end(rest);
  return is_refused(0) ? -1 : REAL(openat)(folder, path, flags, mode);
}

ssize_t read(int file, void *bytes, size_t size) { return is_refused(0) ? -1 : REAL(read)(file, bytes, size); }

ssize_t write(int file, const void *bytes, size_t size) { return is_refused(0) ? -1 : REAL(write)(file, bytes, size); }

int mkdir(const char *path, mode_t mode) { return is_refused(0) ? -1 : REAL(mkdir)(path, mode); }

int rename(const char *from, const char *to) { return is_refused(0) ? -1 : REAL(rename)(from, to); }

int rmdir(const char *path) { return is_refused(0) ? -1 : REAL(rmdir)(path); }

int unlink(const char *path) { return is_refused(0) ? -1 : REAL(unlink)(path); }

int unlinkat(int folder, const char *path, int flags) { return is_refused(0) ? -1 : REAL(unlinkat)(folder, path, flags); }

int statx(int folder, const char *path, int flags, unsigned mask, struct statx *found) {
  return is_refused(0) ? -1 : REAL(statx)(folder, path, flags, mask, found);
}

ssize_t getdents64(int folder, void *bytes, size_t size) { return is_refused(0) ? -1 : REAL(getdents64)(folder, bytes, size); }
