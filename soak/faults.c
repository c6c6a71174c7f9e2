/* Loaded before the program by LD_PRELOAD: some of its calls fail, do half, or end it by a signal.
   SOAK_FAULT is "KIND FIRST LAST DO NUMBER". KIND is one of the kinds below, in their order from 0. The calls of that
   kind from number FIRST on, counted from 1, to LAST (0: without end) don't do as they should: they fail with the error
   NUMBER (DO is f), take half of what they were given (h), or the process gets the signal NUMBER before them (s).
   SOAK_COUNTS names a file of 48 octets in which the calls are counted. */
#define _GNU_SOURCE
#include <dlfcn.h>
#include <errno.h>
#include <fcntl.h>
#include <pthread.h>
#include <stdarg.h>
#include <stdio.h>
#include <stdlib.h>
#include <sys/mman.h>
#include <sys/syscall.h>
#include <sys/uio.h>
#include <unistd.h>

enum kind { MEMORY, OPEN, READ, WRITE, THREAD, SEEK, KINDS };

static unsigned long own_counts[KINDS], *counts = own_counts;
static unsigned long first, last;
static int faulty = -1, number, ready;
static char what;

void *__libc_malloc(size_t), *__libc_calloc(size_t, size_t), *__libc_realloc(void *, size_t);
void *__libc_memalign(size_t, size_t);

__attribute__((constructor)) static void prepare(void) {
  const char *fault = getenv("SOAK_FAULT"), *name = getenv("SOAK_COUNTS");
  int file = name ? (int)syscall(SYS_openat, AT_FDCWD, name, O_RDWR) : -1;
  void *shared = file < 0 ? MAP_FAILED : (void *)syscall(SYS_mmap, 0, sizeof own_counts, 3, MAP_SHARED, file, 0);
  if (shared != MAP_FAILED) counts = shared;
  if (file >= 0) syscall(SYS_close, file);
  if (fault) sscanf(fault, "%d %lu %lu %c %d", &faulty, &first, &last, &what, &number);
  ready = 1;
}

/* Counts a call. 0: it is to be made as it stands; 1: it fails, with errno set; 2: it does half. */
static int spoil(enum kind kind) {
  if (!ready) return 0;
  unsigned long now = __atomic_add_fetch(&counts[kind], 1, __ATOMIC_RELAXED);
  if ((int)kind != faulty || now < first || (last && now > last)) return 0;
  if (what == 's') syscall(SYS_kill, getpid(), number);
  if (what == 'f') errno = number;
  return what == 'f' ? 1 : what == 'h' ? 2 : 0;
}

static size_t part(int spoiled, size_t length) { return spoiled == 2 && length > 1 ? length / 2 : length; }

void *malloc(size_t n) { return spoil(MEMORY) == 1 ? NULL : __libc_malloc(n); }
void *calloc(size_t m, size_t n) { return spoil(MEMORY) == 1 ? NULL : __libc_calloc(m, n); }
void *realloc(void *p, size_t n) { return spoil(MEMORY) == 1 ? NULL : __libc_realloc(p, n); }
void *aligned_alloc(size_t a, size_t n) { return spoil(MEMORY) == 1 ? NULL : __libc_memalign(a, n); }
void *memalign(size_t a, size_t n) { return spoil(MEMORY) == 1 ? NULL : __libc_memalign(a, n); }

int posix_memalign(void **p, size_t a, size_t n) {
  if (spoil(MEMORY) == 1) return ENOMEM;
  *p = __libc_memalign(a, n);
  return *p ? 0 : ENOMEM;
}

void *mmap(void *p, size_t n, int prot, int flags, int file, off_t at) {
  return spoil(MEMORY) == 1 ? MAP_FAILED : (void *)syscall(SYS_mmap, p, n, prot, flags, file, at);
}
void *mmap64(void *, size_t, int, int, int, off_t) __attribute__((alias("mmap")));

void *mremap(void *p, size_t old, size_t new, int flags, ...) {
  return spoil(MEMORY) == 1 ? MAP_FAILED : (void *)syscall(SYS_mremap, p, old, new, flags, NULL);
}

int openat(int folder, const char *name, int flags, ...) {
  va_list more;
  va_start(more, flags);
  int mode = flags & (O_CREAT | O_TMPFILE) ? va_arg(more, int) : 0;
  va_end(more);
  return spoil(OPEN) == 1 ? -1 : (int)syscall(SYS_openat, folder, name, flags, mode);
}
int openat64(int, const char *, int, ...) __attribute__((alias("openat")));

int open(const char *name, int flags, ...) {
  va_list more;
  va_start(more, flags);
  int mode = flags & (O_CREAT | O_TMPFILE) ? va_arg(more, int) : 0;
  va_end(more);
  return spoil(OPEN) == 1 ? -1 : (int)syscall(SYS_openat, AT_FDCWD, name, flags, mode);
}
int open64(const char *, int, ...) __attribute__((alias("open")));

ssize_t read(int file, void *room, size_t n) {
  int spoiled = spoil(READ);
  return spoiled == 1 ? -1 : syscall(SYS_read, file, room, part(spoiled, n));
}

ssize_t pread(int file, void *room, size_t n, off_t at) {
  int spoiled = spoil(READ);
  return spoiled == 1 ? -1 : syscall(SYS_pread64, file, room, part(spoiled, n), at);
}
ssize_t pread64(int, void *, size_t, off_t) __attribute__((alias("pread")));

ssize_t write(int file, const void *octets, size_t n) {
  int spoiled = spoil(WRITE);
  return spoiled == 1 ? -1 : syscall(SYS_write, file, octets, part(spoiled, n));
}

ssize_t writev(int file, const struct iovec *pieces, int many) {
  int spoiled = spoil(WRITE);
  return spoiled == 1 ? -1 : syscall(SYS_writev, file, pieces, (int)part(spoiled, (size_t)many));
}

off_t lseek(int file, off_t at, int from) { return spoil(SEEK) == 1 ? -1 : syscall(SYS_lseek, file, at, from); }
off_t lseek64(int, off_t, int) __attribute__((alias("lseek")));

int pthread_create(pthread_t *thread, const pthread_attr_t *how, void *(*start)(void *), void *given) {
  static int (*real)(pthread_t *, const pthread_attr_t *, void *(*)(void *), void *);
  if (!real) *(void **)&real = dlsym(RTLD_NEXT, "pthread_create");
  return spoil(THREAD) == 1 ? EAGAIN : real(thread, how, start, given);
}
