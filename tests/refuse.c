/* Loaded before the C library, refuses one request for memory of a program: the one whose number REFUSE gives, from 1 on. With
   REFUSE=0 it refuses none, and tells at the end how many there were. `refusals.py` uses it. */
#define _GNU_SOURCE
#include <dlfcn.h>
#include <errno.h>
#include <stdio.h>
#include <stdlib.h>
#include <sys/syscall.h>
#include <unistd.h>

static long asked, wanted = -1;

__attribute__((constructor)) static void begin(void) {
  const char *number = getenv("REFUSE");
  wanted = number ? atol(number) : -1;
  asked = 0;
}

static void tell(void) {
  if (wanted == 0) dprintf(2, "%ld\n", asked);
}

__attribute__((destructor)) static void end(void) { tell(); }

/* A program that ends so runs no destructor. */
void _exit(int status) {
  tell();
  syscall(SYS_exit_group, status);
  __builtin_unreachable();
}

static int is_refused(void) {
  if (++asked != wanted) return 0;
  errno = ENOMEM;
  return 1;
}

/* What the C library has under this name. */
#define REAL(name) \
  static __typeof__(name) *real; \
  if (!real) real = (__typeof__(name) *)dlsym(RTLD_NEXT, #name)

void *malloc(size_t size) {
  REAL(malloc);
  return is_refused() ? NULL : real(size);
}

void *realloc(void *old, size_t size) {
  REAL(realloc);
  return is_refused() ? NULL : real(old, size);
}
