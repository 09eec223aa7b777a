/* Refuses growths of a program that this is preloaded into. Each call of malloc and realloc that the program itself makes
   is counted from 1; those of the C library, as for a thread's stack, are not. Call REFUSE_FROM and those behind it, up to
   REFUSE_TO, answer NULL. At the end, be it by `_exit`, the count is written to the file that REFUSE_COUNT names. */
#define _GNU_SOURCE
#include <elf.h>
#include <errno.h>
#include <link.h>
#include <stdatomic.h>
#include <stddef.h>
#include <stdio.h>
#include <stdlib.h>
#include <sys/auxv.h>
#include <sys/syscall.h>
#include <unistd.h>

extern void *__libc_malloc(size_t);
extern void *__libc_realloc(void *, size_t);

static atomic_ulong calls;
static unsigned long from, to;
static char *begin, *end;

static unsigned long number(const char *name) {
  const char *text = getenv(name);
  return text ? strtoul(text, NULL, 10) : 0;
}

/* Where the program lies, by its segments. */
__attribute__((constructor)) static void look_at_program(void) {
  const ElfW(Phdr) *head = (const ElfW(Phdr) *)getauxval(AT_PHDR);
  size_t count = getauxval(AT_PHNUM);
  char *base = NULL, *top = NULL;
  for (size_t at = 0; at < count; at++)
    if (head[at].p_type == PT_PHDR)
      base = (char *)head - head[at].p_vaddr;
  for (size_t at = 0; at < count; at++) {
    char *last = base + head[at].p_vaddr + head[at].p_memsz;
    if (head[at].p_type == PT_LOAD && last > top)
      top = last;
  }
  from = number("REFUSE_FROM");
  to = number("REFUSE_TO");
  begin = base;
  end = top;
}

__attribute__((destructor)) static void write_count(void) {
  const char *name = getenv("REFUSE_COUNT");
  FILE *file = name ? fopen(name, "w") : NULL;
  if (!file)
    return;
  fprintf(file, "%lu\n", atomic_load(&calls));
  fclose(file);
}

void _exit(int status) {
  write_count();
  for (;;)
    syscall(SYS_exit_group, status);
}

static int is_refused(void *caller) {
  if ((char *)caller < begin || (char *)caller >= end)
    return 0;
  unsigned long call = atomic_fetch_add(&calls, 1) + 1;
  if (call < from || call > to)
    return 0;
  errno = ENOMEM;
  return 1;
}

void *malloc(size_t size) {
  return is_refused(__builtin_return_address(0)) ? NULL : __libc_malloc(size);
}

void *realloc(void *old, size_t size) {
  return is_refused(__builtin_return_address(0)) ? NULL : __libc_realloc(old, size);
}
