"""A library in C for LD_PRELOAD, in which some allocations of a program fail."""
from __future__ import annotations

import os
import subprocess

SOURCE = r"""
#define _GNU_SOURCE
#include <errno.h>
#include <fcntl.h>
#include <stdlib.h>
#include <unistd.h>
extern void *__libc_malloc(size_t);
extern void *__libc_calloc(size_t, size_t);
extern void *__libc_realloc(void *, size_t);
extern void *__libc_memalign(size_t, size_t);

/* The allocations from one to another fail, counted from 1; a file tells that one did. */
static int fails(void) {
  static long count, first, last;
  if (!count++) {
    const char *from = getenv("FAIL_FROM"), *to = getenv("FAIL_TO");
    first = from ? atol(from) : 0;
    last = to ? atol(to) : 0;
  }
  if (count < first || count > last) return 0;
  close(open(getenv("FAIL_NOTE"), O_CREAT | O_WRONLY, 0600));
  errno = ENOMEM;
  return 1;
}

void *malloc(size_t n) { return fails() ? NULL : __libc_malloc(n); }
void *calloc(size_t n, size_t size) { return fails() ? NULL : __libc_calloc(n, size); }
void *realloc(void *p, size_t n) { return fails() ? NULL : __libc_realloc(p, n); }
void *memalign(size_t a, size_t n) { return fails() ? NULL : __libc_memalign(a, n); }
void *aligned_alloc(size_t a, size_t n) { return fails() ? NULL : __libc_memalign(a, n); }
int posix_memalign(void **p, size_t a, size_t n) {
  if (fails()) return ENOMEM;
  *p = __libc_memalign(a, n);
  return *p ? 0 : ENOMEM;
}
"""
ALL = 2**62


class FailingMemory:
    def __init__(self, folder: str) -> None:
        self.library, self.note = os.path.join(folder, "failing.so"), os.path.join(folder, "note")
        words = ["gcc", "-O2", "-shared", "-fPIC", "-fno-builtin", "-x", "c", "-", "-o", self.library]
        subprocess.run(words, input=SOURCE.encode(), check=True)

    def environment(self, first: int, last: int) -> dict[str, str]:
        """For a run in which these allocations fail."""
        if os.path.exists(self.note):
            os.remove(self.note)
        return {**os.environ, "LD_PRELOAD": self.library, "FAIL_FROM": str(first), "FAIL_TO": str(last), "FAIL_NOTE": self.note}

    def has_failed(self) -> bool:
        return os.path.exists(self.note)
