"""The built program with its allocations counted, and one of them refused.

The program takes its memory from the C library, so an object that is loaded before can stand in between. It needs the GNU
C library and `cc`.
"""

import mmap
import os
import struct
import subprocess
from dataclasses import dataclass

from bagjulen_tools.trouble import ENGINE_FAILED, Trouble

# Counts the allocations in memory that it shares with who runs it, and refuses the one whose number stands there.
BETWEEN = r"""
#include <errno.h>
#include <malloc.h>
#include <stdlib.h>
#include <sys/mman.h>

extern void *__libc_malloc(size_t), *__libc_calloc(size_t, size_t), *__libc_realloc(void *, size_t);
extern void *__libc_memalign(size_t, size_t);
extern void __libc_free(void *);

static struct { long refused, count, used, most; } before, *told = &before;

__attribute__((constructor)) static void begin(void) {
    const char *shared = getenv("TOLD");
    void *found = shared ? mmap(NULL, sizeof before, PROT_READ | PROT_WRITE, MAP_SHARED, atoi(shared), 0) : MAP_FAILED;
    if (found == MAP_FAILED) abort();
    told = found;
}

static int refuses(void) {
    if (__atomic_add_fetch(&told->count, 1, __ATOMIC_SEQ_CST) != told->refused) return 0;
    errno = ENOMEM;
    return 1;
}

static void *counted(void *taken) {
    long used = __atomic_add_fetch(&told->used, malloc_usable_size(taken), __ATOMIC_SEQ_CST), most = told->most;
    while (most < used && !__atomic_compare_exchange_n(&told->most, &most, used, 0, __ATOMIC_SEQ_CST, __ATOMIC_SEQ_CST))
        ;
    return taken;
}

static void given_back(void *taken) { __atomic_sub_fetch(&told->used, malloc_usable_size(taken), __ATOMIC_SEQ_CST); }

void *malloc(size_t size) { return refuses() ? NULL : counted(__libc_malloc(size)); }
void *calloc(size_t count, size_t size) { return refuses() ? NULL : counted(__libc_calloc(count, size)); }
void *memalign(size_t alignment, size_t size) { return refuses() ? NULL : counted(__libc_memalign(alignment, size)); }
void *aligned_alloc(size_t alignment, size_t size) { return memalign(alignment, size); }

void *realloc(void *old, size_t size) {
    long former = malloc_usable_size(old);
    void *taken = refuses() ? NULL : __libc_realloc(old, size);
    if (taken) __atomic_sub_fetch(&told->used, former, __ATOMIC_SEQ_CST);
    return counted(taken);
}

void free(void *taken) {
    given_back(taken);
    __libc_free(taken);
}

int posix_memalign(void **into, size_t alignment, size_t size) {
    void *found = memalign(alignment, size);
    if (found) *into = found;
    return found ? 0 : ENOMEM;
}
"""
NUMBERS = struct.Struct("@llll")


@dataclass
class Fetched:
    """How a fetch ended: its status, what it wrote, how many allocations it asked for, and the most bytes in use."""

    status: int
    written: bytes
    count: int
    most: int


class Counter:
    """Runs the program, each allocation counted. What it needs is built in a directory."""

    def __init__(self, directory, program, words=("fetch",)):
        self.command, self.between = [program, *words], os.path.join(directory, "between.so")
        self.told = os.memfd_create("told")
        os.ftruncate(self.told, mmap.PAGESIZE)
        self.numbers = mmap.mmap(self.told, mmap.PAGESIZE)
        source = os.path.join(directory, "between.c")
        with open(source, "w", encoding="ascii") as file:
            file.write(BETWEEN)
        try:
            subprocess.run(["cc", "-shared", "-fPIC", "-O1", "-fno-builtin", "-o", self.between, source], check=True)
        except (OSError, subprocess.CalledProcessError):
            raise Trouble(ENGINE_FAILED, "cc can't build what counts allocations") from None

    def fetch(self, scene, refused=0):
        """How the run on a scene ends with the allocation of this number refused, counted from 1, or with none."""
        NUMBERS.pack_into(self.numbers, 0, refused, 0, 0, 0)
        given = {"LD_PRELOAD": self.between, "TOLD": str(self.told)}
        try:
            ended = subprocess.run(self.command, input=scene, capture_output=True, env=given, pass_fds=[self.told])
        except OSError as error:
            raise Trouble(ENGINE_FAILED, f"can't run {self.command[0]}: {error.strerror}") from None
        _, count, _, most = NUMBERS.unpack_from(self.numbers, 0)
        return Fetched(ended.returncode, ended.stdout, count, most)
