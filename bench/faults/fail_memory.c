/* Counts the allocations that a program itself makes, in the file FAIL_COUNT, and fails the one of the number FAIL_NTH, counted from 1;
   with FAIL_ALL also all behind it. Those of the C library pass. Loaded into the program by LD_PRELOAD: see fail_memory.py. */
#define _GNU_SOURCE
#include <fcntl.h>
#include <link.h>
#include <stdatomic.h>
#include <stdint.h>
#include <stdlib.h>
#include <sys/mman.h>
#include <unistd.h>

extern void *__libc_malloc(size_t);
extern void *__libc_realloc(void *, size_t);

static atomic_ulong own;
static atomic_ulong *made = &own;
static unsigned long nth;
static int is_all;
static uintptr_t low, high;

static int found(struct dl_phdr_info *info, size_t size, void *data) {
    for (int k = 0; k < info->dlpi_phnum; k++)
        if (info->dlpi_phdr[k].p_type == PT_LOAD && (info->dlpi_phdr[k].p_flags & PF_X)) {
            low = info->dlpi_addr + info->dlpi_phdr[k].p_vaddr;
            high = low + info->dlpi_phdr[k].p_memsz;
        }
    return 1; /* the program comes first */
}

__attribute__((constructor)) static void begin(void) {
    const char *word = getenv("FAIL_NTH");
    nth = word ? strtoul(word, 0, 10) : 0;
    is_all = getenv("FAIL_ALL") != 0;
    const char *path = getenv("FAIL_COUNT");
    int file = path ? open(path, O_RDWR | O_CREAT, 0600) : -1;
    if (file >= 0 && ftruncate(file, sizeof own) == 0) {
        void *shared = mmap(0, sizeof own, PROT_READ | PROT_WRITE, MAP_SHARED, file, 0);
        if (shared != MAP_FAILED)
            made = shared;
    }
    dl_iterate_phdr(found, 0);
}

static int fails(void *caller) {
    uintptr_t at = (uintptr_t)caller;
    if (at < low || high <= at)
        return 0;
    unsigned long number = atomic_fetch_add(made, 1) + 1;
    return nth && (is_all ? nth <= number : number == nth);
}

void *malloc(size_t size) { return fails(__builtin_return_address(0)) ? 0 : __libc_malloc(size); }

void *realloc(void *old, size_t size) { return fails(__builtin_return_address(0)) ? 0 : __libc_realloc(old, size); }
