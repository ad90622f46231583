/* Stands between a program and the C library, by LD_PRELOAD: it counts the allocations that the program itself asks for, and
 * refuses one of them.
 *
 * CAMP_REFUSED is the number of that one; 0 or none: no allocation is refused. CAMP_ALLOCATIONS names a file of eight bytes,
 * which is the count. */
#include <fcntl.h>
#include <link.h>
#include <stdatomic.h>
#include <stdint.h>
#include <stdlib.h>
#include <sys/mman.h>
#include <unistd.h>

extern void *__libc_malloc(size_t size);
extern void *__libc_realloc(void *block, size_t size);

static uintptr_t first, last;
static unsigned long refused;
static _Atomic unsigned long counted, *count = &counted;

/* Where the code of the program stands, which is the first object that the loader names. */
static int find_program(struct dl_phdr_info *info, size_t size, void *data) {
    (void)size, (void)data;
    for (int at = 0; at < info->dlpi_phnum; at++) {
        if (info->dlpi_phdr[at].p_type == PT_LOAD && info->dlpi_phdr[at].p_flags & PF_X) {
            first = info->dlpi_addr + info->dlpi_phdr[at].p_vaddr;
            last = first + info->dlpi_phdr[at].p_memsz;
        }
    }
    return 1;
}

__attribute__((constructor)) static void begin(void) {
    const char *number = getenv("CAMP_REFUSED"), *path = getenv("CAMP_ALLOCATIONS");
    int file = path ? open(path, O_RDWR) : -1;
    if (file >= 0) {
        void *place = mmap(NULL, sizeof *count, PROT_READ | PROT_WRITE, MAP_SHARED, file, 0);
        count = place == MAP_FAILED ? count : place;
        close(file);
    }
    refused = number ? strtoul(number, NULL, 10) : 0;
    dl_iterate_phdr(find_program, NULL);
}

static int is_refused(void *caller) {
    return (uintptr_t)caller >= first && (uintptr_t)caller < last && atomic_fetch_add(count, 1) + 1 == refused;
}

void *malloc(size_t size) {
    return is_refused(__builtin_return_address(0)) ? NULL : __libc_malloc(size);
}

void *realloc(void *block, size_t size) {
    return is_refused(__builtin_return_address(0)) ? NULL : __libc_realloc(block, size);
}
