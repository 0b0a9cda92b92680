/* Refuses one allocation of the program it is loaded into: the one whose number, counted from 1, stands in REFUSE.
 *
 * Only calls from the program itself count: what the C library allocates for itself, as for a new thread, is left
 * alone. With COUNT set, the number of calls is written to standard error at the end.
 */
#define _GNU_SOURCE
#include <dlfcn.h>
#include <errno.h>
#include <link.h>
#include <stdatomic.h>
#include <stddef.h>
#include <stdio.h>
#include <stdlib.h>
#include <sys/syscall.h>
#include <unistd.h>

void *__libc_malloc(size_t);
void *__libc_calloc(size_t, size_t);
void *__libc_realloc(void *, size_t);
void *__libc_memalign(size_t, size_t);

static atomic_long calls;
static long refused;
static size_t low, high;

/* The program's own object is told first. */
static int note_program(struct dl_phdr_info *info, size_t size, void *data)
{
    (void)size;
    (void)data;
    for (int i = 0; i < info->dlpi_phnum; i++) {
        const ElfW(Phdr) *part = &info->dlpi_phdr[i];
        if (part->p_type == PT_LOAD && (part->p_flags & PF_X)) {
            low = info->dlpi_addr + part->p_vaddr;
            high = low + part->p_memsz;
        }
    }
    return 1;
}

__attribute__((constructor)) static void begin(void)
{
    const char *number = getenv("REFUSE");
    refused = number ? atol(number) : 0;
    dl_iterate_phdr(note_program, NULL);
}

/* The program ends by this call, and no destructor of a library runs. */
void _exit(int status)
{
    if (getenv("COUNT"))
        dprintf(2, "%ld\n", atomic_load(&calls));
    for (;;)
        syscall(SYS_exit_group, status);
}

static int is_refused(void *caller)
{
    size_t at = (size_t)caller;
    return low <= at && at < high && atomic_fetch_add(&calls, 1) + 1 == refused;
}

#define CALLER __builtin_return_address(0)

void *malloc(size_t size)
{
    return is_refused(CALLER) ? NULL : __libc_malloc(size);
}

void *calloc(size_t count, size_t size)
{
    return is_refused(CALLER) ? NULL : __libc_calloc(count, size);
}

void *realloc(void *old, size_t size)
{
    return is_refused(CALLER) ? NULL : __libc_realloc(old, size);
}

void *aligned_alloc(size_t align, size_t size)
{
    return is_refused(CALLER) ? NULL : __libc_memalign(align, size);
}

int posix_memalign(void **out, size_t align, size_t size)
{
    if (is_refused(CALLER))
        return ENOMEM;
    *out = __libc_memalign(align, size);
    return *out ? 0 : ENOMEM;
}
