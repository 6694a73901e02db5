/* Refuses one allocation of the program that this is loaded into: the one whose number, from 1, the variable REFUSE tells. With REFUSE=0 none is
 * refused. Where it came to that allocation, the file that the variable REFUSED names is made. Only allocations that the program itself asks for
 * count, by malloc or realloc, and none of a library that it is linked with: those of the C library in the making of threads aren't refused here.
 *
 *     cc -shared -fPIC -O2 -o refuse.so refuse.c
 */
#define _GNU_SOURCE
#include <fcntl.h>
#include <stdatomic.h>
#include <stddef.h>
#include <stdint.h>
#include <stdio.h>
#include <stdlib.h>
#include <unistd.h>

extern void *__libc_malloc(size_t);
extern void *__libc_realloc(void *, size_t);

static atomic_ulong asked;
static unsigned long refused;
static uintptr_t first, last;

/* The program's own code, as the first line of /proc/self/maps and the lines behind it of the same file tell. */
__attribute__((constructor)) static void begin(void)
{
    const char *number = getenv("REFUSE");
    FILE *maps = fopen("/proc/self/maps", "r");
    char line[512], perms[8];
    unsigned long low, high, offset, inode, own = 0;
    unsigned int major, minor;
    while (maps && fgets(line, sizeof line, maps)) {
        if (sscanf(line, "%lx-%lx %7s %lx %x:%x %lu", &low, &high, perms, &offset, &major, &minor, &inode) != 7)
            continue;
        if (!own)
            own = inode, first = low;
        if (inode == own)
            last = high;
    }
    if (maps)
        fclose(maps);
    /* not in the programs that it starts */
    unsetenv("LD_PRELOAD");
    atomic_store(&asked, 0);
    refused = number ? strtoul(number, NULL, 10) : 0;
}

static int is_refused(void *caller)
{
    uintptr_t at = (uintptr_t)caller;
    const char *name = getenv("REFUSED");
    int file;
    if (at < first || at >= last || atomic_fetch_add(&asked, 1) + 1 != refused)
        return 0;
    file = name ? open(name, O_CREAT | O_WRONLY, 0600) : -1;
    if (file >= 0)
        close(file);
    return 1;
}

void *malloc(size_t size)
{
    return is_refused(__builtin_return_address(0)) ? NULL : __libc_malloc(size);
}

void *realloc(void *old, size_t size)
{
    return is_refused(__builtin_return_address(0)) ? NULL : __libc_realloc(old, size);
}
