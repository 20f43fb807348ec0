/* Counts the allocations of the program that it is preloaded into: calls of malloc, calloc and realloc.
 *
 * COUNT_TO in the environment is the descriptor of a file of eight bytes, which has the number at any
 * time. So it is there however the program ends.
 *
 * The C library's own functions are called by the names that they have inside of it, so nothing has
 * to be looked up while the program runs. The program has one thread. */

#include <stddef.h>
#include <stdlib.h>
#include <sys/mman.h>
#include <unistd.h>

void *__libc_malloc(size_t size);
void *__libc_calloc(size_t count, size_t size);
void *__libc_realloc(void *old, size_t size);

/* The number in the file. */
static unsigned long *number(void)
{
    static unsigned long *place;
    const char *file;

    if (place)
        return place;
    file = getenv("COUNT_TO");
    if (!file)
        _exit(125);
    place = mmap(NULL, sizeof *place, PROT_READ | PROT_WRITE, MAP_SHARED, atoi(file), 0);
    if (place == MAP_FAILED)
        _exit(125);
    return place;
}

void *malloc(size_t size)
{
    ++*number();
    return __libc_malloc(size);
}

void *calloc(size_t count, size_t size)
{
    ++*number();
    return __libc_calloc(count, size);
}

void *realloc(void *old, size_t size)
{
    ++*number();
    return __libc_realloc(old, size);
}
