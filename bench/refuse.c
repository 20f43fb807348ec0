/* Refuses growths of memory of the program that it is preloaded into.
 *
 * REFUSE_AT in the environment says which growth is refused, counted from 1; where REFUSE_ALL stands
 * there too, all growths after it are. A growth is a call of malloc, calloc or realloc, which are
 * all that the program calls. To the file descriptor that REFUSE_MARK says `!` is written at each
 * refusal, and `+` where the growth after the first that is refused asks for no more.
 *
 * The C library's own functions are called by the names that they have inside of it, so nothing has
 * to be looked up while the program runs. The program has one thread. */

#include <errno.h>
#include <stddef.h>
#include <stdlib.h>
#include <unistd.h>

void *__libc_malloc(size_t size);
void *__libc_calloc(size_t count, size_t size);
void *__libc_realloc(void *old, size_t size);

/* The number of a variable of the environment, 0 where it is not there. */
static unsigned long number_of(const char *name)
{
    const char *text = getenv(name);

    return text ? strtoul(text, NULL, 10) : 0;
}

/* Writes a mark. */
static void mark(const char *text)
{
    if (write((int)number_of("REFUSE_MARK"), text, 1) != 1)
        _exit(125);
}

/* Counts a growth to this size, and says whether it is refused. */
static int is_refused(size_t size)
{
    static unsigned long growths;
    static size_t refused;
    unsigned long first = number_of("REFUSE_AT");

    growths++;
    if (first != 0 && growths == first + 1 && size <= refused)
        mark("+");
    if (first == 0 || growths < first || (growths > first && !getenv("REFUSE_ALL")))
        return 0;
    if (growths == first)
        refused = size;
    mark("!");
    errno = ENOMEM;
    return 1;
}

void *malloc(size_t size)
{
    return is_refused(size) ? NULL : __libc_malloc(size);
}

void *calloc(size_t count, size_t size)
{
    return is_refused(count * size) ? NULL : __libc_calloc(count, size);
}

void *realloc(void *old, size_t size)
{
    return is_refused(size) ? NULL : __libc_realloc(old, size);
}
