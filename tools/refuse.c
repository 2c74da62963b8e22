/* Preloaded into a program: refuses memory. Its calls of malloc, calloc and realloc are counted together from 1; those
   from REFUSE_FIRST to REFUSE_LAST get none, and for each of these a byte goes to the descriptor REFUSE_MARK. */
#include <errno.h>
#include <stdlib.h>
#include <unistd.h>

void *__libc_malloc(size_t size);
void *__libc_calloc(size_t count, size_t size);
void *__libc_realloc(void *old, size_t size);

static int is_refused(void)
{
    static long calls = 0;
    const char *first = getenv("REFUSE_FIRST"), *last = getenv("REFUSE_LAST"), *mark = getenv("REFUSE_MARK");

    /* Before the C library has set up the environment, calls are its own and not counted. */
    if (first == NULL || last == NULL || mark == NULL)
        return 0;
    calls += 1;
    if (calls < atol(first) || atol(last) < calls)
        return 0;
    if (write(atoi(mark), "x", 1) != 1)
        abort();
    errno = ENOMEM;
    return 1;
}

void *malloc(size_t size)
{
    return is_refused() ? NULL : __libc_malloc(size);
}

void *calloc(size_t count, size_t size)
{
    return is_refused() ? NULL : __libc_calloc(count, size);
}

void *realloc(void *old, size_t size)
{
    return is_refused() ? NULL : __libc_realloc(old, size);
}
