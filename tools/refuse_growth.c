/* Loaded before a program by LD_PRELOAD: refuses the growth whose number, counted from 1, is in REFUSED_GROWTH, and
 * writes a byte to the file descriptor in REFUSED_TELLS then.
 *
 * A growth is a call of malloc, calloc, realloc, aligned_alloc, memalign or posix_memalign, whoever makes it: the program,
 * or the C library for itself. Needs the C library of GNU.
 */
#include <errno.h>
#include <stddef.h>
#include <stdlib.h>
#include <unistd.h>

extern void *__libc_malloc(size_t size);
extern void *__libc_calloc(size_t count, size_t size);
extern void *__libc_realloc(void *block, size_t size);
extern void *__libc_memalign(size_t alignment, size_t size);

static long growths;

static int is_refused(void) {
    const char *number = getenv("REFUSED_GROWTH");
    const char *tells = getenv("REFUSED_TELLS");
    growths += 1;
    if (number == NULL || tells == NULL || growths != atol(number))
        return 0;
    if (write(atoi(tells), "!", 1) != 1)
        abort();
    errno = ENOMEM;
    return 1;
}

void *malloc(size_t size) {
    return is_refused() ? NULL : __libc_malloc(size);
}

void *calloc(size_t count, size_t size) {
    return is_refused() ? NULL : __libc_calloc(count, size);
}

void *realloc(void *block, size_t size) {
    return is_refused() ? NULL : __libc_realloc(block, size);
}

void *memalign(size_t alignment, size_t size) {
    return is_refused() ? NULL : __libc_memalign(alignment, size);
}

void *aligned_alloc(size_t alignment, size_t size) {
    return memalign(alignment, size);
}

int posix_memalign(void **block, size_t alignment, size_t size) {
    void *made = memalign(alignment, size);
    if (made == NULL)
        return ENOMEM;
    *block = made;
    return 0;
}
