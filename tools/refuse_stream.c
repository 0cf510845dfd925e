/* Loaded before a program by LD_PRELOAD: spoils the call of read or write whose number, counted from 1, is in SPOILED_CALL
 * (each of them, where the number is 0), in the way that SPOILED_HOW names:
 *
 *   fails        answers -1 with EIO, and moves nothing
 *   interrupted  answers -1 with EINTR, and moves nothing
 *   one          moves one byte at most
 *   none         a write takes nothing and answers 0; a read is left as it is
 *   not          nothing is spoiled
 *
 * Where SPOILED_OTHERS is set, a call that is not spoiled moves one byte at most. To the file descriptor in SPOILED_TELLS it writes a letter for each call as it begins: r or w, and R or W for one that
 * was spoiled. It counts the calls of the process on standard input and standard output.
 */
#include <errno.h>
#include <stdlib.h>
#include <string.h>
#include <sys/syscall.h>
#include <unistd.h>

static long calls;

/* How this call is spoiled: 'f', 'i', 'o', 'n', or 0. */
static char way(char kind) {
    const char *number = getenv("SPOILED_CALL"), *how = getenv("SPOILED_HOW"), *tells = getenv("SPOILED_TELLS");
    if (number == NULL || how == NULL || tells == NULL)
        return 0;
    calls += 1;
    char spoils = (atol(number) == 0 || atol(number) == calls) && strcmp(how, "not") != 0 ? how[0] : 0;
    if (spoils == 'n' && kind == 'r')
        spoils = 0;
    char letter = spoils ? kind - 'a' + 'A' : kind;
    if (syscall(SYS_write, atoi(tells), &letter, 1) != 1)
        abort();
    return spoils;
}

/* Whether the call does not reach the system; what it answers then. */
static int is_refused(char spoils, ssize_t *answer) {
    if (spoils == 'f' || spoils == 'i')
        errno = spoils == 'f' ? EIO : EINTR;
    *answer = spoils == 'n' ? 0 : -1;
    return spoils == 'f' || spoils == 'i' || spoils == 'n';
}

/* How many bytes the call is to move at most. */
static size_t most(int is_counted, char spoils, size_t count) {
    int is_short = is_counted && (spoils == 'o' || getenv("SPOILED_OTHERS") != NULL);
    return is_short && count > 1 ? 1 : count;
}

ssize_t read(int file, void *buffer, size_t count) {
    ssize_t answer;
    char spoils = file == 0 ? way('r') : 0;
    if (is_refused(spoils, &answer))
        return answer;
    return syscall(SYS_read, file, buffer, most(file == 0, spoils, count));
}

ssize_t write(int file, const void *buffer, size_t count) {
    ssize_t answer;
    char spoils = file == 1 ? way('w') : 0;
    if (is_refused(spoils, &answer))
        return answer;
    return syscall(SYS_write, file, buffer, most(file == 1, spoils, count));
}
