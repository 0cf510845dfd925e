/* Runs the command of its words and writes to the file descriptor 3 the microseconds of processor time and the KiB of
 * memory that it took. A process that Python starts counts Python's own memory as its own; one that this program starts
 * does not.
 */
#include <stdio.h>
#include <sys/resource.h>
#include <sys/wait.h>
#include <unistd.h>

int main(int count, char **words) {
    struct rusage used;
    int status;
    pid_t child = count < 2 ? -1 : fork();
    if (child == 0) {
        close(3);
        execv(words[1], words + 1);
        _exit(127);
    }
    if (child < 0 || wait4(child, &status, 0, &used) < 0)
        return 127;
    long long spent = (used.ru_utime.tv_sec + used.ru_stime.tv_sec) * 1000000LL + used.ru_utime.tv_usec + used.ru_stime.tv_usec;
    dprintf(3, "%lld %ld\n", spent, used.ru_maxrss);
    return WIFEXITED(status) ? WEXITSTATUS(status) : 128 + WTERMSIG(status);
}
