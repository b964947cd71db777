/* The seconds of the processor and the peak memory, in MiB, of a command whose output goes into a file: the first word is the
 * file, the others are the command. A parent of many MiB, as Python is, would be taken for the command's own peak. */
#include <stdio.h>
#include <sys/resource.h>
#include <sys/wait.h>
#include <unistd.h>

int main(int words, char **word) {
    struct rusage used;
    int status = 0;
    pid_t child = words > 2 ? fork() : -1;
    if (child == 0) {
        if (freopen(word[1], "w", stdout) && freopen("/dev/null", "w", stderr)) execvp(word[2], word + 2);
        _exit(127);
    }
    if (child < 0 || wait4(child, &status, 0, &used) < 0 || status) {
        int told = WIFEXITED(status) ? WEXITSTATUS(status) : 128 + WTERMSIG(status);
        fprintf(stderr, "%s isn't run, or ended with status %d\n", words > 2 ? word[2] : "it", told);
        return 1;
    }
    double seconds = used.ru_utime.tv_sec + used.ru_stime.tv_sec;
    seconds += (used.ru_utime.tv_usec + used.ru_stime.tv_usec) / 1e6;
    printf("%.3f %.1f\n", seconds, used.ru_maxrss / 1024.0);
    return 0;
}
