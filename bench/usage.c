/* Runs a command and writes what it used, with all that it started and waited
   for: the processor time in seconds and the most memory that one process of
   them held, in MB. Ends with the command's status.

   usage: usage FILE COMMAND.. */

#define _GNU_SOURCE
#include <stdio.h>
#include <sys/resource.h>
#include <sys/wait.h>
#include <unistd.h>

enum { FAILED = 2, NOT_FOUND = 127 };

static double seconds(struct timeval time)
{
    return time.tv_sec + time.tv_usec / 1e6;
}

int main(int words, char **word)
{
    if (words < 3)
        return FAILED;
    pid_t child = fork();
    if (child == 0) {
        execvp(word[2], word + 2);
        _exit(NOT_FOUND);
    }
    int status;
    struct rusage used;
    if (child < 0 || wait4(child, &status, 0, &used) < 0)
        return FAILED;
    FILE *file = fopen(word[1], "w");
    if (!file)
        return FAILED;
    /* The system gives the memory in units of 1,024 bytes. */
    fprintf(file, "%.1f %.0f\n", seconds(used.ru_utime) + seconds(used.ru_stime), used.ru_maxrss * 1024 / 1e6);
    if (fclose(file) != 0)
        return FAILED;
    return WIFEXITED(status) ? WEXITSTATUS(status) : FAILED;
}
