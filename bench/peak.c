/* peak PROGRAM WORD ..: runs the program, and writes the most memory that it had at once, in kilobytes, and how many page faults it met to standard error. The status is
   the program's. A process that is started keeps the peak of the one that started it, so this one is small. */
#include <stdio.h>
#include <sys/resource.h>
#include <sys/wait.h>
#include <unistd.h>

int main(int count, char **words) {
    struct rusage used;
    int status;
    pid_t child;
    if (count < 2)
        return 2;
    child = fork();
    if (child == 0) {
        execv(words[1], words + 1);
        _exit(127);
    }
    if (child < 0 || wait4(child, &status, 0, &used) != child)
        return 1;
    fprintf(stderr, "%ld %ld\n", used.ru_maxrss, used.ru_minflt + used.ru_majflt);
    return WIFEXITED(status) ? WEXITSTATUS(status) : 1;
}
