/* Runs the command of its words, and prints the peak memory of that process in kilobytes on standard error. A script's own
   memory would count too, as that of what starts the process does; this program has next to none. */
#include <stdio.h>
#include <stdlib.h>
#include <sys/resource.h>
#include <sys/wait.h>
#include <unistd.h>

int main(int count, char **words) {
    if (count < 2) return 127;
    pid_t child = fork();
    if (child < 0) return 127;
    if (child == 0) {
        execvp(words[1], words + 1);
        _exit(127);
    }
    int status;
    struct rusage used;
    if (wait4(child, &status, 0, &used) != child) return 127;
    fprintf(stderr, "%ld\n", used.ru_maxrss);
    return WIFEXITED(status) ? WEXITSTATUS(status) : 128;
}
