/* Starts a program and has one of its reads or writes move fewer bytes than it asks for, for tests/stops/stops.py:

     stops_short NUMBER MARK PROGRAM WORD..

   The calls read, write, pread64 and pwrite64 that ask for more than one byte are counted from 1 on, behind the first munmap,
   since the loader takes no short read, and that is its last call. The one of this number is handed half of its bytes, with 0 each of
   them is. MARK is a file, made where a call was shortened. What the program starts
   isn't followed. The exit status is the program's, or 128 and the signal that ended it; 125 says that it couldn't be traced. */
#include <fcntl.h>
#include <signal.h>
#include <stdbool.h>
#include <stdio.h>
#include <stdlib.h>
#include <sys/ptrace.h>
#include <sys/syscall.h>
#include <sys/user.h>
#include <sys/wait.h>
#include <unistd.h>

enum { NOT_TRACED = 125, BY_SIGNAL = 128, FAILED_EXEC = 127 };

static void must(bool holds, const char *what) {
    if (holds) return;
    perror(what);
    exit(NOT_TRACED);
}

static bool moves_bytes(unsigned long long number) {
    return number == SYS_read || number == SYS_write || number == SYS_pread64 || number == SYS_pwrite64;
}

/* At the entry of a call. Whether it was shortened. */
static bool shorten(pid_t child, long wanted) {
    static long count = 0;
    static bool is_loaded = false;
    struct user_regs_struct registers;
    must(ptrace(PTRACE_GETREGS, child, NULL, &registers) == 0, "registers");
    is_loaded = is_loaded || registers.orig_rax == SYS_munmap;
    if (!is_loaded || !moves_bytes(registers.orig_rax) || registers.rdx < 2) return false;
    count++;
    if (wanted != 0 && count != wanted) return false;
    registers.rdx /= 2;
    must(ptrace(PTRACE_SETREGS, child, NULL, &registers) == 0, "registers");
    return true;
}

/* Follows the program to its end. */
static int follow(pid_t child, long wanted, const char *mark) {
    bool enters = true;
    for (int status, number = 0;;) {
        must(ptrace(PTRACE_SYSCALL, child, NULL, (void *)(long)number) == 0, "continue");
        must(waitpid(child, &status, 0) == child, "wait");
        if (WIFEXITED(status)) return WEXITSTATUS(status);
        if (WIFSIGNALED(status)) return BY_SIGNAL + WTERMSIG(status);
        number = WSTOPSIG(status);
        if (number != (SIGTRAP | 0x80)) continue;
        number = 0;
        if (enters && shorten(child, wanted)) close(open(mark, O_WRONLY | O_CREAT, 0600));
        enters = !enters;
    }
}

int main(int count, char **words) {
    int status;
    if (count < 4) return NOT_TRACED;
    pid_t child = fork();
    must(child >= 0, "fork");
    if (child == 0) {
        ptrace(PTRACE_TRACEME, 0, NULL, NULL);
        execv(words[3], words + 3);
        _exit(FAILED_EXEC);
    }
    /* The first stop is that of the new program. */
    must(waitpid(child, &status, 0) == child && WIFSTOPPED(status), "start");
    must(ptrace(PTRACE_SETOPTIONS, child, NULL, (void *)(long)(PTRACE_O_TRACESYSGOOD | PTRACE_O_EXITKILL)) == 0, "options");
    return follow(child, atol(words[1]), words[2]);
}
