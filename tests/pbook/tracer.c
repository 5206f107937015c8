/* tracer kill N COMMAND ..: runs the command and ends it at its system call number N, counted from 1, before the call is made; tracer fail N ERROR COMMAND ..: call number N is not made and fails with
   ERROR; tracer list COMMAND ..: the number of each call, one a line, on descriptor 3. Ends with the command's own status; 99 where it ended before call N, 98 where it could not be traced. x86-64 Linux. */
#include <errno.h>
#include <signal.h>
#include <stdio.h>
#include <stdlib.h>
#include <string.h>
#include <sys/ptrace.h>
#include <sys/user.h>
#include <sys/wait.h>
#include <unistd.h>

static int ended(int status)
{
    return WIFEXITED(status) ? WEXITSTATUS(status) : 128 + WTERMSIG(status);
}

int main(int count, char **words)
{
    if (count < 3)
        return 98;
    int killing = strcmp(words[1], "kill") == 0, failing = strcmp(words[1], "fail") == 0;
    long wanted = killing || failing ? atol(words[2]) : 0;
    long error = failing ? atol(words[3]) : 0;
    char **command = words + (failing ? 4 : killing ? 3 : 2);
    pid_t child = fork();
    if (child < 0)
        return 98;
    if (child == 0) {
        close(3);
        if (ptrace(PTRACE_TRACEME, 0, 0, 0) != 0)
            _exit(98);
        raise(SIGSTOP);
        execv(command[0], command);
        _exit(98);
    }
    int status, entering = 1, running = 0, hit = 0;
    long made = 0;
    if (waitpid(child, &status, 0) < 0 || !WIFSTOPPED(status) || ptrace(PTRACE_SETOPTIONS, child, 0, PTRACE_O_TRACESYSGOOD | PTRACE_O_TRACEEXEC | PTRACE_O_EXITKILL) != 0)
        return 98;
    int signal = 0;
    for (;;) {
        if (ptrace(PTRACE_SYSCALL, child, 0, signal) != 0 || waitpid(child, &status, 0) < 0)
            return 98;
        signal = 0;
        if (WIFEXITED(status) || WIFSIGNALED(status))
            return killing || failing ? (hit ? ended(status) : 99) : ended(status);
        if (status >> 8 == (SIGTRAP | PTRACE_EVENT_EXEC << 8)) {
            running = 1; /* the next stop is the end of the call that began the program */
            entering = 0;
            continue;
        }
        if (WSTOPSIG(status) != (SIGTRAP | 128)) {
            signal = WSTOPSIG(status);
            continue;
        }
        struct user_regs_struct registers;
        if (ptrace(PTRACE_GETREGS, child, 0, &registers) != 0)
            return 98;
        if (!running) {
            entering = !entering;
            continue;
        }
        if (entering) {
            made++;
            if (!killing && !failing)
                dprintf(3, "%lld\n", registers.orig_rax);
            if (made == wanted && killing) {
                kill(child, SIGKILL);
                waitpid(child, &status, 0);
                return ended(status);
            }
            if (made == wanted && failing) {
                hit = 1;
                registers.orig_rax = -1;
                ptrace(PTRACE_SETREGS, child, 0, &registers);
            }
        } else if (made == wanted && failing) {
            registers.rax = -error;
            ptrace(PTRACE_SETREGS, child, 0, &registers);
        }
        entering = !entering;
    }
}
