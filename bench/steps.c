/* steps PROGRAM ARGUMENTS..: how many instructions it executes, counted one by one. For x86-64. */
#include <signal.h>
#include <stdio.h>
#include <sys/ptrace.h>
#include <sys/wait.h>
#include <unistd.h>

int main(int argc, char **argv)
{
    long steps = 0;
    int status;
    pid_t child;
    if (argc < 2) return 2;
    child = fork();
    if (child == 0) {
        ptrace(PTRACE_TRACEME, 0, 0, 0);
        execv(argv[1], argv + 1);
        _exit(127);
    }
    waitpid(child, &status, 0);
    while (WIFSTOPPED(status) && WSTOPSIG(status) == SIGTRAP) {
        if (ptrace(PTRACE_SINGLESTEP, child, 0, 0) < 0) return 2;
        waitpid(child, &status, 0);
        steps++;
    }
    if (WIFSTOPPED(status)) kill(child, SIGKILL);
    if (!WIFEXITED(status) || WEXITSTATUS(status) != 0) return 1;
    printf("%ld\n", steps);
    return 0;
}
