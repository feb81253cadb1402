/* How many calls stand one below the other, counted by running a call step by step. */
#ifndef DEPTH_H
#define DEPTH_H

#include <errno.h>
#include <signal.h>
#include <stdint.h>
#include <stdlib.h>
#include <sys/mman.h>
#include <sys/ptrace.h>
#include <sys/user.h>
#include <sys/wait.h>
#include <unistd.h>

/* What the instruction at an address does to the depth of calls (Intel 64 manual: CALL, RET). */
static int deeper(pid_t child, unsigned long long at) {
    long word = ptrace(PTRACE_PEEKTEXT, child, (void *)at, NULL);
    const uint8_t *code = (const uint8_t *)&word;
    if (*code == 0xF2 || *code == 0xF3 || *code == 0x3E)
        code++;
    if ((*code & 0xF0) == 0x40)
        code++;
    if (*code == 0xE8 || (*code == 0xFF && (code[1] >> 3 & 7) == 2))
        return 1;
    return *code == 0xC3 || *code == 0xC2 ? -1 : 0;
}

/* The child: makes the call between two marks that the parent sees. */
static void run_traced(void *(*run)(void *), volatile int *running) {
    if (ptrace(PTRACE_TRACEME, 0, NULL, NULL) != 0)
        _exit(2);
    raise(SIGSTOP);
    *running = 1;
    run(NULL);
    *running = 0;
    _exit(0);
}

/* How many functions stand one below the other at most while `run` runs, itself not counted, in a
 * process that has a copy of all memory; -1 if no process may be traced. */
static int depth_of(void *(*run)(void *)) {
    volatile int *running =
        mmap(NULL, sizeof *running, PROT_READ | PROT_WRITE, MAP_SHARED | MAP_ANONYMOUS, -1, 0);
    if (running == MAP_FAILED)
        return -1;
    pid_t child = fork();
    if (child == 0)
        run_traced(run, running);
    int status = 0, depth = 0, most = 0;
    waitpid(child, &status, 0);
    while (WIFSTOPPED(status)) {
        struct user_regs_struct registers;
        if (*running && ptrace(PTRACE_GETREGS, child, NULL, &registers) == 0)
            depth += deeper(child, registers.rip);
        most = depth > most ? depth : most;
        if (ptrace(PTRACE_SINGLESTEP, child, NULL, NULL) != 0)
            break;
        waitpid(child, &status, 0);
    }
    munmap((void *)running, sizeof *running);
    return WIFEXITED(status) && WEXITSTATUS(status) == 0 ? most - 1 : -1;
}

#endif
