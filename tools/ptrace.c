/*
 * Runs a program and meets some of its system calls: kills the program there, refuses the call,
 * shortens it, or runs a command before it. Linux on x86-64.
 *
 *   ptrace [-c] LOG HOW N[,N..] PROGRAM ARGUMENT..
 *
 * It counts the calls from 1 on, beginning after rt_sigaction, with which the start-up of the
 * program's runtime ends; with -c it counts only those that may change a file. LOG has a line for
 * each that it counted: the call's name and, if it has one, the last part of the file's name; of
 * a write the file's number. HOW is what happens at call N, and at each other call that is given:
 *
 *   list           nothing
 *   kill-before    the program is killed, and the call is not made
 *   kill-after     the call is made, and the program is killed
 *   refuse:E       the call is not made, and returns the error E
 *   refuse-on:E    so does each later call of the same name
 *   done:E         the call is made, and returns the error E
 *   short:B        a read or write of more than B bytes is one of B bytes
 *   short-on:B     so is each later call of the same name
 *   run:COMMAND    the shell runs COMMAND, and then the call is made
 *   exchange:A:B   the names A and B are exchanged, and then the call is made; at the next call
 *                  that is given they are exchanged back
 *
 * It ends with the program's exit status, with 128 and a signal's number if that ended the
 * program, and with 99 if it can't run it.
 */
#define _GNU_SOURCE
#include <fcntl.h>
#include <signal.h>
#include <stdio.h>
#include <stdlib.h>
#include <string.h>
#include <sys/ptrace.h>
#include <sys/syscall.h>
#include <sys/uio.h>
#include <sys/user.h>
#include <sys/wait.h>
#include <unistd.h>

enum { CANNOT_RUN = 99, PAGE = 4096, AT_CALL = SIGTRAP | 0x80 };

/* A call's name, which argument is a file's name (0 for none), and whether it may change a file. */
struct call {
    long number;
    const char *name;
    int file;
    int changes;
};

static const struct call known[] = {
    {SYS_read, "read", 0, 0},
    {SYS_write, "write", 0, 1},
    {SYS_close, "close", 0, 0},
    {SYS_mmap, "mmap", 0, 0},
    {SYS_munmap, "munmap", 0, 0},
    {SYS_mremap, "mremap", 0, 0},
    {SYS_brk, "brk", 0, 0},
    {SYS_fsync, "fsync", 0, 1},
    {SYS_ftruncate, "ftruncate", 0, 1},
    {SYS_getcwd, "getcwd", 0, 0},
    {SYS_rename, "rename", 1, 1},
    {SYS_unlink, "unlink", 1, 1},
    {SYS_readlink, "readlink", 1, 0},
    {SYS_fchmod, "fchmod", 0, 1},
    {SYS_fchown, "fchown", 0, 1},
    {SYS_chown, "chown", 1, 1},
    {SYS_lchown, "lchown", 1, 1},
    {SYS_openat, "openat", 2, 1},
    {SYS_statx, "statx", 2, 0},
    {SYS_exit_group, "exit_group", 0, 0},
};

static pid_t program;
static FILE *log_file;
static const char *how, *argument, *wanted;
static long counted;
static int changes_only, goes_on;

/* The call that was met, and what it returns in place of its own result. */
static long met_number = -1, answer;

static const struct call *call_of(long number)
{
    for (size_t i = 0; i < sizeof known / sizeof known[0]; i++)
        if (known[i].number == number)
            return &known[i];
    return 0;
}

static int is(const char *name)
{
    return !strcmp(how, name);
}

/* Whether a call may change a file; a write to standard output or standard error does not. */
static int may_change(const struct call *call, const struct user_regs_struct *registers)
{
    if (!call || !call->changes)
        return 0;
    if (call->number == SYS_openat)
        return (registers->rdx & (O_WRONLY | O_RDWR | O_CREAT | O_TRUNC)) != 0;
    return call->number != SYS_write || registers->rdi > 2;
}

/* Writes the line of a call to the log. */
static void write_line(const struct call *call, const struct user_regs_struct *registers)
{
    char name[PAGE] = "";
    fprintf(log_file, "%s", call ? call->name : "unknown");
    if (call && call->file) {
        unsigned long at = call->file == 1 ? registers->rdi : registers->rsi;
        unsigned long next_page = at + PAGE - at % PAGE;
        struct iovec here = {name, sizeof name - 1};
        /* what follows the name may be no memory, but not within a page */
        struct iovec there[] = {{(void *)at, next_page - at}, {(void *)next_page, PAGE}};
        if (process_vm_readv(program, &here, 1, there, 2, 0) > 0)
            fprintf(log_file, " %s", strrchr(name, '/') ? strrchr(name, '/') + 1 : name);
    } else if (call && call->number == SYS_write) {
        fprintf(log_file, " %lld", (long long)registers->rdi);
    }
    fprintf(log_file, "\n");
}

/* Whether the call of this number is one of those that were given. */
static int is_given(long number)
{
    const char *at = wanted;
    while (at && atol(at) != number)
        if ((at = strchr(at, ',')))
            at++;
    return at != 0;
}

/* Whether this call is counted and is to be met. */
static int is_met(const struct user_regs_struct *registers)
{
    const struct call *call = call_of((long)registers->orig_rax);
    if (changes_only && !may_change(call, registers))
        return 0;
    counted++;
    write_line(call, registers);
    if (is_given(counted))
        met_number = (long)registers->orig_rax;
    return is_given(counted) || (goes_on && (long)registers->orig_rax == met_number);
}

/* Exchanges the two names of the argument. */
static void exchange(void)
{
    char first[PAGE];
    const char *colon = strchr(argument, ':');
    if (!colon)
        exit(CANNOT_RUN);
    snprintf(first, sizeof first, "%.*s", (int)(colon - argument), argument);
    if (renameat2(AT_FDCWD, first, AT_FDCWD, colon + 1, RENAME_EXCHANGE))
        exit(CANNOT_RUN);
}

/* Does what is to be done before the call. */
static void meet(struct user_regs_struct *registers)
{
    int has_bytes = registers->orig_rax == SYS_read || registers->orig_rax == SYS_write;
    if (is("kill-before")) {
        kill(program, SIGKILL);
    } else if (is("refuse") || is("refuse-on")) {
        answer = -atol(argument);
        registers->orig_rax = (unsigned long long)-1;
    } else if (is("done")) {
        answer = -atol(argument);
    } else if (is("short") || is("short-on")) {
        if (has_bytes && registers->rdx > strtoull(argument, 0, 10))
            registers->rdx = strtoull(argument, 0, 10);
    } else if (is("exchange")) {
        exchange();
    } else if (is("run") && system(argument) < 0) {
        exit(CANNOT_RUN);
    }
    ptrace(PTRACE_SETREGS, program, 0, registers);
}

/* Does what is to be done after a call that was met. */
static void leave(struct user_regs_struct *registers)
{
    if (is("kill-after"))
        kill(program, SIGKILL);
    if (answer) {
        registers->rax = (unsigned long long)answer;
        ptrace(PTRACE_SETREGS, program, 0, registers);
        answer = 0;
    }
}

/* Follows the program from call to call, and returns how it ended. */
static int follow(void)
{
    int status, is_inside = 0, has_begun = 0, has_met = 0, passed_on = 0;
    while (ptrace(PTRACE_SYSCALL, program, 0, passed_on), waitpid(program, &status, 0) > 0) {
        if (WIFEXITED(status) || WIFSIGNALED(status))
            return WIFEXITED(status) ? WEXITSTATUS(status) : 128 + WTERMSIG(status);
        /* the SIGTRAP of the execv is the tracer's */
        passed_on = WSTOPSIG(status) == SIGTRAP ? 0 : WSTOPSIG(status);
        if (WSTOPSIG(status) != AT_CALL)
            continue;
        passed_on = 0;
        struct user_regs_struct registers;
        ptrace(PTRACE_GETREGS, program, 0, &registers);
        is_inside = !is_inside;
        if (is_inside && has_begun && (has_met = is_met(&registers)))
            meet(&registers);
        else if (!is_inside && has_met)
            leave(&registers);
        has_begun |= is_inside && registers.orig_rax == SYS_rt_sigaction;
    }
    return CANNOT_RUN;
}

/* Becomes the program, which stops before its first call. */
static void become(char **words)
{
    ptrace(PTRACE_TRACEME, 0, 0, 0);
    raise(SIGSTOP);
    execv(words[0], words);
    _exit(CANNOT_RUN);
}

int main(int count, char **words)
{
    int status, first = count > 1 && !strcmp(words[1], "-c") ? 2 : 1;
    changes_only = first == 2;
    if (count < first + 4 || !(log_file = fopen(words[first], "w")))
        return CANNOT_RUN;
    how = strsep(&words[first + 1], ":");
    argument = words[first + 1] ? words[first + 1] : "";
    goes_on = strlen(how) > 3 && !strcmp(how + strlen(how) - 3, "-on");
    wanted = is("list") ? "" : words[first + 2];
    program = fork();
    if (!program)
        become(words + first + 3);
    waitpid(program, &status, 0);
    ptrace(PTRACE_SETOPTIONS, program, 0, PTRACE_O_TRACESYSGOOD | PTRACE_O_EXITKILL);
    status = follow();
    fclose(log_file);
    return status;
}
