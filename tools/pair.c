/*
 * Runs two programs and logs in which order they make their calls on names. Linux on x86-64.
 *
 *   pair LOG WHEN FIRST ARGUMENT.. -- SECOND ARGUMENT..
 *
 * A call on a name opens, creates, looks at, renames or removes a file (openat, statx, rename,
 * unlink). No program makes one while the other is inside one; so they have an order, which is that
 * of LOG. WHEN says when they are made:
 *
 *   after:N        the second program begins N microseconds after the first, and both go on as they
 *                  can: all other calls, waits for the disk too, are made side by side
 *   turns:T,U,..   the first goes on as far as T says and stops before its next call on a name, the
 *                  second as U says, the first .. : one program runs at a time. A number is that
 *                  of the calls on names that are made in this turn; b3 ends it before the third
 *                  from here that changes a name (creates, renames, removes), a3 after it. After
 *                  the last turn the next program runs to its end, and then the other
 *
 * LOG has a line for each call on a name: the program (1 or 2), the call, the last part of the
 * file's name, and 0 or the error's number; a line "1 fsync" for each wait for the disk; and last
 * the two statuses, as "ended 0 1".
 *
 * It ends with 0, or with 99 if it can't run them.
 */
#define _GNU_SOURCE
#include <fcntl.h>
#include <signal.h>
#include <stdio.h>
#include <stdlib.h>
#include <string.h>
#include <sys/ptrace.h>
#include <sys/syscall.h>
#include <sys/uio.h>
#include <sys/user.h>
#include <sys/wait.h>
#include <unistd.h>

enum { CANNOT_RUN = 99, PAGE = 4096, AT_CALL = SIGTRAP | 0x80, NOBODY = -1 };

/* One of the programs. */
struct program {
    pid_t id;
    int is_inside;   /* a call */
    int has_begun;   /* after rt_sigaction, with which the start-up of its runtime ends */
    int is_held;     /* before a call on a name, until it may make it */
    int is_on_name;  /* inside such a call */
    int is_act;      /* which changes a name */
    int has_ended, status;
    char line[PAGE]; /* the call on a name that it makes */
};

static struct program programs[2];
static FILE *log_file;

/* What ends a turn: this many calls on names, or acts: 'b' before the last, 'a' after it. */
struct turn {
    char unit;
    long count;
};

static struct turn turns[64];
static int in_turns, turn_count, turn_number;

/* The program that is inside a call on a name, in turns the one whose turn it is; and what is left
   of that turn. */
static int owner = NOBODY;
static struct turn left;

/* Reads the last part of a name. What follows it may be no memory, but not within a page. */
static void read_name(const struct program *it, unsigned long at, char *name, size_t size)
{
    unsigned long next_page = at + PAGE - at % PAGE;
    struct iovec here = {name, size - 1};
    struct iovec there[] = {{(void *)at, next_page - at}, {(void *)next_page, PAGE}};
    memset(name, 0, size);
    if (process_vm_readv(it->id, &here, 1, there, 2, 0) > 0 && strrchr(name, '/'))
        memmove(name, strrchr(name, '/') + 1, strlen(strrchr(name, '/')));
}

/* Whether a call is one on a name: then its line is made. */
static int begins_on_name(struct program *it, const struct user_regs_struct *registers)
{
    char name[PAGE / 2];
    const char *call;
    unsigned long at = registers->rsi;
    switch (registers->orig_rax) {
    case SYS_openat: call = registers->rdx & O_CREAT ? "create" : "open"; break;
    case SYS_statx: call = "look"; break;
    case SYS_rename: call = "rename", at = registers->rdi; break;
    case SYS_unlink: call = "remove", at = registers->rdi; break;
    default: return 0;
    }
    it->is_act = *call == 'c' || *call == 'r';
    read_name(it, at, name, sizeof name);
    /* a look at an open file has no name */
    if (!*name)
        return 0;
    snprintf(it->line, sizeof it->line, "%d %s %s", (int)(it - programs) + 1, call, name);
    return 1;
}

/* Resumes a program until its next stop, and sends it a signal unless that is 0. */
static void go_on(struct program *it, int signal)
{
    it->is_held = 0;
    ptrace(PTRACE_SYSCALL, it->id, 0, signal);
}

/* Whether a program that is about to make a call on a name may make it. */
static int may_go_on(const struct program *it)
{
    if (!in_turns)
        return owner == NOBODY;
    return owner == it - programs && left.count != 0 &&
           !(left.unit == 'b' && left.count == 1 && it->is_act);
}

/* Resumes the next program that may run in its turn. */
static void pass_turn(void)
{
    struct program *it;
    do {
        owner = owner == NOBODY ? 0 : !owner;
        if (programs[owner].has_ended)
            owner = !owner;
        left = turn_number < turn_count ? turns[turn_number] : (struct turn){0, -1};
        turn_number++;
        it = &programs[owner];
    } while (it->is_held ? !may_go_on(it) : left.count == 0);
    it->is_on_name = it->is_held;
    go_on(it, 0);
}

/* A program is about to make a call on a name: it makes the call, or is held. */
static void meet_name(struct program *it)
{
    it->is_held = 1;
    if (may_go_on(it)) {
        owner = (int)(it - programs);
        it->is_on_name = 1;
        go_on(it, 0);
    } else if (in_turns) {
        pass_turn();
    }
}

/* A program has made a call on a name: the other may make one. */
static void leave_name(struct program *it, const struct user_regs_struct *registers)
{
    long result = (long)registers->rax;
    struct program *other = &programs[!(it - programs)];
    fprintf(log_file, "%s %ld\n", it->line, result < 0 ? -result : 0);
    it->is_on_name = 0;
    if (in_turns) {
        left.count -= left.count > 0 && (!left.unit || it->is_act);
        return;
    }
    owner = NOBODY;
    if (other->is_held)
        meet_name(other);
}

/* A program has stopped at the beginning or the end of a call. */
static void at_call(struct program *it)
{
    struct user_regs_struct registers;
    ptrace(PTRACE_GETREGS, it->id, 0, &registers);
    it->is_inside = !it->is_inside;
    if (it->is_inside && it->has_begun && begins_on_name(it, &registers)) {
        meet_name(it);
        return;
    }
    if (it->is_inside && registers.orig_rax == SYS_fsync)
        fprintf(log_file, "%d fsync\n", (int)(it - programs) + 1);
    if (!it->is_inside && it->is_on_name)
        leave_name(it, &registers);
    it->has_begun |= it->is_inside && registers.orig_rax == SYS_rt_sigaction;
    go_on(it, 0);
}

/* A program has ended. */
static void at_end(struct program *it, int status)
{
    it->has_ended = 1;
    it->status = WIFEXITED(status) ? WEXITSTATUS(status) : 128 + WTERMSIG(status);
    if (in_turns && !programs[!(it - programs)].has_ended)
        pass_turn();
}

/* Follows both to their ends. */
static void follow(void)
{
    int status;
    while (!programs[0].has_ended || !programs[1].has_ended) {
        pid_t id = waitpid(-1, &status, 0);
        if (id < 0)
            exit(CANNOT_RUN);
        struct program *it = &programs[id == programs[1].id];
        if (WIFEXITED(status) || WIFSIGNALED(status))
            at_end(it, status);
        else if (WSTOPSIG(status) == AT_CALL)
            at_call(it);
        else /* the SIGTRAP of the execv is the tracer's */
            go_on(it, WSTOPSIG(status) == SIGTRAP ? 0 : WSTOPSIG(status));
    }
}

/* Begins a program, which stops before its first call; then it waits. */
static void begin(struct program *it, char **words, useconds_t wait)
{
    int status;
    it->id = fork();
    if (!it->id) {
        ptrace(PTRACE_TRACEME, 0, 0, 0);
        raise(SIGSTOP);
        usleep(wait);
        execv(words[0], words);
        _exit(CANNOT_RUN);
    }
    waitpid(it->id, &status, 0);
    ptrace(PTRACE_SETOPTIONS, it->id, 0, PTRACE_O_TRACESYSGOOD | PTRACE_O_EXITKILL);
}

/* Reads the turns. */
static void read_turns(char *text)
{
    char *each;
    while ((each = strsep(&text, ",")) && turn_count < 64) {
        char unit = *each == 'a' || *each == 'b' ? *each++ : 0;
        turns[turn_count++] = (struct turn){unit, atol(each)};
    }
}

int main(int count, char **words)
{
    int second = 3;
    while (second < count && strcmp(words[second], "--"))
        second++;
    if (second + 1 >= count || !(log_file = fopen(words[1], "w")))
        return CANNOT_RUN;
    words[second++] = 0;
    char *how = strsep(&words[2], ":");
    in_turns = !strcmp(how, "turns");
    if (in_turns)
        read_turns(words[2]);
    begin(&programs[0], words + 3, 0);
    begin(&programs[1], words + second, in_turns ? 0 : (useconds_t)atol(words[2]));
    if (in_turns) {
        pass_turn();
    } else {
        go_on(&programs[0], 0);
        go_on(&programs[1], 0);
    }
    follow();
    fprintf(log_file, "ended %d %d\n", programs[0].status, programs[1].status);
    fclose(log_file);
    return 0;
}
