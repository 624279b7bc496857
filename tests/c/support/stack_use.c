/* Measures the stack that wavendiru_whole_job and wavendiru_save_job take on each job that is named, in two ways:
 *   written   the stack is filled with a pattern, and the bytes that the call did not write are left
 *   needed    the call is made on smaller and smaller stacks, down to the least on which it returns; below each lies memory that cannot be
 *             touched
 * Each call is made in a process of its own that has made none before, so what the loader takes to bind memset and memcpy at their first
 * call is in the figures; so is the frame of the function that makes the call. Status: 0 if the most is not above WAVENDIRU_STACK.
 */
#define _GNU_SOURCE
#include <errno.h>
#include <signal.h>
#include <stdint.h>
#include <stdio.h>
#include <stdlib.h>
#include <string.h>
#include <sys/mman.h>
#include <sys/resource.h>
#include <sys/wait.h>
#include <ucontext.h>
#include <unistd.h>

#include "wavendiru.h"

#define ROOM ((size_t)4 << 20)  /* the largest stack that is tried */
#define STEP ((size_t)64)       /* stacks are tried in steps of this: the loader saves registers at multiples of 64, so all end alike */

static uint8_t text[WAVENDIRU_MAX_TEXT + 1];
static size_t text_len;
static uint8_t lent[WAVENDIRU_MAX_TEXT];  /* the longest report too has room here */
static uint8_t *stack;  /* its lowest byte; ROOM bytes below it cannot be touched */
static size_t stack_size;
static ucontext_t here, there;

/* The calls that are measured on each job. */
enum { WHOLE, SAVE, SAVE_SHORT, CALLS };
static const char *const call_names[CALLS] = {"whole job", "save", "save into a byte too few"};
static int chosen;
static size_t most[CALLS];
static const char *most_by[CALLS] = {"no job", "no job", "no job"};

/* What a call comes to, shared with the process that makes it. */
struct found {
    size_t length, written;
};
static struct found *found;

static void fault(const char *what)
{
    fprintf(stderr, "stack_use: %s: %s\n", what, strerror(errno));
    exit(2);
}

static void make_the_call(void)
{
    if (chosen == WHOLE)
        found->length = wavendiru_whole_job(text, text_len, lent, WAVENDIRU_LONGEST_REPORT);
    else
        found->length = wavendiru_save_job(text, text_len, lent, chosen == SAVE ? sizeof lent : text_len - 1);
}

/* Goes over to the stack, makes the call there, and comes back. Apart, since getcontext may return twice. */
static void __attribute__((noinline)) go_over(void)
{
    if (getcontext(&there) != 0)
        fault("getcontext");
    there.uc_stack.ss_sp = stack;
    there.uc_stack.ss_size = stack_size;
    there.uc_link = &here;
    makecontext(&there, make_the_call, 0);
    if (swapcontext(&here, &there) != 0)
        fault("swapcontext");
}

/* Makes the call on a stack of so many bytes, filled with the pattern. */
static void call_on(size_t size, int pattern)
{
    size_t kept = 0;
    memset(stack, pattern, size);
    stack_size = size;
    go_over();
    while (kept < size && stack[kept] == pattern)
        kept++;
    found->written = size - kept;
}

/* Whether the call returns on a stack of so many bytes; if not, it must have died of a touch of what lies below. */
static int returns_on(size_t size, int pattern)
{
    int status;
    pid_t child = fork();
    if (child < 0)
        fault("fork");
    if (child == 0) {
        struct rlimit none = {0, 0};
        setrlimit(RLIMIT_CORE, &none);
        call_on(size, pattern);
        _exit(0);
    }
    while (waitpid(child, &status, 0) < 0)
        if (errno != EINTR)
            fault("waitpid");
    if (WIFEXITED(status) && WEXITSTATUS(status) == 0)
        return 1;
    if (WIFSIGNALED(status) && (WTERMSIG(status) == SIGSEGV || WTERMSIG(status) == SIGBUS))
        return 0;
    fprintf(stderr, "stack_use: on a stack of %zu bytes the call ended in another way (status %d)\n", size, status);
    exit(2);
}

/* The most bytes written. A byte that gets one pattern's value shows under the other. */
static size_t written(void)
{
    static const int patterns[] = {0xa5, 0x3c};
    size_t most = 0;
    for (size_t i = 0; i < sizeof patterns / sizeof patterns[0]; i++) {
        if (!returns_on(ROOM, patterns[i])) {
            fprintf(stderr, "stack_use: the call does not return on %zu bytes\n", ROOM);
            exit(2);
        }
        if (found->written > most)
            most = found->written;
    }
    return most;
}

static size_t needed(void)
{
    size_t enough = ROOM, few = 0;
    while (enough - few > STEP) {
        size_t middle = (few + enough) / 2 / STEP * STEP;
        if (returns_on(middle, 0xa5))
            enough = middle;
        else
            few = middle;
    }
    return enough;
}

static void *room(size_t size, int protection, int sharing)
{
    void *made = mmap(NULL, size, protection, sharing | MAP_ANONYMOUS, -1, 0);
    if (made == MAP_FAILED)
        fault("mmap");
    return made;
}

/* A job of at least one byte, so that there are a byte too few of them. */
static void read_job(const char *name)
{
    FILE *in = fopen(name, "rb");
    if (in == NULL)
        fault(name);
    text_len = fread(text, 1, sizeof text, in);
    if (ferror(in))
        fault(name);
    fclose(in);
    errno = EINVAL;
    if (text_len == 0)
        fault(name);
}

/* Measures the chosen call on a job. */
static void measure(const char *name)
{
    const size_t wrote = written(), least = needed();
    printf("%s, %s: text %zu, written %zu: writes %zu bytes, returns on %zu, dies on %zu\n", name, call_names[chosen], text_len,
           found->length, wrote, least, least - STEP);
    if (wrote > least) {
        printf("stack_use: it writes more than it needs: the measurement is wrong\n");
        exit(1);
    }
    if (least > most[chosen]) {
        most[chosen] = least;
        most_by[chosen] = name;
    }
}

/* Prints the most that each call needs, and the most of all. */
static int tell(void)
{
    int top = WHOLE;
    for (int i = 0; i < CALLS; i++) {
        printf("%s: %zu bytes (%s)\n", call_names[i], most[i], most_by[i]);
        if (most[i] > most[top])
            top = i;
    }
    if (most[top] > WAVENDIRU_STACK)
        printf("stack_use: WAVENDIRU_STACK of the header is too small\n");
    printf("most: %zu bytes (%s); WAVENDIRU_STACK: %d\n", most[top], most_by[top], WAVENDIRU_STACK);
    return most[top] == 0 || most[top] > WAVENDIRU_STACK;
}

int main(int argc, char **argv)
{
    found = room(sizeof *found, PROT_READ | PROT_WRITE, MAP_SHARED);
    stack = (uint8_t *)room(2 * ROOM, PROT_NONE, MAP_PRIVATE) + ROOM;
    if (mprotect(stack, ROOM, PROT_READ | PROT_WRITE) != 0)
        fault("mprotect");
    for (int i = 1; i < argc; i++) {
        read_job(argv[i]);
        for (chosen = 0; chosen < CALLS; chosen++)
            measure(argv[i]);
    }
    return tell();
}
