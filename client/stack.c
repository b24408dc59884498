/* Measures the stack that the planner takes, on sheets that take the most: `client/stack` builds this and runs it.
 *
 *   stack PROGRAM    prints, for a listing and a folding, how many bytes of stack the call takes below its caller and the least thread
 *                    that it runs in; and for the program, the least limit of its stack (`ulimit -s`) that it runs in
 *
 * What a call takes is seen on a stack that was painted before. The least size is found by trying: every one from 16 KiB on, by steps of
 * 4, in a process of its own, until the call comes back. The program is started without environment, which stands on its stack too, and
 * must come back each time of many, since the system lets its stack begin at another place each time, up to 8 KiB lower.
 */
#define _GNU_SOURCE
#include <fcntl.h>
#include <pthread.h>
#include <stdio.h>
#include <stdlib.h>
#include <string.h>
#include <sys/resource.h>
#include <sys/wait.h>
#include <unistd.h>
#include "saucewagon.h"

enum { STEP = 4096, LEAST = 16384, MOST = 1 << 20, PAINT = 0xa5, TIMES = 100, ALLOWANCE = 1000000, BYTES = 24576, SIZES = 2048 };

static uint8_t sheet[SAUCEWAGON_LONGEST];
static size_t length;
static uint8_t bytes[BYTES];
static uint64_t sizes[SIZES];
static char *top;

/* ---- the sheets: 15 carriers, 12 risers with full lists */

static void put(unsigned byte) { sheet[length++] = (uint8_t)byte; }

/* Which pairs a rule allows, and which risers it binds. */
static int none(unsigned a, unsigned b) { return (void)a, (void)b, 0; }
static int all(unsigned a, unsigned b) { return (void)a, (void)b, 1; }
static int next(unsigned a, unsigned b) { return a + 1 == b; }
static int unequal(unsigned u, unsigned v) { return u != v; }
static int from_last(unsigned u, unsigned v) { return (void)v, u == SAUCEWAGON_CARRIERS - 1; }

typedef int test(unsigned, unsigned);

static void put_rule(unsigned a, unsigned b, test *allowed)
{
    put(a), put(b);
    size_t count = length;
    put(0);
    for (unsigned u = 0; u < SAUCEWAGON_CARRIERS; u++)
        for (unsigned v = 0; v < SAUCEWAGON_CARRIERS; v++)
            if (allowed(u, v))
                put(u), put(v), sheet[count]++;
}

/* Writes a sheet with a rule for each two risers that are bound, and with so many swaps of which two make all carriers alike. */
static void write_sheet(test *bound, test *allowed, unsigned swaps)
{
    length = 0;
    put(SAUCEWAGON_CARRIERS), put(SAUCEWAGON_RISERS);
    for (unsigned riser = 0; riser < SAUCEWAGON_RISERS; riser++) {
        put(SAUCEWAGON_CARRIERS);
        for (unsigned carrier = 0; carrier < SAUCEWAGON_CARRIERS; carrier++)
            put(carrier);
    }
    size_t rules = length;
    put(0);
    for (unsigned a = 0; a < SAUCEWAGON_RISERS; a++)
        for (unsigned b = a + 1; b < SAUCEWAGON_RISERS; b++)
            if (bound(a, b))
                put_rule(a, b, allowed), sheet[rules]++;
    put(swaps);
    for (unsigned swap = 0; swap < swaps; swap++)
        for (unsigned carrier = 0; carrier < SAUCEWAGON_CARRIERS; carrier++)
            put(swap % 2 ? (carrier + 1) % SAUCEWAGON_CARRIERS : carrier < 2 ? 1 - carrier : carrier);
}

/* ---- the calls, each in a thread */

static void *list(void *unused)
{
    uint64_t place, listed, opened, total;
    top = __builtin_frame_address(0);
    saucewagon_list(sheet, length, ALLOWANCE, bytes, BYTES, sizes, SIZES, &place, &listed, &opened, &total);
    return unused;
}

static void *fold(void *unused)
{
    uint8_t row[SAUCEWAGON_RISERS], first[SAUCEWAGON_RISERS], member[SAUCEWAGON_CARRIERS];
    uint64_t place, size;
    for (unsigned riser = 0; riser < SAUCEWAGON_RISERS; riser++)
        row[riser] = (uint8_t)(SAUCEWAGON_CARRIERS - 1 - riser);
    top = __builtin_frame_address(0);
    saucewagon_fold(sheet, length, row, sizeof row, first, sizeof first, member, sizeof member, &place, &size);
    return unused;
}

typedef void *call(void *);

static void in_thread(call *made, void *stack, size_t size)
{
    pthread_attr_t with;
    pthread_t thread;
    pthread_attr_init(&with);
    if (stack ? pthread_attr_setstack(&with, stack, size) : pthread_attr_setstacksize(&with, size))
        _exit(2);
    if (pthread_create(&thread, &with, made, NULL))
        _exit(2);
    pthread_join(thread, NULL);
}

/* How many bytes below its caller a call takes. */
static size_t taken(call *made)
{
    char *stack = aligned_alloc(STEP, MOST);
    memset(stack, PAINT, MOST);
    in_thread(made, stack, MOST);
    size_t clean = 0;
    while ((unsigned char)stack[clean] == PAINT)
        clean++;
    size_t depth = (size_t)(top - (stack + clean));
    free(stack);
    return depth;
}

/* ---- trying in a process of its own */

static int came_back(pid_t child)
{
    int status;
    waitpid(child, &status, 0);
    return WIFEXITED(status) && WEXITSTATUS(status) == 0;
}

static int runs_in_thread(call *made, size_t size)
{
    pid_t child = fork();
    if (child == 0) {
        in_thread(made, NULL, size);
        _exit(0);
    }
    return came_back(child);
}

static int runs_once(char *program, size_t size)
{
    FILE *input = tmpfile();
    fwrite(sheet, 1, length, input);
    fflush(input);
    pid_t child = fork();
    if (child == 0) {
        struct rlimit limit = { size, size };
        char *words[] = { program, NULL }, *environment[] = { NULL };
        lseek(fileno(input), 0, SEEK_SET);
        dup2(fileno(input), 0);
        dup2(open("/dev/null", O_WRONLY), 1);
        setrlimit(RLIMIT_STACK, &limit);
        execve(program, words, environment);
        _exit(2);
    }
    fclose(input);
    return came_back(child);
}

static int runs_in_limit(char *program, size_t size)
{
    int time = 0;
    while (time < TIMES && runs_once(program, size))
        time++;
    return time == TIMES;
}

static unsigned least_thread(call *made)
{
    size_t size = LEAST;
    while (size < MOST && !runs_in_thread(made, size))
        size += STEP;
    return (unsigned)(size / 1024);
}

static unsigned least_limit(char *program)
{
    size_t size = LEAST;
    while (size < MOST && !runs_in_limit(program, size))
        size += STEP;
    return (unsigned)(size / 1024);
}

int main(int count, char **words)
{
    static const struct { const char *name; test *bound, *allowed; unsigned swaps; } sheets[] = {
        { "deepest: the last carrier alone leads on", next, from_last, 0 },
        { "widest: Sym(15), no rules", none, all, 2 },
        { "both: Sym(15), all risers differ", all, unequal, 2 },
        { "longest: every rule allows every pair", all, all, 8 },
    };
    if (count != 2) {
        fprintf(stderr, "stack: takes PROGRAM\n");
        return 2;
    }
    printf("%-42s %13s %10s %13s %10s %10s\n", "sheet", "listing bytes", "thread KiB", "folding bytes", "thread KiB", "program KiB");
    for (size_t i = 0; i < sizeof sheets / sizeof *sheets; i++) {
        write_sheet(sheets[i].bound, sheets[i].allowed, sheets[i].swaps);
        printf("%-42s %13zu %10u ", sheets[i].name, taken(list), least_thread(list));
        printf("%13zu %10u %10u\n", taken(fold), least_thread(fold), least_limit(words[1]));
        fflush(stdout);
    }
    return 0;
}
