/* Times an LACPDU, a flip of Sync with its answer and a tick of libraries behind lag.h (LIST) beside Open vSwitch's lib/lacp.c, in one run:
 * `compare ROUNDS`. In each round every library makes its calls in turn, behind those of lacp.c. A line is a kind of call, how many ports, the library, and
 * the least and the median of the rounds, in ns a call; and first what a system of 2 ports has of the heap, in octets. */
#define _POSIX_C_SOURCE 199309L
#include <stdio.h>
#include <stdlib.h>
#include <string.h>
#include <time.h>

#include "compare.h"

#define X(name) extern const struct ours name;
LIST
#undef X
static const struct { const char *name; const struct ours *it; } libraries[] = {
#define X(name) {#name, &name},
LIST
#undef X
};
#define COUNT (sizeof libraries / sizeof *libraries)

/* bench.d/embedded/heap.c, and ovs.c */
extern unsigned long heap_held;
int ovs_setup(int which, int ports);
long ovs_calls(int which, int kind, long rounds);

enum { SAME, TICK, FLIP, KINDS };
static const char *const NAMES[] = {"LACPDU that changes nothing", "tick", "flip and answer"};
static const int OVS[] = {0, 1, 2};

static int ports, bond;
static double clock_time;

static double now(void) {
    struct timespec it;
    clock_gettime(CLOCK_MONOTONIC, &it);
    return (double)it.tv_sec * 1e9 + (double)it.tv_nsec;
}

static void check(long right, long wanted) {
    if (right == wanted) return;
    fprintf(stderr, "a wrong answer: %ld of %ld\n", right, wanted);
    exit(1);
}

/* ns a call. */
static double theirs(int kind) {
    const long rounds = kind == FLIP ? 200 : 20000 / ports;
    const long each = kind == TICK ? 1 : ports;
    double took = -now();
    const long right = ovs_calls(bond, OVS[kind], rounds);
    took += now();
    check(right, rounds * each);
    return took / (double)(rounds * each);
}

static double ours(const struct ours *it, int kind) {
    double took = 0;
    long right = 0, calls = 0;
    if (kind == SAME) {
        /* Few calls, so that other work seldom interrupts a round. */
        const long rounds = 2000 / ports;
        calls = rounds * ports;
        took = -now();
        for (long n = 0; n < rounds; n++) right += it->same();
        took += now();
    } else if (kind == TICK) {
        /* The partners' long timeouts end after 900 ticks. */
        calls = 700;
        check(it->same(), ports);
        took = -now();
        for (long n = 0; n < calls; n++) right += it->tick();
        took += now();
        check(it->same(), ports);
        /* LACPDUs that are periodic are sent. */
        it->setup(ports);
    } else {
        for (int n = 0; n < 200; n++, calls += ports) {
            double began = now();
            right += it->flip(n % 2 == 0);
            took += now() - began - clock_time;
            it->wait();
        }
    }
    check(right, calls);
    return took / (double)calls;
}

static int by_size(const void *a, const void *b) {
    const double x = *(const double *)a, y = *(const double *)b;
    return (x > y) - (x < y);
}

static double median(double *list, int count) {
    qsort(list, (size_t)count, sizeof *list, by_size);
    return list[count / 2];
}

static void measure(int kind, int rounds) {
    double *took[COUNT + 1];
    for (size_t at = 0; at <= COUNT; at++) {
        took[at] = malloc(sizeof(double) * (size_t)rounds * (at == COUNT ? COUNT : 1));
        if (!took[at]) abort();
    }
    for (int n = 0; n < rounds; n++) {
        for (size_t at = 0; at < COUNT; at++) {
            took[COUNT][(size_t)n * COUNT + at] = theirs(kind);
            took[at][n] = ours(libraries[at].it, kind);
        }
    }
    for (size_t at = 0; at <= COUNT; at++) {
        const double middle = median(took[at], at == COUNT ? rounds * (int)COUNT : rounds);
        printf("%s\t%d\t%s\t%.1f\t%.1f\n", NAMES[kind], ports, at == COUNT ? "lacp.c" : libraries[at].name, took[at][0], middle);
        free(took[at]);
    }
}

/* What was taken since so many octets were. */
static void print_heap(const char *name, unsigned long before) {
    printf("heap\t%d\t%s\t%lu\n", ports, name, heap_held - before);
}

int main(int argc, char **argv) {
    const int rounds = argc > 1 ? atoi(argv[1]) : 100;
    static const int SIZES[] = {2, 8, 64};
    if (rounds < 1) return 1;
    clock_time = 1e9;
    for (int n = 0; n < 1000; n++) {
        double it = -now();
        it += now();
        if (it < clock_time) clock_time = it;
    }
    for (bond = 0; bond < 3; bond++) {
        ports = SIZES[bond];
        unsigned long held = heap_held;
        check(ovs_setup(bond, ports), ports);
        if (bond == 0) print_heap("lacp.c", held);
        for (size_t at = 0; at < COUNT; at++) {
            held = heap_held;
            libraries[at].it->setup(ports);
            if (bond == 0) print_heap(libraries[at].name, held);
        }
        for (int kind = 0; kind < KINDS; kind++) measure(kind, rounds);
    }
    return 0;
}
