// Times the two slot clocks: a packet added, and the run of all that is owed in moves of several lengths. Every piece of work
// is done by both, and what they then say is compared. Times are of the processor, so that other work on the machine counts
// little; a short piece is repeated until it lasts, and the best of five is kept, of two where it takes a second or more.
#include <stdint.h>
#include <stdio.h>
#include <stdlib.h>
#include <time.h>

typedef uint64_t work(uint64_t sessions, uint64_t size, uint64_t packets, uint64_t ticks, uint64_t moves);
work step_clock_work, jump_clock_work;

static const uint64_t SIZE = 60000;
static const int REPEAT = 5;
static const double LASTS = 0.02, LONG = 1;

static double now(void) {
    struct timespec t;
    clock_gettime(CLOCK_PROCESS_CPUTIME_ID, &t);
    return (double)t.tv_sec + (double)t.tv_nsec * 1e-9;
}

static uint64_t said;

// Seconds for one piece of work, done so many times in a row.
static double once(work *f, uint64_t sessions, uint64_t packets, uint64_t ticks, uint64_t moves, uint64_t times) {
    double begun = now();
    for (uint64_t i = 0; i < times; i++) said = f(sessions, SIZE, packets, ticks, moves);
    return (now() - begun) / (double)times;
}

static double best(work *f, uint64_t sessions, uint64_t packets, uint64_t ticks, uint64_t moves) {
    uint64_t times = 1;
    double least = once(f, sessions, packets, ticks, moves, times);
    while (least * (double)times < LASTS) {
        times *= 2;
        least = once(f, sessions, packets, ticks, moves, times);
    }
    int repeat = least > LONG ? 2 : REPEAT;
    for (int i = 1; i < repeat; i++) {
        double took = once(f, sessions, packets, ticks, moves, times);
        if (took < least) least = took;
    }
    return least;
}

static void show(double seconds) {
    if (seconds >= 1) printf(" %.2f s |", seconds);
    else if (seconds >= 1e-3) printf(" %.2f ms |", seconds * 1e3);
    else if (seconds >= 1e-6) printf(" %.2f µs |", seconds * 1e6);
    else printf(" %.0f ns |", seconds * 1e9);
}

static void compare(uint64_t a, uint64_t b) {
    if (a == b) return;
    fprintf(stderr, "the clocks differ\n");
    exit(1);
}

static const uint64_t SESSIONS[] = {1, 8, 64};

// A packet added, on the mean of the sessions: one packet for each, and as many as may be owed for the faster clock.
static void adding(void) {
    printf("| sessions | a packet added, slot by slot | a packet added, jumping |\n|---|---|---|\n");
    for (int i = 0; i < 3; i++) {
        uint64_t n = SESSIONS[i], many = 1024;
        double made = best(step_clock_work, n, 0, 1, 0);
        double step = (best(step_clock_work, n, n, 1, 0) - made) / (double)n;
        compare(said, jump_clock_work(n, SIZE, n, 1, 0));
        double jump = (best(jump_clock_work, n, many, 1, 0) - best(jump_clock_work, n, 0, 1, 0)) / (double)many;
        printf("| %llu |", (unsigned long long)n);
        show(step);
        show(jump);
        printf("\n");
        fflush(stdout);
    }
}

// A packet for each session, run to the end in moves of so many ticks: what making and adding take is taken off.
static void running(void) {
    static const uint64_t TICKS[] = {1, 1000, 1000000000};
    printf("| busy sessions | ticks in a move | moves | the run, slot by slot | for each move | the run, jumping | for each move |\n");
    printf("|---|---|---|---|---|---|---|\n");
    for (int i = 0; i < 3; i++) {
        uint64_t n = SESSIONS[i], owed = n * SIZE;
        double step_load = best(step_clock_work, n, n, 1, 0), jump_load = best(jump_clock_work, n, n, 1, 0);
        for (int j = 0; j < 3; j++) {
            uint64_t ticks = TICKS[j], moves = (owed + ticks - 1) / ticks;
            double step = best(step_clock_work, n, n, ticks, moves) - step_load;
            uint64_t by_steps = said;
            double jump = best(jump_clock_work, n, n, ticks, moves) - jump_load;
            compare(by_steps, said);
            printf("| %llu | %llu | %llu |", (unsigned long long)n, (unsigned long long)ticks, (unsigned long long)moves);
            show(step);
            show(step / (double)moves);
            show(jump);
            show(jump / (double)moves);
            printf("\n");
            fflush(stdout);
        }
    }
}

int main(void) {
    adding();
    printf("\n");
    running();
    return 0;
}
