// tanks.lus as a compiler to C writes it: a struct of memories for each node that has some, and a
// step function for each node. The program reads a trace text into rows, evaluates them a few
// times, writes the report, and on standard error the nanoseconds of one instant in the fastest
// run.
#include <stdbool.h>
#include <stdint.h>
#include <stdio.h>
#include <stdlib.h>
#include <string.h>
#include <time.h>

enum { TANKS = 8, HALF = TANKS / 2, COLUMNS = TANKS + 3 };
enum verdict { PASSED, FAULT, ASSERTION, FALSE_, VERDICTS };

// The operators: a result out of the range of int, or a division by zero, is a fault.
static inline int32_t add(int32_t a, int32_t b, bool *fault) {
    int32_t result;
    *fault |= __builtin_add_overflow(a, b, &result);
    return result;
}

static inline int32_t sub(int32_t a, int32_t b, bool *fault) {
    int32_t result;
    *fault |= __builtin_sub_overflow(a, b, &result);
    return result;
}

static inline int32_t mul(int32_t a, int32_t b, bool *fault) {
    int32_t result;
    *fault |= __builtin_mul_overflow(a, b, &result);
    return result;
}

static inline bool divides(int32_t a, int32_t b) {
    return b != 0 && !(a == INT32_MIN && b == -1);
}

static inline int32_t quotient(int32_t a, int32_t b, bool *fault) {
    if (divides(a, b)) return a / b;
    *fault = true;
    return 0;
}

static inline int32_t rest(int32_t a, int32_t b, bool *fault) {
    if (divides(a, b)) return a % b;
    *fault = true;
    return 0;
}

static int32_t clip(int32_t x, int32_t low, int32_t high) {
    return x < low ? low : x > high ? high : x;
}

static int32_t sum(const int32_t *a, int n, bool *fault) {
    int32_t total = 0;
    for (int i = 0; i < n; i++) total = add(total, a[i], fault);
    return total;
}

struct smooth {
    bool started;
    int32_t y;
};

static int32_t smooth_step(struct smooth *self, int32_t x, bool *fault) {
    int32_t before = self->started ? self->y : x;
    self->started = true;
    return self->y = quotient(add(mul(3, before, fault), x, fault), 4, fault);
}

static int32_t lack(int32_t level, int32_t wanted, bool *fault) {
    return clip(sub(wanted, level, fault), 0, 400);
}

struct valve {
    bool started;
    int32_t opening;
};

static int32_t valve_step(struct valve *self, int32_t need, int32_t total, bool *fault) {
    int32_t share = total == 0 ? 0 : quotient(mul(need, 1000, fault), total, fault);
    int32_t before = self->started ? self->opening : 0;
    self->started = true;
    return self->opening = clip(share, sub(before, 40, fault), add(before, 40, fault));
}

struct supervise {
    bool started;
    int32_t sum, count;
};

static void supervise_step(struct supervise *self, int32_t mean, int32_t *trim, int32_t *turn,
                           bool *fault) {
    int32_t before = self->started ? self->sum : 0;
    self->sum = clip(add(before, sub(500, mean, fault), fault), -3200, 3200);
    self->count = self->started ? add(self->count, 1, fault) : 0;
    self->started = true;
    *trim = quotient(self->sum, 16, fault);
    *turn = rest(self->count, TANKS, fault);
}

struct farm {
    bool started, known;
    int32_t late, slow_trim, slow_turn;
    struct smooth smooth[TANKS];
    struct valve valve[TANKS];
    struct supervise supervise;
};

static enum verdict farm_step(struct farm *self, const int32_t *row) {
    const int32_t *level = row, wanted = row[TANKS], demand = row[TANKS + 1];
    bool message = row[TANKS + 2], fault = false;
    int32_t smoothed[TANKS], need[TANKS], opening[TANKS];

    bool assumed = 0 <= wanted && wanted <= 1000;
    for (int i = 0; i < TANKS; i++)
        smoothed[i] = smooth_step(&self->smooth[i], level[i], &fault);
    int32_t mean = quotient(sum(smoothed, TANKS, &fault), TANKS, &fault);

    if (message)
        supervise_step(&self->supervise, mean, &self->slow_trim, &self->slow_turn, &fault);
    self->known = message || self->known;
    int32_t trim = self->known ? self->slow_trim : 0;
    int32_t turn = self->known ? self->slow_turn : 0;

    int32_t aim = clip(add(wanted, trim, &fault), 0, 1000);
    for (int i = 0; i < TANKS; i++) need[i] = lack(smoothed[i], aim, &fault);
    int32_t total = sum(need, TANKS, &fault);
    for (int i = 0; i < TANKS; i++)
        opening[i] = valve_step(&self->valve[i], need[i], total, &fault);

    int32_t left = sum(opening, HALF, &fault), right = sum(opening + HALF, HALF, &fault);
    int32_t strain = quotient(mul(demand, 100, &fault),
                              add(add(1, left, &fault), right, &fault), &fault);
    int32_t period = rest(demand, add(turn, 3, &fault), &fault);
    bool is_late = strain > add(1000, period, &fault);
    self->late = is_late ? add(self->started ? self->late : 0, 1, &fault) : 0;
    bool balanced = sub(left, right, &fault) < 4000;
    balanced &= sub(right, left, &fault) < 4000;
    self->started = true;
    bool ok = balanced && (self->late == 0 || strain < 100000);

    return fault ? FAULT : !assumed ? ASSERTION : !ok ? FALSE_ : PASSED;
}

// The traces: their names, and their rows one after the other.
struct trace {
    char name[65];
    long first, length, instant;
    enum verdict verdict;
};

static struct trace *traces;
static int32_t (*rows)[COLUMNS];
static long trace_count, row_count;

static void read_traces(const char *path) {
    FILE *file = fopen(path, "r");
    char line[1024];
    long trace_room = 0, row_room = 0;
    if (!file || !fgets(line, sizeof line, file)) exit(3);
    while (fgets(line, sizeof line, file)) {
        char *cell = strchr(line, ',');
        *cell = 0;
        if (trace_count == 0 || strcmp(traces[trace_count - 1].name, line) != 0) {
            if (trace_count == trace_room)
                traces = realloc(traces, (trace_room = 2 * trace_room + 64) * sizeof *traces);
            traces[trace_count] = (struct trace){.first = row_count};
            strcpy(traces[trace_count++].name, line);
        }
        if (row_count == row_room)
            rows = realloc(rows, (row_room = 2 * row_room + 4096) * sizeof *rows);
        for (int c = 0; c < COLUMNS; c++) rows[row_count][c] = strtol(cell + 1, &cell, 10);
        row_count++;
        traces[trace_count - 1].length++;
    }
    fclose(file);
}

static void evaluate(void) {
    for (struct trace *trace = traces; trace < traces + trace_count; trace++) {
        struct farm farm = {0};
        long t = 0;
        enum verdict verdict = PASSED;
        while (t < trace->length && !(verdict = farm_step(&farm, rows[trace->first + t]))) t++;
        trace->verdict = verdict;
        trace->instant = t;
    }
}

static double nanoseconds(void) {
    struct timespec now;
    clock_gettime(CLOCK_MONOTONIC, &now);
    return now.tv_sec * 1e9 + now.tv_nsec;
}

int main(int argc, char **argv) {
    static const char *words[VERDICTS] = {"passed", "fault", "assertion", "false"};
    long totals[VERDICTS] = {0};
    double shortest = 1e30;
    if (argc != 2) return 2;
    read_traces(argv[1]);
    for (int run = 0; run < 5; run++) {
        double start = nanoseconds();
        evaluate();
        double took = nanoseconds() - start;
        shortest = took < shortest ? took : shortest;
    }
    for (struct trace *trace = traces; trace < traces + trace_count; trace++) {
        totals[trace->verdict]++;
        if (trace->verdict == PASSED) printf("%s passed\n", trace->name);
        else printf("%s %s %ld\n", trace->name, words[trace->verdict], trace->instant);
    }
    printf("total %ld passed %ld fault %ld undefined 0 assertion %ld false %ld\n", trace_count,
           totals[PASSED], totals[FAULT], totals[ASSERTION], totals[FALSE_]);
    fprintf(stderr, "%.2f\n", shortest / row_count);
    return 0;
}
