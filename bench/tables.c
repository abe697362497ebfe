/* The tables that the benchmark measures. */
#include "tables.h"

#include <math.h>
#include <stdarg.h>
#include <stdio.h>
#include <stdlib.h>

/* ---- random numbers (splitmix64) */

static uint64_t random_state;

void seed(uint64_t with)
{
    random_state = with;
}

static uint64_t random_bits(void)
{
    uint64_t z = random_state += 0x9e3779b97f4a7c15u;
    z = (z ^ z >> 30) * 0xbf58476d1ce4e5b9u;
    z = (z ^ z >> 27) * 0x94d049bb133111ebu;
    return z ^ z >> 31;
}

/* From low to high, both included. */
static uint32_t between(uint32_t low, uint32_t high)
{
    return low + (uint32_t)(random_bits() % (high - low + 1));
}

/* From 0 to 1, never 0. */
static double fraction(void)
{
    return ((double)(random_bits() >> 11) + 1) / 9007199254740992.0;
}

/* ---- writing a text */

static void write_line(struct text *out, const char *format, ...)
{
    va_list words;
    va_start(words, format);
    int n = vsnprintf((char *)out->bytes + out->n, TEXT_MOST - out->n, format, words);
    va_end(words);
    if (n < 0 || out->n + (size_t)n >= TEXT_MOST)
        abort();
    out->n += (size_t)n;
}

static void write_server(struct text *out, int periodic, uint32_t capacity, uint32_t period)
{
    write_line(out, "server\t%s\t%u\t%u\n", periodic ? "periodic" : "deferrable", capacity, period);
}

static void write_every(struct text *out, uint32_t server, uint32_t work, uint32_t offset, uint32_t period)
{
    write_line(out, "every\t%u\t%u\t%u\t%u\t-\n", server, work, offset, period);
}

/* ---- dense, sparse, refills */

/* 16 servers, every second one periodic, and four tasks in each with works of 1 to 4: three quarters of the ticks are wanted. */
static void make_dense(struct text *out)
{
    write_line(out, "span\t16000\n");
    for (uint32_t s = 0; s < 16; s++) {
        uint32_t period = between(40, 200);
        write_server(out, s % 2 == 1, period / 17, period);
    }
    for (uint32_t j = 0; j < 64; j++) {
        uint32_t work = between(1, 4);
        write_every(out, j % 16 + 1, work, between(0, 100), work * between(75, 95));
    }
}

/* Servers with periods of thousands, and two tasks in each with long works: a fixed part of the span is wanted, however many servers there are. */
static void make_sparse(struct text *out, uint32_t servers)
{
    write_line(out, "span\t16000\n");
    for (uint32_t s = 0; s < servers; s++) {
        uint32_t period = between(2000, 8000);
        write_server(out, s % 3 == 1, period * 9 / 10 / servers, period);
    }
    for (uint32_t s = 1; s <= servers; s++) {
        uint32_t period = between(4000, 8000);
        write_every(out, s, period / 3 / servers, between(0, 2000), period);
        write_line(out, "once\t%u\t%u\t%u\t%u\n", s, between(900, 4500) / servers, between(0, 8000), between(4000, 16000));
    }
}

static void make_sparse_3(struct text *out) { make_sparse(out, 3); }
static void make_sparse_16(struct text *out) { make_sparse(out, 16); }

/* Five servers with periods of 2 to 8, one tick in each period, and jobs that take hundreds of periods. */
static void make_refills(struct text *out)
{
    uint32_t periods[5];
    write_line(out, "span\t16000\n");
    for (uint32_t s = 0; s < 5; s++) {
        periods[s] = s == 4 ? between(2, 8) : between(5, 8);
        write_server(out, s == 2, 1, periods[s]);
    }
    for (uint32_t j = 0; j < 10; j++) {
        uint32_t period = between(400, 2000);
        write_every(out, j / 2 + 1, period * 2 / 5 / periods[j / 2], between(0, 100), period);
    }
}

/* ---- one table, with all times so many times as long */

static void make_times(struct text *out, uint32_t f)
{
    write_line(out, "span\t%u\n", 1000 * f);
    write_server(out, 0, 10 * f, 40 * f);
    write_server(out, 1, 20 * f, 50 * f);
    write_every(out, 1, 7 * f, 0, 25 * f);
    write_every(out, 2, 9 * f, 0, 50 * f);
}

static void make_times_1(struct text *out) { make_times(out, 1); }
static void make_times_4(struct text *out) { make_times(out, 4); }
static void make_times_16(struct text *out) { make_times(out, 16); }

/* ---- the experiments of source document 000, section 8.2 */

struct experiment {
    uint32_t tasks, servers;
    double load;
    enum { DEFERRABLE, PERIODIC, MIXED } kinds;
    int offsets;
};

/* 8.2.5 and 8.2.6 do not name their load */
static const struct experiment experiments[] = {
    {5, 1, 0.6, DEFERRABLE, 0}, {7, 2, 0.7, DEFERRABLE, 0}, {5, 2, 0.7, DEFERRABLE, 1},
    {7, 3, 0.6, PERIODIC, 0},   {10, 3, 0.6, MIXED, 0},     {8, 3, 0.6, MIXED, 1},
};

struct drawn_task {
    uint32_t work, period;
};

struct drawn_server {
    uint32_t tasks, capacity, period;
};

struct drawn {
    struct drawn_task tasks[10];
    struct drawn_server servers[3];
};

/* A divisor of 14,400, drawn log-uniformly from low to high: so the least common multiple of all periods is at most 14,400. */
static uint32_t draw_period(uint32_t low, uint32_t high)
{
    double wanted = low * pow((double)high / low, fraction());
    uint32_t best = low;
    for (uint32_t d = low; d <= high; d++)
        if (14400 % d == 0 && fabs(log(d / wanted)) < fabs(log(best / wanted)))
            best = d;
    return best;
}

/* Loads of tasks that sum to a given one (UUnifast), in whole ticks of work. */
static void draw_tasks(const struct experiment *e, struct drawn *out)
{
    double rest = e->load;
    for (uint32_t j = 0; j < e->tasks; j++) {
        uint32_t behind = e->tasks - 1 - j;
        double next = behind == 0 ? 0 : rest * pow(fraction(), 1.0 / behind);
        uint32_t period = draw_period(60, 1800);
        uint32_t work = (uint32_t)lround((rest - next) * period);
        out->tasks[j].period = period;
        out->tasks[j].work = work == 0 ? 1 : work;
        rest = next;
    }
}

/* A composition of the tasks into as many parts as there are servers: the ends of the parts but the last are drawn without repeats. */
static void draw_parts(const struct experiment *e, struct drawn *out)
{
    uint32_t left = e->servers, begun = 0;
    for (uint32_t j = 1; j <= e->tasks; j++) {
        uint32_t places = e->tasks - j;
        if (j != e->tasks && (left == 1 || between(1, places) > left - 1))
            continue;
        out->servers[e->servers - left].tasks = j - begun;
        begun = j;
        left--;
    }
}

/* Periods, and capacities a tenth above what the server's tasks want. Answers whether they all fit on the processor. */
static int draw_servers(const struct experiment *e, struct drawn *out)
{
    double sum = 0;
    uint32_t j = 0;
    for (uint32_t s = 0; s < e->servers; s++) {
        struct drawn_server *server = &out->servers[s];
        double load = 0;
        for (uint32_t end = j + server->tasks; j < end; j++)
            load += (double)out->tasks[j].work / out->tasks[j].period;
        server->period = draw_period(20, 400);
        server->capacity = (uint32_t)ceil(1.1 * load * server->period);
        sum += (double)server->capacity / server->period;
    }
    return sum <= 1;
}

static void write_experiment(const struct experiment *e, const struct drawn *drawn, struct text *out)
{
    uint32_t j = 0;
    write_line(out, "span\t-\n");
    for (uint32_t s = 0; s < e->servers; s++)
        write_server(out, e->kinds == MIXED ? (int)between(0, 1) : e->kinds == PERIODIC, drawn->servers[s].capacity, drawn->servers[s].period);
    for (uint32_t s = 0; s < e->servers; s++)
        for (uint32_t end = j + drawn->servers[s].tasks; j < end; j++) {
            uint32_t period = drawn->tasks[j].period;
            write_every(out, s + 1, drawn->tasks[j].work, e->offsets ? between(0, period * 2 / 5) : 0, period);
        }
}

static void make_experiment(const struct experiment *e, struct text *out)
{
    struct drawn drawn;
    do {
        draw_tasks(e, &drawn);
        draw_parts(e, &drawn);
    } while (!draw_servers(e, &drawn));
    write_experiment(e, &drawn, out);
}

static void make_1(struct text *out) { make_experiment(&experiments[0], out); }
static void make_2(struct text *out) { make_experiment(&experiments[1], out); }
static void make_3(struct text *out) { make_experiment(&experiments[2], out); }
static void make_4(struct text *out) { make_experiment(&experiments[3], out); }
static void make_5(struct text *out) { make_experiment(&experiments[4], out); }
static void make_6(struct text *out) { make_experiment(&experiments[5], out); }

const struct workload workloads[] = {
    {"dense", 20, make_dense},
    {"sparse, 3 servers", 20, make_sparse_3},
    {"sparse, 16 servers", 20, make_sparse_16},
    {"refills", 20, make_refills},
    {"one table", 1, make_times_1},
    {"one table, all times x 4", 1, make_times_4},
    {"one table, all times x 16", 1, make_times_16},
    {"8.2.1, one deferrable server", 500, make_1},
    {"8.2.2, two deferrable servers", 500, make_2},
    {"8.2.3, two deferrable servers, offsets", 500, make_3},
    {"8.2.4, three periodic servers", 500, make_4},
    {"8.2.5, three servers of either kind", 500, make_5},
    {"8.2.6, three servers of either kind, offsets", 500, make_6},
};
const size_t workloads_n = sizeof workloads / sizeof *workloads;
