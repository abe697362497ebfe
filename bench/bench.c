/* The analysis against simulators that go one tick at a time, on the same texts, in one process. Each text goes to all of them first, and their answers must
 * be the same. Then each in turn is given the texts of a workload again and again for a slot of time; the fastest of its slots is printed.
 *
 * The six work buffers are 0 before the first call. The analysis leaves every number of them 0 after each call, and this clearing is part of its time. What
 * reading a text and clearing the buffers take of it is measured beside it.
 *
 *     bench [NAME]: only the workloads whose names begin so */
#include "simulator.h"
#include "tables.h"

#include <stdio.h>
#include <stdlib.h>
#include <string.h>
#include <time.h>

enum { SEED = 2018, SLOTS = 10, PART_SLOTS = 3, SIDES = 3, ALL = 5 };
static const double SLOT = 0.05; /* seconds of processor time */

static struct text texts[TABLES_MOST];
static uint32_t work[6][GROD_ROOM];

static void analyse(const uint8_t *text, size_t n, struct answers *out)
{
    uint32_t line, place;
    uint32_t number = grod_analyse(text, n, work[0], GROD_ROOM, work[1], GROD_ROOM, work[2], GROD_ROOM, work[3], GROD_ROOM, work[4], GROD_ROOM, work[5],
                                   GROD_ROOM, &line, &place, &out->span, &out->servers_n, &out->tasks_n, out->servers, out->tasks, out->margin);
    if (number != 0) {
        printf("refused %u %u %u\n", (unsigned)number, (unsigned)line, (unsigned)place);
        exit(1);
    }
}

/* Reading alone, which the analysis does first, and handing out what was read. */
static void read_only(const uint8_t *text, size_t n, struct answers *out)
{
    uint32_t line, place;
    struct grod_server servers[GROD_SERVERS];
    struct grod_task tasks[GROD_TASKS];
    grod_read(text, n, &line, &place, &out->span, &out->servers_n, &out->tasks_n, servers, tasks);
}

/* Clearing alone, which the analysis does last. */
static void clear_only(const uint8_t *text, size_t n, struct answers *out)
{
    (void)text, (void)n, (void)out;
    for (int i = 0; i < 6; i++) {
        memset(work[i], 0, sizeof work[i]);
        __asm__ volatile("" : : "r"(work[i]) : "memory"); /* so that no clearing is left out */
    }
}

typedef void (*side)(const uint8_t *text, size_t n, struct answers *out);
static const side sides[ALL] = {analyse, simulate, simulate_bits, read_only, clear_only};

/* Ends the run if the analysis and the simulators do not answer the same. Answers the span. */
static uint32_t check(const struct text *text)
{
    struct answers answers[SIDES];
    /* so that the entries beyond the counts, which the analysis does not write, are the same */
    memset(answers, 0, sizeof answers);
    for (int i = 0; i < SIDES; i++) {
        sides[i](text->bytes, text->n, &answers[i]);
        if (memcmp(&answers[0], &answers[i], sizeof answers[0]) == 0)
            continue;
        printf("the answers differ for this table:\n");
        fwrite(text->bytes, 1, text->n, stdout);
        exit(1);
    }
    return answers[0].span;
}

static double now(void)
{
    struct timespec t;
    clock_gettime(CLOCK_PROCESS_CPUTIME_ID, &t);
    return (double)t.tv_sec + (double)t.tv_nsec / 1e9;
}

/* Microseconds for a table, over one slot. */
static double slot(side with, size_t tables)
{
    struct answers out;
    double begun = now(), passed;
    size_t done = 0;
    do {
        for (size_t i = 0; i < tables; i++)
            with(texts[i].bytes, texts[i].n, &out);
        done += tables;
        passed = now() - begun;
    } while (passed < SLOT);
    return 1e6 * passed / (double)done;
}

static void print_row(const struct workload *w, double ticks, const double *took)
{
    printf("| %-44s | %6zu | %6.0f | %8.1f | %7.1f | %8.1f | %9.1f | %5.1f | %9.1f | %5.1f |\n", w->name, w->tables, ticks, took[0], took[3], took[4],
           took[1], took[1] / took[0], took[2], took[2] / took[0]);
    fflush(stdout);
}

static void measure(const struct workload *w)
{
    double best[ALL], ticks = 0;
    seed(SEED);
    for (size_t i = 0; i < w->tables; i++) {
        texts[i].n = 0;
        w->make(&texts[i]);
        ticks += check(&texts[i]);
    }
    for (int i = 0; i < SLOTS; i++)
        for (int j = 0; j < (i < PART_SLOTS ? ALL : SIDES); j++) {
            double took = slot(sides[j], w->tables);
            if (i == 0 || took < best[j])
                best[j] = took;
        }
    print_row(w, ticks / (double)w->tables, best);
}

int main(int count, char **words)
{
    const char *only = count < 2 ? "" : words[1];
    printf("seed %d; times are microseconds for a table\n\n", SEED);
    printf("| %-44s | %-6s | %-6s | %-8s | %-7s | %-8s | %-9s | %-5s | %-9s | %-5s |\n", "workload", "tables", "ticks", "analysis", "reading", "clearing",
           "simulator", "ratio", "with bits", "ratio");
    printf("|---|--:|--:|--:|--:|--:|--:|--:|--:|--:|\n");
    for (size_t i = 0; i < workloads_n; i++)
        if (strncmp(workloads[i].name, only, strlen(only)) == 0)
            measure(&workloads[i]);
    printf("\nthe analysis and the simulators gave the same answers for every table\n");
    return 0;
}
