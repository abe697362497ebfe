/* A worked example: reads a table from a file, says in plain words what the analysis answers, and who runs in one tick. Then it changes the table's entries,
 * writes them back as a text, and steps through some ticks with the entries and with the text.
 *
 *     example FILE [TICK]
 *
 * Ends with 0 if the table is accepted, 1 if it is refused, 2 if there is no file to read. */
#include "grodvejas.h"

#include <stdio.h>
#include <stdlib.h>
#include <string.h>

/* what the analysis hands out */
struct answers {
    uint32_t span;
    size_t servers_n, tasks_n;
    struct grod_server_answer servers[GROD_SERVERS];
    struct grod_task_answer tasks[GROD_TASKS];
    int32_t margin[GROD_TASKS];
};

/* a table as its entries */
struct table {
    uint32_t span;
    size_t servers_n, tasks_n;
    struct grod_server servers[GROD_SERVERS];
    struct grod_task tasks[GROD_TASKS];
};

/* the machine's state before a tick */
struct state {
    uint32_t tick, budgets[GROD_SERVERS], waiting[GROD_TASKS];
};

/* how many ticks are stepped through, and what stands in every place of a buffer before it is lent */
enum { STEPS = 6, BEFORE = '#' };

/* one byte more than a text may have: what is longer is refused by the library, as number 1 */
static uint8_t text[4097];

/* the six work buffers: too large for some stacks, so they are static */
static uint32_t work[6][GROD_ROOM];

static int refused(const char *what, uint32_t number, uint32_t line, uint32_t place)
{
    printf("%s: refused, number %u", what, (unsigned)number);
    if (line != 0)
        printf(", line %u", (unsigned)line);
    if (place != 0)
        printf(", field %u", (unsigned)place);
    printf("\n");
    return 1;
}

static void say_server(size_t number, struct grod_server_answer server)
{
    printf("server %zu: %u full periods, ", number, (unsigned)server.full);
    if (server.short_period == GROD_NEVER)
        printf("none is short of free ticks\n");
    else
        printf("the first that is short of free ticks is period %u, counted from 0\n", (unsigned)server.short_period);
}

static void say_worst(uint32_t response, uint32_t release, int32_t margin)
{
    printf("worst response %u, of the job released at %u; margin %d, ", (unsigned)response, (unsigned)release, (int)margin);
    printf(margin < 0 ? "late\n" : "in time\n");
}

static void say_task(size_t number, struct grod_task_answer task, int32_t margin)
{
    printf("task %zu: ", number);
    if (task.outcome == GROD_WORST)
        say_worst(task.response, task.release, margin);
    else if (task.outcome == GROD_UNFINISHED)
        printf("unfinished: the job released at %u has not ended with the span\n", (unsigned)task.release);
    else
        printf("none: it is not released in the span\n");
}

/* The analysis of the text's first `n` bytes, in words. */
static int analyse(size_t n)
{
    struct answers a;
    uint32_t line, place;
    uint32_t number = grod_analyse(text, n, work[0], GROD_ROOM, work[1], GROD_ROOM, work[2], GROD_ROOM, work[3], GROD_ROOM, work[4], GROD_ROOM,
                                   work[5], GROD_ROOM, &line, &place, &a.span, &a.servers_n, &a.tasks_n, a.servers, a.tasks, a.margin);
    if (number != 0)
        return refused("table", number, line, place);
    printf("span: %u ticks\n", (unsigned)a.span);
    for (size_t i = 0; i < a.servers_n; i++)
        say_server(i + 1, a.servers[i]);
    for (size_t j = 0; j < a.tasks_n; j++)
        say_task(j + 1, a.tasks[j], a.margin[j]);
    return 0;
}

/* Who holds a tick and who runs in it, in words. */
static void say_who(uint32_t tick, uint32_t holder, uint32_t runner)
{
    if (holder == 0)
        printf("tick %u: nobody holds it\n", (unsigned)tick);
    else if (runner == 0)
        printf("tick %u: server %u holds it idle\n", (unsigned)tick, (unsigned)holder);
    else
        printf("tick %u: server %u holds it, task %u runs\n", (unsigned)tick, (unsigned)holder, (unsigned)runner);
}

/* The same of a tick of the text, from the curves. */
static int ask(size_t n, uint32_t tick)
{
    uint32_t line, place, holder, runner;
    uint32_t number = grod_who_at(text, n, tick, work[0], GROD_ROOM, work[1], GROD_ROOM, work[2], GROD_ROOM, work[3], GROD_ROOM, work[4], GROD_ROOM,
                                  work[5], GROD_ROOM, &line, &place, &holder, &runner);
    if (number != 0)
        return refused("tick", number, line, place);
    say_who(tick, holder, runner);
    return 0;
}

static uint32_t write_table(const struct table *t, uint8_t *out, size_t room, size_t *count)
{
    return grod_write(t->span, t->servers_n, t->tasks_n, t->servers, t->tasks, out, room, count);
}

/* Tries a writing that has to be refused, into so many bytes, and says whether the buffer and the count are as they were. */
static void say_refused(const char *what, const struct table *t, size_t room)
{
    uint8_t before[GROD_TEXT_MOST], after[GROD_TEXT_MOST];
    size_t count = BEFORE;
    memset(before, BEFORE, sizeof before);
    memset(after, BEFORE, sizeof after);
    refused(what, write_table(t, after, room, &count), 0, 0);
    printf(memcmp(before, after, sizeof after) == 0 && count == BEFORE ? "nothing was written\n" : "something was written\n");
}

/* Goes one tick on with the entries and with their text of `n` bytes, and says who runs. Answers 1 if it is not the same from both. */
static int step_both(const struct table *t, struct state *entries, const uint8_t *written, size_t n, struct state *texts)
{
    uint32_t tick = entries->tick, line, place, holder, runner, text_holder, text_runner;
    uint32_t number = grod_step_table(t->span, t->servers_n, t->tasks_n, t->servers, t->tasks, &entries->tick, entries->budgets, entries->waiting,
                                      &holder, &runner);
    if (number != 0)
        return refused("step with entries", number, 0, 0);
    number = grod_step(written, n, &texts->tick, texts->budgets, texts->waiting, &line, &place, &text_holder, &text_runner);
    if (number != 0)
        return refused("step with the text", number, line, place);
    say_who(tick, holder, runner);
    return holder != text_holder || runner != text_runner || memcmp(entries, texts, sizeof *entries) != 0;
}

/* The first ticks of a table, with the entries and with their text. */
static int step_some(const struct table *t, const uint8_t *written, size_t n)
{
    struct state entries = {0}, texts = {0};
    for (uint32_t tick = 0; tick < STEPS && tick < t->span; tick++)
        if (step_both(t, &entries, written, n, &texts) != 0) {
            printf("the steps differ\n");
            return 1;
        }
    printf("stepped with the entries, and the same with the text\n");
    return 0;
}

/* Reads the text's first `n` bytes as entries, gives the first server a capacity of 1, and shows the text that is written. */
static int edit(size_t n)
{
    struct table t;
    uint8_t written[GROD_TEXT_MOST];
    size_t count;
    uint32_t line, place, number = grod_read(text, n, &line, &place, &t.span, &t.servers_n, &t.tasks_n, t.servers, t.tasks);
    if (number != 0)
        return refused("table", number, line, place);
    t.servers[0].capacity = 1;
    number = write_table(&t, written, sizeof written, &count);
    if (number != 0)
        return refused("writing", number, 0, 0);
    printf("with a capacity of 1 for server 1:\n");
    fwrite(written, 1, count, stdout);
    say_refused("with one byte too few", &t, count - 1);
    struct table wrong = t;
    wrong.servers[0].kind = 3;
    say_refused("with a kind of 3", &wrong, GROD_TEXT_MOST);
    return step_some(&t, written, count);
}

int main(int count, char **words)
{
    FILE *file = count < 2 ? NULL : fopen(words[1], "rb");
    if (file == NULL) {
        fprintf(stderr, "usage: example FILE [TICK], where FILE is a table to read\n");
        return 2;
    }
    size_t n = fread(text, 1, sizeof text, file);
    fclose(file);
    if (analyse(n) != 0)
        return 1;
    int asked = ask(n, count < 3 ? 0 : (uint32_t)strtoul(words[2], NULL, 10));
    int edited = edit(n);
    return asked != 0 ? asked : edited;
}
