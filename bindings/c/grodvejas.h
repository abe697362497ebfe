/* Grodvejas for programs in C: who runs in every tick of a table, each task's worst response, the report, and the table written back.
 *
 * Every call may be handed anything: any bytes, any numbers, any lengths. It ends, and answers 0, or the number of its refusal (below). A refused
 * call changes nothing that was lent or handed in, but for `*line` and `*place` where the call has them, and but for the two steps, where `*holder`
 * and `*runner` become 0. An accepted call writes 0 to `*line` and `*place`. What it writes to a buffer or an array starts at the front, and the rest
 * stays as it was; the work buffers alone are 0 throughout.
 *
 * After a refused call `*line` has the line of the text that is refused, counted from 1, with 3 to 7 and 14 to 18; `*place` has the place of the
 * field in that line, the line's first word being 1, with 5, 6 and 14 to 18. Where no line or no field is meant, it is 0.
 *
 * Pointers are never null, point to as many elements as the length behind them or the array size says, and no two of them overlap, save that two curves
 * that are only read may. A buffer of length 0 is allowed (with any pointer that is not null).
 *
 * Numbers of refusals: 1 text over 4,096 bytes; 2 text empty or not ended by a line feed; 3 first field unknown or in the wrong place, no server, no
 * task; 4 wrong count of fields; 5 an empty field; 6 number outside its range, or a capacity above its period (the place is the capacity's); 7 a 17th
 * server or a 65th task; 8 span `-` and the multiple is above 16,000; 9 a work buffer of fewer than 16,000 numbers; 10 a curve of odd length or not
 * plain; 11 the result needs more room than lent, or ends above 1,000,000; 12 an amount or a period is 0; 13 a table handed in as entries breaks the
 * rules, a step's tick, budget or waiting work is out of range, or the tick asked for is at the end of the span or later; 14 `-` where it is not
 * allowed; 15 a byte that is no digit; 16 a leading zero; 17 more than five digits; 18 an unknown server kind. */
#ifndef GRODVEJAS_H
#define GRODVEJAS_H

#include <stddef.h>
#include <stdint.h>

#ifdef __cplusplus
extern "C" {
#endif

enum {
    GROD_SERVERS = 16,    /* the most servers that a table has */
    GROD_TASKS = 64,      /* the most tasks */
    GROD_ROOM = 16000,    /* the least that a work buffer holds */
    GROD_REPORT = 4096,   /* room for any report: it has at most 2,475 bytes, by proof (`report_short`) */
    GROD_TEXT_MOST = 2603 /* room for any text that grod_write writes: it never has more bytes, by proof (`text_most`) */
};

/* in `short_period`: no period is short */
#define GROD_NEVER UINT32_MAX

/* in `outcome` */
enum { GROD_NONE = 0, GROD_WORST = 1, GROD_UNFINISHED = 2 };

/* in `kind` of a server and in `release` of a task */
enum { GROD_DEFERRABLE = 1, GROD_PERIODIC = 2 };
enum { GROD_ONCE = 1, GROD_EVERY = 2 };

/* A server of a table: so many ticks in each period. */
struct grod_server {
    uint32_t kind, capacity, period;
};

/* A task of a table. `server` counts from 1. `first` is the instant of GROD_ONCE and the offset of GROD_EVERY, `period` that of GROD_EVERY: for
 * GROD_ONCE it is handed out as 0, and not looked at where it is handed in. */
struct grod_task {
    uint32_t server, work, release, first, period, deadline;
};

/* What is answered of a server: how many full periods the span has, and the first of them, from 0, that has fewer free ticks than the capacity, or
 * GROD_NEVER. */
struct grod_server_answer {
    uint32_t full, short_period;
};

/* What is answered of a task. If `outcome` is GROD_WORST, the response and the release of the first job that attains it; if it is GROD_UNFINISHED, the
 * release of the first job that has not ended with the span; else 0. */
struct grod_task_answer {
    uint32_t outcome, response, release;
};

/* the library has them as rows of numbers of four bytes */
#ifdef __cplusplus
#define GROD_ASSERT static_assert
#else
#define GROD_ASSERT _Static_assert
#endif
GROD_ASSERT(sizeof(struct grod_server) == 12 && sizeof(struct grod_task) == 24, "entries have no gaps");
GROD_ASSERT(sizeof(struct grod_server_answer) == 8 && sizeof(struct grod_task_answer) == 12, "answers have no gaps");
#undef GROD_ASSERT

/* ---- curves: windows as pairs of numbers, start and end; a window (s, e) covers the ticks s to e - 1 */

/* Adds up two curves: the ticks at which work is done when each tick of either brings one unit. Writes the result to the front of `out`, and how many
 * numbers it has to `*count`. Refuses 10, 11. */
uint32_t grod_add(const uint32_t *a, size_t a_n, const uint32_t *b, size_t b_n, uint32_t *out, size_t out_n, size_t *count);

/* Cuts a curve at the multiples of a period. Refuses 12, 10, 11. */
uint32_t grod_cut(const uint32_t *curve, size_t curve_n, uint32_t period, uint32_t *out, size_t out_n, size_t *count);

/* Fits a demand into a supply: what is left of the supply, what is served, what is left of the demand, each to the front of a buffer of its own.
 * Refuses 10, 11. */
uint32_t grod_fit(const uint32_t *demand, size_t demand_n, const uint32_t *supply, size_t supply_n, uint32_t *left, size_t left_room, uint32_t *served,
                  size_t served_room, uint32_t *rest, size_t rest_room, size_t *left_n, size_t *served_n, size_t *rest_n);

/* Writes the instant at which the curve has given `amount` ticks to `*instant`, or 0 if it gives fewer. Refuses 12, 10. */
uint32_t grod_time_to_provide(const uint32_t *curve, size_t curve_n, uint32_t amount, uint32_t *instant);

/* ---- tables: a table is handed in as its text, or as its entries: span, counts, and arrays of servers and tasks.
 *
 * Of the arrays only the entries within the counts are written, and only they are looked at. Counts above GROD_SERVERS and GROD_TASKS may be handed in;
 * the table then breaks the rules, as it does with a count of 0, a number outside its range or a kind that is none of the stated ones. */

/* Reads a text: its span (the multiple where it is `-`), how many servers and tasks it has, and these. A deadline that is `-` is handed out as the period.
 * Refuses 1 to 8 and 14 to 18; a refused reading writes line and place alone. */
uint32_t grod_read(const uint8_t *text, size_t text_n, uint32_t *line, uint32_t *place, uint32_t *span, size_t *servers_n, size_t *tasks_n,
                   struct grod_server servers[GROD_SERVERS], struct grod_task tasks[GROD_TASKS]);

/* Writes the text of a table to the front of `out`, span and deadlines always as numbers, and how many bytes it has to `*count`. Reading it gives the
 * same span, counts and entries. Refuses 13, where the table breaks the rules, then 11, where the text does not fit; GROD_TEXT_MOST bytes are always
 * enough. */
uint32_t grod_write(uint32_t span, size_t servers_n, size_t tasks_n, const struct grod_server servers[GROD_SERVERS],
                    const struct grod_task tasks[GROD_TASKS], uint8_t *out, size_t out_n, size_t *count);

/* Goes one tick on with the machine of a text's table. The state is the tick, each server's budget and each task's waiting work, all 0 before tick 0;
 * it is handed in and, one tick later, handed out. `*holder` is the server that holds the tick, `*runner` the task that runs in it, 0 for none.
 * Entries beyond the table's counts are not tested and pass through. A refused step leaves the state as it was, and `*holder` and `*runner` are 0.
 * Refuses 1 to 8 and 14 to 18, then 13. */
uint32_t grod_step(const uint8_t *text, size_t text_n, uint32_t *tick, uint32_t budgets[GROD_SERVERS], uint32_t waiting[GROD_TASKS], uint32_t *line,
                   uint32_t *place, uint32_t *holder, uint32_t *runner);

/* The same with a table's entries, so that no text is read at each tick. Refuses 13, also where the table breaks the rules. */
uint32_t grod_step_table(uint32_t span, size_t servers_n, size_t tasks_n, const struct grod_server servers[GROD_SERVERS],
                         const struct grod_task tasks[GROD_TASKS], uint32_t *tick, uint32_t budgets[GROD_SERVERS], uint32_t waiting[GROD_TASKS],
                         uint32_t *holder, uint32_t *runner);

/* Who holds a tick of the span and who runs in it, 0 for none, from the curves. Six work buffers of at least GROD_ROOM numbers are lent; every number of
 * them is 0 after an accepted call. `*holder` and `*runner` stay as they were after a refused one. Refuses 9, then 1 to 8 and 14 to 18, then 13. */
uint32_t grod_who_at(const uint8_t *text, size_t text_n, uint32_t tick, uint32_t *free, size_t free_n, uint32_t *sum, size_t sum_n, uint32_t *part,
                     size_t part_n, uint32_t *held, size_t held_n, uint32_t *running, size_t running_n, uint32_t *spare, size_t spare_n, uint32_t *line,
                     uint32_t *place, uint32_t *holder, uint32_t *runner);

/* The answers of all servers and tasks, in their order. `margin` has that of each task: deadline minus response, below 0 when late, and 0 where the outcome
 * is not GROD_WORST. Only the first `*servers_n` entries of `servers` and the first `*tasks_n` of `tasks` and `margin` are written; the entries behind them
 * stay as they were. Work buffers as for grod_who_at. Refuses 9, then 1 to 8 and 14 to 18. */
uint32_t grod_analyse(const uint8_t *text, size_t text_n, uint32_t *free, size_t free_n, uint32_t *sum, size_t sum_n, uint32_t *part, size_t part_n,
                      uint32_t *held, size_t held_n, uint32_t *running, size_t running_n, uint32_t *spare, size_t spare_n, uint32_t *line, uint32_t *place,
                      uint32_t *span, size_t *servers_n, size_t *tasks_n, struct grod_server_answer servers[GROD_SERVERS],
                      struct grod_task_answer tasks[GROD_TASKS], int32_t margin[GROD_TASKS]);

/* Writes the report of a text, as the report program prints it, to the front of `out`, and how many bytes it has to `*count`. The report of a refused text
 * is the line `refused`, number, line, place. Takes some 410,000 bytes of stack; the other calls take less than 32,000. Refuses 11, where the report does
 * not fit. */
uint32_t grod_report(const uint8_t *text, size_t text_n, uint8_t *out, size_t out_n, size_t *count);

#ifdef __cplusplus
}
#endif
#endif
