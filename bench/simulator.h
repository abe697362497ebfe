/* The opponents of the analysis: simulators that go one tick at a time. */
#ifndef SIMULATOR_H
#define SIMULATOR_H

#include "grodvejas.h"

/* The answers of a table, as grod_analyse hands them out. */
struct answers {
    uint32_t span;
    size_t servers_n, tasks_n;
    struct grod_server_answer servers[GROD_SERVERS];
    struct grod_task_answer tasks[GROD_TASKS];
    int32_t margin[GROD_TASKS];
};

/* The answers of a text, which has to be a table that is accepted: by walks along servers and tasks, and by sets of bits. */
void simulate(const uint8_t *text, size_t text_n, struct answers *out);
void simulate_bits(const uint8_t *text, size_t text_n, struct answers *out);

#endif
