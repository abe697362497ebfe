/* A simulator of servers and tasks, one tick at a time, by the rules of the scope document. It trusts its text, allocates nothing, and does in a tick only
 * what the tick needs: it looks at refills only where a server has one, and at releases only where a task has one.
 *
 * It is compiled twice. `simulate` walks down the servers and then down the tasks of one, and stops at the first that can run; `simulate_bits` keeps those
 * that can run as sets of bits. */
#include "simulator.h"

#include <string.h>

#ifdef BITS
#define SIMULATE simulate_bits
#else
#define SIMULATE simulate
#endif

enum { SPAN_MOST = 16000, FAR = 1 << 20, NOBODY = 99 };

/* Servers by number, from 0; tasks server after server, in the order of their numbers within each. */
static struct machine {
    uint32_t span, servers, tasks;

    uint32_t capacity[GROD_SERVERS], period[GROD_SERVERS];
    uint32_t budget[GROD_SERVERS];
    uint8_t periodic[GROD_SERVERS];
    uint32_t refill[GROD_SERVERS];    /* the next refill */
    uint32_t next_refill;             /* the first of them */
    uint32_t held[GROD_SERVERS];      /* ticks held so far */
    uint32_t above[GROD_SERVERS];     /* ticks held by the servers above when the period began */
    uint32_t full[GROD_SERVERS], short_period[GROD_SERVERS];
    uint32_t first[GROD_SERVERS + 1]; /* the tasks of server s are first[s] to first[s + 1] - 1 */

    uint32_t number[GROD_TASKS];      /* the place in the text, from 0 */
    uint32_t server[GROD_TASKS], work[GROD_TASKS], every[GROD_TASKS], deadline[GROD_TASKS];
    uint32_t waiting[GROD_TASKS];
    uint32_t left[GROD_TASKS];        /* of the first job that has not ended */
    uint32_t job[GROD_TASKS];         /* its release */
    uint32_t worst[GROD_TASKS], worst_job[GROD_TASKS];

    uint8_t due[SPAN_MOST];           /* the first task released at a tick, counted from 1, or 0 */
    uint8_t due_next[GROD_TASKS];     /* the next one */
} m;

#ifdef BITS
#include "ready_bits.h"
#else
#include "ready_walk.h"
#endif

/* ---- reading */

/* The number in a field, 0 for `-`; goes on behind the field. */
static uint32_t field(const uint8_t **at)
{
    uint32_t n = 0;
    for (; **at > ' '; (*at)++)
        if (**at != '-')
            n = 10 * n + (uint32_t)(**at - '0');
    (*at)++;
    return n;
}

static uint32_t divisor(uint32_t a, uint32_t b)
{
    return b == 0 ? a : divisor(b, a % b);
}

static void read_server(const uint8_t **at)
{
    uint32_t s = m.servers++;
    m.periodic[s] = **at == 'p';
    field(at);
    m.capacity[s] = field(at);
    m.period[s] = field(at);
}

/* A task line as it stands in the text. */
struct line {
    uint32_t server, work, release, every, deadline;
};

static struct line read_task(const uint8_t **at, int once)
{
    struct line l;
    l.server = field(at) - 1;
    l.work = field(at);
    l.release = field(at);
    l.every = once ? FAR : field(at);
    l.deadline = field(at);
    if (l.deadline == 0)
        l.deadline = l.every;
    return l;
}

/* Puts the tasks in the order of their servers. */
static void sort_tasks(const struct line *lines)
{
    uint32_t k = 0;
    for (uint32_t s = 0; s < m.servers; s++) {
        m.first[s] = k;
        for (uint32_t j = 0; j < m.tasks; j++) {
            if (lines[j].server != s)
                continue;
            m.number[k] = j;
            m.server[k] = s;
            m.work[k] = lines[j].work;
            m.job[k] = lines[j].release;
            m.every[k] = lines[j].every;
            m.deadline[k] = lines[j].deadline;
            k++;
        }
    }
    m.first[m.servers] = k;
}

/* The least common multiple of all periods. */
static uint32_t common_span(void)
{
    uint32_t span = 1;
    for (uint32_t s = 0; s < m.servers; s++)
        span = span / divisor(span, m.period[s]) * m.period[s];
    for (uint32_t k = 0; k < m.tasks; k++)
        if (m.every[k] != FAR)
            span = span / divisor(span, m.every[k]) * m.every[k];
    return span;
}

static void read_table(const uint8_t *text, size_t text_n)
{
    const uint8_t *at = text, *end = text + text_n;
    struct line lines[GROD_TASKS];
    field(&at);
    m.span = field(&at);
    m.servers = 0;
    m.tasks = 0;
    while (at < end) {
        uint8_t letter = *at;
        field(&at);
        if (letter == 's')
            read_server(&at);
        else
            lines[m.tasks++] = read_task(&at, letter == 'o');
    }
    sort_tasks(lines);
    if (m.span == 0)
        m.span = common_span();
}

/* ---- running */

/* Notes that a task is released at a tick, if that is in the span. */
static void note_release(uint32_t k, uint32_t t)
{
    if (t >= m.span)
        return;
    m.due_next[k] = m.due[t];
    m.due[t] = (uint8_t)(k + 1);
}

static void begin(void)
{
    m.next_refill = FAR;
    for (uint32_t s = 0; s < m.servers; s++) {
        m.budget[s] = m.capacity[s];
        m.refill[s] = m.period[s];
        if (m.period[s] < m.next_refill)
            m.next_refill = m.period[s];
        m.held[s] = 0;
        m.above[s] = 0;
        m.full[s] = 0;
        m.short_period[s] = GROD_NEVER;
    }
    begin_ready();
    memset(m.due, 0, m.span);
    for (uint32_t k = 0; k < m.tasks; k++) {
        m.waiting[k] = 0;
        m.left[k] = m.work[k];
        m.worst[k] = 0;
        note_release(k, m.job[k]);
    }
}

/* Ends a period of a server, while the servers above have held so many ticks in all, and begins the next. */
static void turn(uint32_t s, uint32_t above)
{
    if (above - m.above[s] > m.period[s] - m.capacity[s] && m.short_period[s] == GROD_NEVER)
        m.short_period[s] = m.full[s];
    m.full[s]++;
    m.above[s] = above;
    m.budget[s] = m.capacity[s];
    m.refill[s] += m.period[s];
    refilled(s);
}

static void refill(uint32_t t)
{
    uint32_t above = 0;
    m.next_refill = FAR;
    for (uint32_t s = 0; s < m.servers; s++) {
        if (m.refill[s] == t)
            turn(s, above);
        if (m.refill[s] < m.next_refill)
            m.next_refill = m.refill[s];
        above += m.held[s];
    }
}

static void release(uint32_t t)
{
    for (uint32_t k, next = m.due[t]; next != 0;) {
        k = next - 1;
        next = m.due_next[k];
        woken(m.server[k], k);
        m.waiting[k] += m.work[k];
        note_release(k, t + m.every[k]);
    }
}

/* The first job of a task that has not ended ends now. */
static void end_job(uint32_t k, uint32_t now)
{
    uint32_t response = now - m.job[k];
    if (response > m.worst[k]) {
        m.worst[k] = response;
        m.worst_job[k] = m.job[k];
    }
    m.job[k] += m.every[k];
    m.left[k] = m.work[k];
}

/* A task runs in a tick of its server. */
static void run_in(uint32_t s, uint32_t k, uint32_t t)
{
    if (--m.waiting[k] == 0)
        done(s, k);
    if (--m.left[k] == 0)
        end_job(k, t + 1);
}

static void tick(uint32_t t)
{
    if (t == m.next_refill)
        refill(t);
    if (m.due[t] != 0)
        release(t);
    uint32_t s = first_server();
    if (s == NOBODY)
        return;
    uint32_t k = first_task(s);
    m.held[s]++;
    if (k != NOBODY)
        run_in(s, k, t);
    if (--m.budget[s] == 0)
        spent(s);
}

/* ---- answering */

static void answer_task(uint32_t k, struct answers *out)
{
    uint32_t j = m.number[k];
    if (m.job[k] < m.span) {
        out->tasks[j] = (struct grod_task_answer){GROD_UNFINISHED, 0, m.job[k]};
    } else if (m.worst[k] != 0) {
        out->tasks[j] = (struct grod_task_answer){GROD_WORST, m.worst[k], m.worst_job[k]};
        out->margin[j] = (int32_t)m.deadline[k] - (int32_t)m.worst[k];
    }
}

static void answer(struct answers *out)
{
    memset(out, 0, sizeof *out);
    out->span = m.span;
    out->servers_n = m.servers;
    out->tasks_n = m.tasks;
    for (uint32_t s = 0; s < m.servers; s++)
        out->servers[s] = (struct grod_server_answer){m.full[s], m.short_period[s]};
    for (uint32_t k = 0; k < m.tasks; k++)
        answer_task(k, out);
}

void SIMULATE(const uint8_t *text, size_t text_n, struct answers *out)
{
    read_table(text, text_n);
    begin();
    for (uint32_t t = 0; t < m.span; t++)
        tick(t);
    refill(m.span);
    answer(out);
}
