/* Which server and which task can run, found by walks that stop at the first. Part of simulator.c. */

/* tasks with waiting work, and one more if the server is periodic */
static uint32_t wants[GROD_SERVERS];

static void begin_ready(void)
{
    for (uint32_t s = 0; s < m.servers; s++)
        wants[s] = m.periodic[s];
}

/* A server's budget is full again. */
static void refilled(uint32_t s)
{
    (void)s;
}

/* A server's budget is 0. */
static void spent(uint32_t s)
{
    (void)s;
}

/* A task is about to get work. */
static void woken(uint32_t s, uint32_t k)
{
    wants[s] += m.waiting[k] == 0;
}

/* A task has no work left. */
static void done(uint32_t s, uint32_t k)
{
    (void)k;
    wants[s]--;
}

static uint32_t first_server(void)
{
    for (uint32_t s = 0; s < m.servers; s++)
        if (m.budget[s] != 0 && wants[s] != 0)
            return s;
    return NOBODY;
}

static uint32_t first_task(uint32_t s)
{
    for (uint32_t k = m.first[s]; k < m.first[s + 1]; k++)
        if (m.waiting[k] != 0)
            return k;
    return NOBODY;
}
