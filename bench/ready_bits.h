/* Which server and which task can run, kept as sets of bits. Part of simulator.c. */

static uint32_t able;                 /* the servers that can hold a tick */
static uint64_t awake[GROD_SERVERS];  /* the tasks with waiting work */

static void begin_ready(void)
{
    able = 0;
    for (uint32_t s = 0; s < m.servers; s++) {
        able |= (uint32_t)m.periodic[s] << s;
        awake[s] = 0;
    }
}

/* A server's budget is full again. */
static void refilled(uint32_t s)
{
    able |= (uint32_t)(m.periodic[s] || awake[s] != 0) << s;
}

/* A server's budget is 0. */
static void spent(uint32_t s)
{
    able &= ~(1u << s);
}

/* A task is about to get work. */
static void woken(uint32_t s, uint32_t k)
{
    awake[s] |= (uint64_t)1 << k;
    able |= (uint32_t)(m.budget[s] != 0) << s;
}

/* A task has no work left. */
static void done(uint32_t s, uint32_t k)
{
    awake[s] &= ~((uint64_t)1 << k);
    if (awake[s] == 0 && !m.periodic[s])
        able &= ~(1u << s);
}

static uint32_t first_server(void)
{
    return able == 0 ? NOBODY : (uint32_t)__builtin_ctz(able);
}

static uint32_t first_task(uint32_t s)
{
    return awake[s] == 0 ? NOBODY : (uint32_t)__builtin_ctzll(awake[s]);
}
