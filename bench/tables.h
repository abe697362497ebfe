/* The tables that the benchmark measures, made from a fixed seed. */
#ifndef TABLES_H
#define TABLES_H

#include <stddef.h>
#include <stdint.h>

enum { TEXT_MOST = 4096, TABLES_MOST = 500 };

struct text {
    uint8_t bytes[TEXT_MOST];
    size_t n;
};

/* A kind of table, and how to make one. */
struct workload {
    const char *name;
    size_t tables;
    void (*make)(struct text *out);
};

extern const struct workload workloads[];
extern const size_t workloads_n;

/* Begins the random numbers again. */
void seed(uint64_t with);

#endif
