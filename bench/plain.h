/* Job tables in plain C, for speed beside the proved functions. The rules are written from documents 01 and 02; the layout of a table, a
   state and the answers, and the room that a report takes, are those of include/milltundra.h, so that both sides get the same inputs and
   give the same bytes. */
#ifndef PLAIN_H
#define PLAIN_H

#include <stddef.h>
#include <stdint.h>

enum { PLAIN_TASKS = 16, PLAIN_VERTICES = 16, PLAIN_ROW = 256, PLAIN_AGES = 4, PLAIN_MAX_REPORT = 1366, PLAIN_NONE = 255 };

/* Every vertex h whose bit stands in a set. */
#define EACH(h, set) for (unsigned rest_ = (set), h; rest_ != 0 && (h = (unsigned)__builtin_ctz(rest_), 1); rest_ &= rest_ - 1)

struct plain_task {
    uint8_t v, pad[3];
    uint32_t deadline, period;
    uint16_t succ[PLAIN_VERTICES];
};

struct plain_table {
    uint8_t m, n, pad[2];
    struct plain_task tasks[PLAIN_TASKS];
    uint32_t costs[PLAIN_ROW];
};

/* A task's wait, and its jobs by age place, the oldest first. */
struct plain_jobs {
    uint32_t wait, deadline[PLAIN_AGES];
    uint8_t live[PLAIN_AGES]; /* 0 or 1 */
};

/* Age place p of task i is slot 16 p + i; vertex h of slot s stands at 16 s + h. */
struct plain_state {
    uint64_t work[PLAIN_AGES * PLAIN_TASKS]; /* the sum of what remains in a slot */
    uint32_t clock;
    uint8_t stopped, at, pad[2]; /* stopped is 0 or 1 */
    struct plain_jobs tasks[PLAIN_TASKS];
    uint32_t remaining[PLAIN_AGES * PLAIN_ROW];
};

struct plain_answer {
    uint8_t number, task;
    size_t place;
};

struct plain_verdict {
    uint64_t place;
    int64_t margin;
    uint8_t number, task, count, chain[PLAIN_VERTICES], pad[5];
};

struct plain_ran {
    uint8_t task, age, vertex;
};

struct plain_ticked {
    uint64_t place;
    uint8_t number, task;
    uint16_t finished;
    struct plain_ran ran[8];
    uint8_t pad[4];
};

/* The vertices in an order in which each stands after its predecessors; fewer than v where there is a cycle. */
static inline int sorted(const struct plain_task *task, uint8_t order[PLAIN_VERTICES]) {
    uint8_t before[PLAIN_VERTICES] = {0};
    for (int u = 0; u < task->v; u++)
        EACH(w, task->succ[u]) before[w]++;
    int count = 0;
    for (int u = 0; u < task->v; u++)
        if (before[u] == 0)
            order[count++] = (uint8_t)u;
    for (int i = 0; i < count; i++)
        EACH(w, task->succ[order[i]])
            if (--before[w] == 0)
                order[count++] = (uint8_t)w;
    return count;
}

struct plain_answer plain_read(const uint8_t *bytes, size_t count, struct plain_table *table);
struct plain_answer plain_write(const struct plain_table *table, uint8_t *buffer, size_t room);
struct plain_verdict plain_verdict(const uint8_t *bytes, size_t count);
struct plain_verdict plain_sharp(const uint8_t *bytes, size_t count);
/* The text's length; it is put down if it fits. */
size_t plain_report(const uint8_t *bytes, size_t count, uint8_t *buffer, size_t room);
size_t plain_sharp_report(const uint8_t *bytes, size_t count, uint8_t *buffer, size_t room);
struct plain_answer plain_open(const uint8_t *bytes, size_t count, uint32_t clock, struct plain_state *state);
/* Moves the state on where it stands. */
struct plain_ticked plain_tick(const uint8_t *bytes, size_t count, struct plain_state *state, uint16_t releases);

#endif
