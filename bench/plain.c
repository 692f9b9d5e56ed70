/* Reading and writing in plain C: see plain.h. */
#include "plain.h"
#include <stdbool.h>
#include <string.h>

enum { MOST_PROCESSORS = 8, MOST_EDGES = 120, MOST_TICKS = 1000000 };

static bool between(uint32_t x, uint32_t low, uint32_t high) {
    return low <= x && x <= high;
}

/* ---- reading ---- */

struct input {
    const uint8_t *bytes;
    size_t count, at;
};

static bool has(const struct input *in, size_t size) {
    return in->count - in->at >= size;
}

static uint32_t number32(const uint8_t *p) {
    return (uint32_t)p[0] | (uint32_t)p[1] << 8 | (uint32_t)p[2] << 16 | (uint32_t)p[3] << 24;
}

/* Each field: its number where it is refused, with `at` still on it, or 0 and `at` behind it. */
static int read_mark(struct input *in, uint8_t second) {
    if (!has(in, 2))
        return 1;
    if (in->bytes[in->at] != 0x54 || in->bytes[in->at + 1] != second)
        return 2;
    in->at += 2;
    return 0;
}

static int read_byte(struct input *in, uint8_t low, uint8_t high, uint8_t *x) {
    if (!has(in, 1))
        return 1;
    *x = in->bytes[in->at];
    if (!between(*x, low, high))
        return 3;
    in->at++;
    return 0;
}

/* D and T from 1 on, a cost from 0 on. */
static int read_ticks(struct input *in, uint32_t least, uint32_t *x) {
    if (!has(in, 4))
        return 1;
    *x = number32(in->bytes + in->at);
    if (!between(*x, least, MOST_TICKS))
        return 4;
    in->at += 4;
    return 0;
}

static int read_edges(struct input *in, struct plain_task *task, int e) {
    int last = -1;
    for (int i = 0; i < e; i++) {
        if (!has(in, 2))
            return 1;
        int from = in->bytes[in->at], to = in->bytes[in->at + 1];
        if (from >= task->v || to >= task->v || from == to || 256 * from + to <= last)
            return 6;
        last = 256 * from + to;
        task->succ[from] |= (uint16_t)(1u << to);
        in->at += 2;
    }
    return 0;
}

static int read_task(struct input *in, struct plain_task *task, uint32_t *costs) {
    size_t mark = in->at;
    uint8_t e, order[PLAIN_VERTICES];
    int number;
    if ((number = read_mark(in, 0x4B)) || (number = read_byte(in, 1, PLAIN_VERTICES, &task->v)) ||
        (number = read_byte(in, 0, MOST_EDGES, &e)) || (number = read_ticks(in, 1, &task->deadline)) ||
        (number = read_ticks(in, 1, &task->period)))
        return number;
    if (task->deadline > PLAIN_AGES * task->period) {
        in->at -= 4;
        return 5;
    }
    for (int h = 0; h < task->v; h++)
        if ((number = read_ticks(in, 0, &costs[h])))
            return number;
    if ((number = read_edges(in, task, e)))
        return number;
    if (sorted(task, order) < task->v) {
        in->at = mark;
        return 7;
    }
    return 0;
}

static int read_table(struct input *in, struct plain_table *table) {
    int number;
    if ((number = read_mark(in, 0x42)) || (number = read_byte(in, 1, MOST_PROCESSORS, &table->m)) ||
        (number = read_byte(in, 1, PLAIN_TASKS, &table->n)))
        return number;
    for (int i = 0; i < table->n; i++)
        if ((number = read_task(in, &table->tasks[i], &table->costs[PLAIN_VERTICES * i])))
            return number;
    return in->at < in->count ? 8 : 0;
}

struct plain_answer plain_read(const uint8_t *bytes, size_t count, struct plain_table *table) {
    struct input in = {bytes, count, 0};
    memset(table, 0, sizeof *table);
    int number = read_table(&in, table);
    if (number == 0)
        return (struct plain_answer){0, PLAIN_NONE, 0};
    memset(table, 0, sizeof *table);
    return (struct plain_answer){(uint8_t)number, PLAIN_NONE, in.at};
}

/* ---- writing ---- */

/* The first rule from 3 to 7 that a task breaks, with `at` on the place; else 0 and `at` behind the task. */
static int check_task(const struct plain_task *task, const uint32_t *costs, size_t *at) {
    size_t mark = *at;
    uint8_t order[PLAIN_VERTICES];
    int e = 0;
    *at = mark + 2;
    if (!between(task->v, 1, PLAIN_VERTICES))
        return 3;
    for (int u = 0; u < task->v; u++)
        e += __builtin_popcount(task->succ[u]);
    *at = mark + 3;
    if (e > MOST_EDGES)
        return 3;
    *at = mark + 4;
    if (!between(task->deadline, 1, MOST_TICKS))
        return 4;
    *at = mark + 8;
    if (!between(task->period, 1, MOST_TICKS))
        return 4;
    if (task->deadline > PLAIN_AGES * task->period)
        return 5;
    *at = mark + 12;
    for (int h = 0; h < task->v; h++, *at += 4)
        if (costs[h] > MOST_TICKS)
            return 4;
    for (int u = 0; u < task->v; u++)
        EACH(w, task->succ[u]) {
            if (w >= task->v || w == (unsigned)u)
                return 6;
            *at += 2;
        }
    if (sorted(task, order) == task->v)
        return 0;
    *at = mark;
    return 7;
}

/* Whether the unused entries are zero. */
static bool tidy(const struct plain_table *table) {
    for (int i = 0; i < PLAIN_TASKS; i++) {
        const struct plain_task *task = &table->tasks[i];
        int v = i < table->n ? task->v : 0;
        if (i >= table->n && (task->v != 0 || task->deadline != 0 || task->period != 0))
            return false;
        for (int h = v; h < PLAIN_VERTICES; h++)
            if (task->succ[h] != 0 || table->costs[PLAIN_VERTICES * i + h] != 0)
                return false;
    }
    return true;
}

static uint8_t *put32(uint8_t *p, uint32_t x) {
    for (int i = 0; i < 4; i++)
        *p++ = (uint8_t)(x >> 8 * i);
    return p;
}

static uint8_t *put_task(uint8_t *p, const struct plain_task *task, const uint32_t *costs) {
    *p++ = 0x54;
    *p++ = 0x4B;
    *p++ = task->v;
    uint8_t *e = p++;
    *e = 0;
    p = put32(put32(p, task->deadline), task->period);
    for (int h = 0; h < task->v; h++)
        p = put32(p, costs[h]);
    for (int u = 0; u < task->v; u++)
        EACH(w, task->succ[u]) {
            *p++ = (uint8_t)u;
            *p++ = (uint8_t)w;
            ++*e;
        }
    return p;
}

struct plain_answer plain_write(const struct plain_table *table, uint8_t *buffer, size_t room) {
    size_t length = 4;
    if (!between(table->m, 1, MOST_PROCESSORS))
        return (struct plain_answer){3, PLAIN_NONE, 2};
    if (!between(table->n, 1, PLAIN_TASKS))
        return (struct plain_answer){3, PLAIN_NONE, 3};
    for (int i = 0; i < table->n; i++) {
        int number = check_task(&table->tasks[i], &table->costs[PLAIN_VERTICES * i], &length);
        if (number != 0)
            return (struct plain_answer){(uint8_t)number, PLAIN_NONE, length};
    }
    if (!tidy(table))
        return (struct plain_answer){10, PLAIN_NONE, 0};
    if (room < length)
        return (struct plain_answer){9, PLAIN_NONE, length};
    uint8_t *p = buffer;
    *p++ = 0x54;
    *p++ = 0x42;
    *p++ = table->m;
    *p++ = table->n;
    for (int i = 0; i < table->n; i++)
        p = put_task(p, &table->tasks[i], &table->costs[PLAIN_VERTICES * i]);
    return (struct plain_answer){0, PLAIN_NONE, length};
}
