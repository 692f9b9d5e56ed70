/* The verdict, the sharp verdict and their reports in plain C: see plain.h. */
#include "plain.h"
#include <stdbool.h>
#include <string.h>

/* What both verdicts share is put into each of them, so that neither pays for the other. */
#define SHARED static inline __attribute__((always_inline))

/* ---- the figures ---- */

struct figures {
    int64_t vol[PLAIN_TASKS], len[PLAIN_TASKS], due[PLAIN_TASKS], margin[PLAIN_TASKS];
};

static int64_t longest(const struct plain_task *task, const uint32_t *costs) {
    uint8_t order[PLAIN_VERTICES];
    uint32_t ahead[PLAIN_VERTICES] = {0}, most = 0;
    int count = sorted(task, order);
    for (int i = 0; i < count; i++) {
        int u = order[i];
        uint32_t here = ahead[u] + costs[u];
        if (here > most)
            most = here;
        EACH(w, task->succ[u])
            if (here > ahead[w])
                ahead[w] = here;
    }
    return most;
}

static int64_t due(const struct plain_table *table, const struct figures *f, uint32_t d) {
    int64_t sum = 0;
    for (int i = 0; i < table->n; i++) {
        uint32_t t = table->tasks[i].period;
        sum += (int64_t)((d + t - 1) / t) * f->vol[i];
    }
    return sum;
}

/* The longest chain after each vertex, itself left out. */
static void find_tails(const struct plain_task *task, const uint32_t *costs, uint32_t tails[PLAIN_VERTICES]) {
    uint8_t order[PLAIN_VERTICES];
    for (int i = sorted(task, order) - 1; i >= 0; i--) {
        int u = order[i];
        tails[u] = 0;
        EACH(w, task->succ[u])
            if (tails[w] + costs[w] > tails[u])
                tails[u] = tails[w] + costs[w];
    }
}

/* y, y less t, y less two t and on, while above 0. */
static int64_t ramp(uint32_t y, uint32_t t) {
    int64_t r = (y + t - 1) / t;
    return r * y - t * (r * (r - 1) / 2);
}

/* The same, each at most c. */
static int64_t part(uint32_t c, uint32_t t, uint32_t y) {
    if (y < c)
        return ramp(y, t);
    uint32_t rest = (y - c) % t + c;
    return (int64_t)((y - c) / t + 1) * c + ramp(rest > t ? rest - t : 0, t);
}

static int64_t sharp_due(const struct plain_table *table, uint32_t tails[][PLAIN_VERTICES], uint32_t d) {
    int64_t sum = 0;
    for (int i = 0; i < table->n; i++) {
        uint32_t t = table->tasks[i].period;
        const uint32_t *costs = &table->costs[PLAIN_VERTICES * i];
        for (int h = 0; h < table->tasks[i].v; h++)
            sum += part(costs[h], t, d > tails[i][h] ? d - tails[i][h] : 0);
    }
    return sum;
}

SHARED void figure(const struct plain_table *table, bool sharp, struct figures *f) {
    uint32_t tails[PLAIN_TASKS][PLAIN_VERTICES];
    int m = table->m, n = table->n;
    for (int i = 0; i < n; i++) {
        const uint32_t *costs = &table->costs[PLAIN_VERTICES * i];
        f->vol[i] = 0;
        for (int h = 0; h < table->tasks[i].v; h++)
            f->vol[i] += costs[h];
        f->len[i] = longest(&table->tasks[i], costs);
        if (sharp)
            find_tails(&table->tasks[i], costs, tails[i]);
    }
    for (int k = 0; k < n; k++) {
        uint32_t d = table->tasks[k].deadline;
        f->due[k] = sharp ? sharp_due(table, tails, d) : due(table, f, d);
        f->margin[k] = m * (int64_t)d - (m - 1) * f->len[k] - f->due[k];
    }
}

/* ---- the verdict ---- */

/* The longest chain by name: from the lowest vertex with the whole sum on, the lowest successor with just what is left. */
static void name_chain(const struct plain_task *task, const uint32_t *costs, struct plain_verdict *v) {
    uint8_t order[PLAIN_VERTICES];
    uint32_t from[PLAIN_VERTICES] = {0}, left = 0;
    unsigned among = (1u << task->v) - 1;
    for (int i = sorted(task, order) - 1; i >= 0; i--) {
        int u = order[i];
        EACH(w, task->succ[u])
            if (from[w] > from[u])
                from[u] = from[w];
        from[u] += costs[u];
        if (from[u] > left)
            left = from[u];
    }
    do {
        EACH(u, among)
            if (from[u] == left) {
                v->chain[v->count++] = (uint8_t)u;
                left -= costs[u];
                among = task->succ[u];
                break;
            }
    } while (left != 0);
}

static struct plain_verdict name(const struct plain_table *table, const struct figures *f, int number, int k) {
    struct plain_verdict v = {.number = (uint8_t)number, .task = (uint8_t)k, .margin = f->margin[k]};
    memset(v.chain, PLAIN_NONE, sizeof v.chain);
    name_chain(&table->tasks[k], &table->costs[PLAIN_VERTICES * k], &v);
    return v;
}

SHARED struct plain_verdict judge(const struct plain_table *table, bool sharp, const struct figures *f) {
    int n = table->n, least = 0;
    for (int k = 0; sharp && k < n; k++)
        if (f->len[k] > table->tasks[k].deadline)
            return name(table, f, 22, k);
    for (int k = 0; k < n; k++)
        if (f->margin[k] < 0)
            return name(table, f, sharp ? 23 : 20, k);
    for (int k = 1; k < n; k++)
        if (f->margin[k] < f->margin[least])
            least = k;
    return name(table, f, 0, least);
}

SHARED struct plain_verdict whole(const uint8_t *bytes, size_t count, bool sharp) {
    struct plain_table table;
    struct figures f;
    struct plain_answer found = plain_read(bytes, count, &table);
    if (found.number != 0) {
        struct plain_verdict v = {.number = found.number, .task = PLAIN_NONE, .place = found.place};
        memset(v.chain, PLAIN_NONE, sizeof v.chain);
        return v;
    }
    figure(&table, sharp, &f);
    return judge(&table, sharp, &f);
}

struct plain_verdict plain_verdict(const uint8_t *bytes, size_t count) {
    return whole(bytes, count, false);
}

struct plain_verdict plain_sharp(const uint8_t *bytes, size_t count) {
    return whole(bytes, count, true);
}

/* ---- the report ---- */

/* The digits by hand, as on a board without stdio. */
static uint8_t *say(uint8_t *p, const char *words, int64_t x) {
    uint8_t digits[20];
    uint64_t rest = x < 0 ? -(uint64_t)x : (uint64_t)x;
    int count = 0;
    while (*words != 0)
        *p++ = (uint8_t)*words++;
    if (x < 0)
        *p++ = '-';
    do {
        digits[count++] = (uint8_t)('0' + rest % 10);
        rest /= 10;
    } while (rest != 0);
    while (count > 0)
        *p++ = digits[--count];
    return p;
}

SHARED uint8_t *say_table(uint8_t *p, const struct plain_table *table, bool sharp) {
    struct figures f;
    figure(table, sharp, &f);
    p = say(say(p, "processors ", table->m), " tasks ", table->n);
    *p++ = '\n';
    for (int k = 0; k < table->n; k++) {
        p = say(say(say(p, "task ", k), " vol ", f.vol[k]), " len ", f.len[k]);
        p = say(say(p, " due ", f.due[k]), " margin ", f.margin[k]);
        *p++ = '\n';
    }
    struct plain_verdict v = judge(table, sharp, &f);
    if (v.number == 0) {
        memcpy(p, "accept", 6);
        p += 6;
    } else {
        p = say(p, "refuse ", v.number);
    }
    p = say(say(p, " task ", v.task), " margin ", v.margin);
    memcpy(p, " chain", 6);
    p += 6;
    for (int i = 0; i < v.count; i++)
        p = say(p, " ", v.chain[i]);
    *p++ = '\n';
    return p;
}

SHARED size_t text_on(const uint8_t *bytes, size_t count, bool sharp, uint8_t *buffer, size_t room) {
    uint8_t text[PLAIN_MAX_REPORT], *end;
    struct plain_table table;
    struct plain_answer found = plain_read(bytes, count, &table);
    if (found.number == 0) {
        end = say_table(text, &table, sharp);
    } else {
        end = say(say(text, "unreadable ", found.number), " at ", (int64_t)found.place);
        *end++ = '\n';
    }
    size_t length = (size_t)(end - text);
    if (length <= room)
        memcpy(buffer, text, length);
    return length;
}

size_t plain_report(const uint8_t *bytes, size_t count, uint8_t *buffer, size_t room) {
    return text_on(bytes, count, false, buffer, room);
}

size_t plain_sharp_report(const uint8_t *bytes, size_t count, uint8_t *buffer, size_t room) {
    return text_on(bytes, count, true, buffer, room);
}
