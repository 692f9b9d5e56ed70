/* The machine in plain C: see plain.h. */
#include "plain.h"
#include <stdbool.h>
#include <string.h>

static int slot(int i, int p) {
    return PLAIN_TASKS * p + i;
}

/* The vertices with a direct predecessor that is not done, given those of which something remains: what is not done are these and
   all that edges lead to from them. */
static unsigned held(const struct plain_task *task, unsigned some) {
    unsigned open = some, left = some, next = 0;
    while (left != 0) {
        unsigned to = task->succ[__builtin_ctz(left)];
        left = (left & (left - 1)) | (to & ~open);
        open |= to;
        next |= to;
    }
    return next;
}

static uint64_t summed(const uint32_t *row) {
    uint64_t sum = 0;
    for (int h = 0; h < PLAIN_VERTICES; h++)
        sum += row[h];
    return sum;
}

struct plain_answer plain_open(const uint8_t *bytes, size_t count, uint32_t clock, struct plain_state *state) {
    struct plain_table table;
    struct plain_answer found = plain_read(bytes, count, &table);
    memset(state, 0, sizeof *state);
    if (found.number == 0) {
        state->clock = clock;
    } else {
        state->stopped = 1;
        state->at = PLAIN_NONE;
    }
    return found;
}

/* ---- which states fit ---- */

/* Whether age places p and on of a task have no job, and nothing else stands there. */
static bool empty_from(const struct plain_state *state, int i, int p) {
    const struct plain_jobs *jobs = &state->tasks[i];
    for (; p < PLAIN_AGES; p++) {
        const uint32_t *remaining = &state->remaining[PLAIN_VERTICES * slot(i, p)];
        uint32_t any = jobs->live[p] | jobs->deadline[p];
        for (int h = 0; h < PLAIN_VERTICES; h++)
            any |= remaining[h];
        if (any != 0 || state->work[slot(i, p)] != 0)
            return false;
    }
    return true;
}

/* Whether what remains of a job, and its sum, is what work may leave. Costs from v on are zero. */
static bool work_fits(const struct plain_task *task, const uint32_t *costs, const uint32_t *remaining, uint64_t work) {
    unsigned unfinished = 0;
    uint64_t sum = 0;
    for (int h = 0; h < PLAIN_VERTICES; h++) {
        if (remaining[h] > costs[h])
            return false;
        sum += remaining[h];
        unfinished |= (unsigned)(remaining[h] > 0) << h;
    }
    if (sum == 0 || sum != work)
        return false;
    EACH(w, held(task, unfinished))
        if (remaining[w] != costs[w])
            return false;
    return true;
}

static bool task_fits(const struct plain_table *table, const struct plain_state *state, int i) {
    const struct plain_task *task = &table->tasks[i];
    const struct plain_jobs *jobs = &state->tasks[i];
    uint32_t left = 0;
    int p = 0;
    for (; p < PLAIN_AGES && jobs->live[p] == 1; p++) {
        uint32_t before = left;
        left = jobs->deadline[p] - state->clock;
        if (left == 0 || left >= task->deadline || (p > 0 && left < before + task->period))
            return false;
        if (!work_fits(task, &table->costs[PLAIN_VERTICES * i], &state->remaining[PLAIN_VERTICES * slot(i, p)], state->work[slot(i, p)]))
            return false;
    }
    if (jobs->wait >= task->period || (p > 0 && jobs->wait + task->deadline < task->period + left))
        return false;
    return empty_from(state, i, p);
}

static bool fits(const struct plain_table *table, const struct plain_state *state) {
    if (state->pad[0] != 0 || state->pad[1] != 0 || state->stopped > 1)
        return false;
    if (state->stopped ? state->at >= table->n : state->at != 0)
        return false;
    int used = state->stopped ? 0 : table->n;
    for (int i = 0; i < used; i++)
        if (!task_fits(table, state, i))
            return false;
    for (int i = used; i < PLAIN_TASKS; i++)
        if (state->tasks[i].wait != 0 || !empty_from(state, i, 0))
            return false;
    return true;
}

/* ---- the tick ---- */

/* The number of a refused tick, and the task that it names. */
static int refusal(const struct plain_table *table, const struct plain_state *state, uint16_t releases, uint8_t *task) {
    if (!fits(table, state))
        return 30;
    if (state->stopped)
        return 32;
    unsigned beyond = (unsigned)releases >> table->n << table->n;
    if (beyond != 0) {
        *task = (uint8_t)__builtin_ctz(beyond);
        return 31;
    }
    EACH(i, releases)
        if (state->tasks[i].wait > 0) {
            *task = (uint8_t)i;
            return 33;
        }
    return 0;
}

/* Each named task gets a job behind its newest. */
static void release(const struct plain_table *table, struct plain_state *state, uint16_t releases) {
    EACH(i, releases) {
        struct plain_jobs *jobs = &state->tasks[i];
        int p = 0;
        while (jobs->live[p])
            p++;
        jobs->live[p] = 1;
        jobs->deadline[p] = state->clock + table->tasks[i].deadline;
        memcpy(&state->remaining[PLAIN_VERTICES * slot((int)i, p)], &table->costs[PLAIN_VERTICES * i], sizeof(uint32_t) * PLAIN_VERTICES);
        state->work[slot((int)i, p)] = summed(&table->costs[PLAIN_VERTICES * i]);
    }
}

struct ranked {
    uint32_t left;
    uint8_t task, age;
};

/* The first m jobs with work by ticks left, task and age place; each has a vertex to run, so no other job does. */
static int rank(const struct plain_table *table, const struct plain_state *state, struct ranked first[8]) {
    int count = 0;
    for (int i = 0; i < table->n; i++) {
        const struct plain_jobs *jobs = &state->tasks[i];
        for (int p = 0; p < PLAIN_AGES && jobs->live[p]; p++) {
            uint32_t left = jobs->deadline[p] - state->clock;
            if (state->work[slot(i, p)] == 0)
                continue;
            if (count == table->m && first[count - 1].left <= left)
                break;
            int at = count < table->m ? count++ : count - 1;
            for (; at > 0 && first[at - 1].left > left; at--)
                first[at] = first[at - 1];
            first[at] = (struct ranked){left, (uint8_t)i, (uint8_t)p};
        }
    }
    return count;
}

static unsigned available(const struct plain_task *task, const uint32_t *remaining) {
    unsigned unfinished = 0;
    for (int h = 0; h < task->v; h++)
        unfinished |= (unsigned)(remaining[h] > 0) << h;
    return unfinished & ~held(task, unfinished);
}

/* Runs the first m available vertices, job after job. */
static void run(const struct plain_table *table, struct plain_state *state, struct plain_ticked *ticked) {
    struct ranked first[8];
    int jobs = rank(table, state, first), ran = 0;
    for (int at = 0; at < jobs && ran < table->m; at++) {
        int s = slot(first[at].task, first[at].age);
        uint32_t *remaining = &state->remaining[PLAIN_VERTICES * s];
        EACH(h, available(&table->tasks[first[at].task], remaining)) {
            if (ran == table->m)
                break;
            ticked->ran[ran++] = (struct plain_ran){first[at].task, first[at].age, (uint8_t)h};
            remaining[h]--;
            state->work[s]--;
        }
    }
}

/* Takes the finished jobs of a task out, those behind them moving up; whether there was one. Nothing remains of a finished one. */
static bool close_gaps(struct plain_state *state, int i) {
    struct plain_jobs *jobs = &state->tasks[i];
    int kept = 0, p = 0;
    for (; p < PLAIN_AGES && jobs->live[p]; p++) {
        int from = slot(i, p), to = slot(i, kept);
        if (state->work[from] == 0)
            continue;
        if (kept++ == p)
            continue;
        jobs->deadline[kept - 1] = jobs->deadline[p];
        state->work[to] = state->work[from];
        state->work[from] = 0;
        memcpy(&state->remaining[PLAIN_VERTICES * to], &state->remaining[PLAIN_VERTICES * from], sizeof(uint32_t) * PLAIN_VERTICES);
        memset(&state->remaining[PLAIN_VERTICES * from], 0, sizeof(uint32_t) * PLAIN_VERTICES);
    }
    for (int gone = kept; gone < p; gone++)
        jobs->live[gone] = 0, jobs->deadline[gone] = 0;
    return kept < p;
}

/* The clock, the waits, the jobs that end, and a miss. */
static void move_on(const struct plain_table *table, struct plain_state *state, uint16_t releases, struct plain_ticked *ticked) {
    state->clock++;
    for (int i = 0; i < table->n; i++) {
        struct plain_jobs *jobs = &state->tasks[i];
        if (releases >> i & 1)
            jobs->wait = table->tasks[i].period - 1;
        else if (jobs->wait > 0)
            jobs->wait--;
        if (close_gaps(state, i))
            ticked->finished |= (uint16_t)(1u << i);
        if (jobs->live[0] && jobs->deadline[0] == state->clock && ticked->number == 0) {
            ticked->number = 34;
            ticked->task = (uint8_t)i;
        }
    }
    if (ticked->number == 34) {
        uint32_t clock = state->clock;
        memset(state, 0, sizeof *state);
        state->clock = clock;
        state->stopped = 1;
        state->at = ticked->task;
    }
}

struct plain_ticked plain_tick(const uint8_t *bytes, size_t count, struct plain_state *state, uint16_t releases) {
    struct plain_table table;
    struct plain_ticked ticked = {.task = PLAIN_NONE};
    memset(ticked.ran, PLAIN_NONE, sizeof ticked.ran);
    struct plain_answer found = plain_read(bytes, count, &table);
    ticked.number = found.number;
    ticked.place = found.place;
    if (ticked.number == 0)
        ticked.number = (uint8_t)refusal(&table, state, releases, &ticked.task);
    if (ticked.number != 0)
        return ticked;
    release(&table, state, releases);
    run(&table, state, &ticked);
    move_on(&table, state, releases, &ticked);
    return ticked;
}
