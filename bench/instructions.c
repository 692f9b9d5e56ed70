/* instructions WAY: 300 ticks of four tasks of six vertices, a fork and a join each, D at most T, each task released whenever it may be.
   WAY is `place` for mt_tick_in_place, `value` for mt_tick, `plain` for plain C. bench/instructions counts what the function of that
   name below takes. */
#include "milltundra.h"
#include "plain.h"
#include <stdio.h>
#include <string.h>

enum { TASKS = 4, TICKS = 300, RECORD = 12 + 4 * 6 + 2 * 8 };

static uint8_t file[4 + TASKS * RECORD];

static uint8_t *put32(uint8_t *p, uint32_t x) {
    for (int i = 0; i < 4; i++)
        *p++ = (uint8_t)(x >> 8 * i);
    return p;
}

/* A first step, four that may run at once, and a last one. */
static uint8_t *put_task(uint8_t *p, uint32_t d, uint32_t t, const uint32_t costs[6]) {
    memcpy(p, MT_TASK_MARK, 2);
    p[2] = 6;
    p[3] = 8;
    p = put32(put32(p + 4, d), t);
    for (int h = 0; h < 6; h++)
        p = put32(p, costs[h]);
    for (int h = 1; h < 5; h++, p += 2)
        p[0] = 0, p[1] = (uint8_t)h;
    for (int h = 1; h < 5; h++, p += 2)
        p[0] = (uint8_t)h, p[1] = 5;
    return p;
}

static size_t put_file(void) {
    static const uint32_t costs[TASKS][6] = {{2, 3, 1, 4, 2, 1}, {1, 2, 2, 2, 2, 3}, {3, 1, 5, 1, 2, 2}, {2, 6, 4, 3, 5, 2}};
    static const uint32_t ticks[TASKS][2] = {{30, 40}, {36, 36}, {45, 60}, {70, 90}};
    uint8_t *p = file;
    memcpy(p, MT_TABLE_MARK, 2);
    p[2] = 4;
    p[3] = TASKS;
    p += 4;
    for (int i = 0; i < TASKS; i++)
        p = put_task(p, ticks[i][0], ticks[i][1], costs[i]);
    return (size_t)(p - file);
}

/* What a tick takes with all that its caller does for it. */
__attribute__((noinline)) uint8_t place(struct mt_state *state, size_t count, uint16_t releases) {
    return mt_tick_in_place(state, file, count, releases).number;
}

__attribute__((noinline)) uint8_t value(struct mt_state *state, size_t count, uint16_t releases) {
    struct mt_ticked t = mt_tick(file, count, *state, releases);
    *state = t.state;
    return t.answer.number;
}

__attribute__((noinline)) uint8_t plain(struct mt_state *state, size_t count, uint16_t releases) {
    return plain_tick(file, count, (struct plain_state *)state, releases).number;
}

typedef uint8_t ticker(struct mt_state *, size_t, uint16_t);

static ticker *named(const char *way) {
    return strcmp(way, "place") == 0 ? place : strcmp(way, "value") == 0 ? value : strcmp(way, "plain") == 0 ? plain : NULL;
}

int main(int words, char **word) {
    ticker *tick = words == 2 ? named(word[1]) : NULL;
    if (tick == NULL) {
        fprintf(stderr, "instructions place|value|plain\n");
        return 2;
    }
    size_t count = put_file();
    if (mt_verdict(file, count).number != MT_OK) {
        fprintf(stderr, "instructions: the table is not accepted\n");
        return 1;
    }
    struct mt_state state = mt_open(file, count, 0).state;
    for (int k = 0; k < TICKS; k++) {
        unsigned ready = 0;
        for (unsigned i = 0; i < TASKS; i++)
            ready |= (unsigned)(state.tasks[i].wait == 0) << i;
        if (tick(&state, count, (uint16_t)ready) != MT_OK) {
            fprintf(stderr, "instructions: tick %d is refused\n", k);
            return 1;
        }
    }
    return 0;
}
