/* The C face from C: table A of document 01 is read, written back, judged by both verdicts, reported, opened and run, and a journal
   of it judged. */
#include "milltundra.h"
#include <stdio.h>
#include <string.h>

static const uint8_t a[52] = {
    0x54, 0x42, 2, 2,
    0x54, 0x4B, 3, 2, 10, 0, 0, 0, 12, 0, 0, 0, 2, 0, 0, 0, 3, 0, 0, 0, 1, 0, 0, 0, 0, 1, 0, 2,
    0x54, 0x4B, 2, 0, 6, 0, 0, 0, 6, 0, 0, 0, 2, 0, 0, 0, 2, 0, 0, 0};

static const char text[] =
    "processors 2 tasks 2\n"
    "task 0 vol 6 len 5 due 14 margin 1\n"
    "task 1 vol 4 len 2 due 10 margin 0\n"
    "accept task 1 margin 0 chain 0\n";

static int failed(const char *what) {
    fprintf(stderr, "the C face from C: %s\n", what);
    return 1;
}

static int ran(const struct mt_tick_answer *t, int place, uint8_t task, uint8_t age, uint8_t vertex) {
    return t->ran[place].task == task && t->ran[place].age == age && t->ran[place].vertex == vertex;
}

static int nobody_at(const struct mt_tick_answer *t, int place) {
    return ran(t, place, MT_NONE, MT_NONE, MT_NONE);
}

/* No struct has padding, so equal ones are equal bytes. */
static int same_state(const struct mt_state *one, const struct mt_state *other) {
    return memcmp(one, other, sizeof *one) == 0;
}

static int same_answer(const struct mt_tick_answer *one, const struct mt_tick_answer *other) {
    return memcmp(one, other, sizeof *one) == 0;
}

/* A step of 8 ticks within 7, on one processor. */
static const uint8_t long_step[20] = {0x54, 0x42, 1, 1, 0x54, 0x4B, 1, 0, 7, 0, 0, 0, 7, 0, 0, 0, 8, 0, 0, 0};

/* A step of 1 tick within 4 beside one of 10 within 20, on two processors: all 10 are too many within 4, of which 4 can be due. */
static const uint8_t apart[36] = {
    0x54, 0x42, 2, 2,
    0x54, 0x4B, 1, 0, 4, 0, 0, 0, 4, 0, 0, 0, 1, 0, 0, 0,
    0x54, 0x4B, 1, 0, 20, 0, 0, 0, 20, 0, 0, 0, 10, 0, 0, 0};

static int names(struct mt_verdict_answer v, uint8_t number, uint8_t task, int64_t margin) {
    return v.number == number && v.task == task && v.place == 0 && v.margin == margin && v.count > 0 && v.chain[0] == 0;
}

/* The sharp verdict accepts table A too, refuses with its own numbers, and accepts what the other one refuses. Its report on table A
   is the same text. */
static int sharply(void) {
    uint8_t one[sizeof a], report[MT_MAX_REPORT];
    memcpy(one, a, sizeof a);
    one[2] = 1;
    if (!names(mt_sharp(a, sizeof a), MT_OK, 1, 0) || !names(mt_sharp(one, sizeof one), MT_SHARP_REFUSED, 0, -4))
        return failed("the sharp verdict on table A is wrong");
    if (!names(mt_sharp(long_step, sizeof long_step), MT_SHARP_CHAIN, 0, 0))
        return failed("a chain longer than its deadline is not refused");
    if (!names(mt_verdict(apart, sizeof apart), MT_VERDICT_REFUSED, 0, -4) || !names(mt_sharp(apart, sizeof apart), MT_OK, 0, 2))
        return failed("the sharp verdict is no sharper");
    struct mt_verdict_answer v = mt_sharp(a, 51);
    if (v.number != MT_READ_SHORT || v.task != MT_NONE || v.place != 48 || v.margin != 0 || v.count != 0 || v.chain[0] != MT_NONE)
        return failed("a file cut short gets a sharp verdict");
    size_t length = sizeof text - 1;
    memset(report, 0xA5, sizeof report);
    if (mt_sharp_report(a, sizeof a, report, length - 1) != length || report[0] != 0xA5)
        return failed("a sharp report that does not fit is written");
    if (mt_sharp_report(a, sizeof a, report, sizeof report) != length || memcmp(report, text, length) != 0 || report[length] != 0xA5)
        return failed("the sharp report on table A is wrong");
    return 0;
}

/* Examples P9 and P10: both tasks are released at clock 0; task 1 is named again too soon. */
static int runs(void) {
    struct mt_open_answer o = mt_open(a, sizeof a, 0);
    if (o.number != MT_OK || o.task != MT_NONE || o.place != 0 || o.state.stopped != 0 || o.state.clock != 0)
        return failed("table A is not opened");
    struct mt_state state = o.state;
    for (int clock = 1; clock < 6; clock++) {
        struct mt_ticked given = mt_tick(a, sizeof a, state, clock == 1 ? 3 : 0);
        struct mt_tick_answer t = mt_tick_in_place(&state, a, sizeof a, clock == 1 ? 3 : 0);
        if (!same_answer(&t, &given.answer) || !same_state(&state, &given.state))
            return failed("a tick in place is another one");
        if (t.number != MT_OK || !nobody_at(&t, 2) || state.clock != (uint32_t)clock)
            return failed("a tick of table A is refused");
        if (clock <= 2 && (!ran(&t, 0, 1, 0, 0) || !ran(&t, 1, 1, 0, 1)))
            return failed("task 1 does not run first");
        if ((clock == 3 || clock == 4) && (!ran(&t, 0, 0, 0, 0) || !nobody_at(&t, 1)))
            return failed("task 0 does not run next");
        if (t.finished != (clock == 2 ? 2 : 0))
            return failed("task 1 does not finish in its second tick");
    }
    struct mt_ticked early = mt_tick(a, sizeof a, state, 2);
    if (early.answer.number != MT_TICK_EARLY || early.answer.task != 1 || state.clock != 5 || !same_state(&early.state, &state))
        return failed("task 1 is released too soon");
    if (state.work[0] != 2 || state.work[1] != 0)
        return failed("the work left of table A's tasks is wrong");
    return 0;
}

/* A tick in place that is refused with this number and leaves the state as it is. */
static int refuses(struct mt_state state, const uint8_t *bytes, size_t count, uint16_t releases, uint8_t number) {
    struct mt_state before = state;
    struct mt_ticked given = mt_tick(bytes, count, state, releases);
    struct mt_tick_answer t = mt_tick_in_place(&state, bytes, count, releases);
    return t.number == number && t.finished == 0 && nobody_at(&t, 0) && same_answer(&t, &given.answer) && same_state(&state, &before) &&
           same_state(&given.state, &before);
}

/* One step of 3 ticks within 8, on one processor, every 2 ticks. */
static const uint8_t deep[20] = {0x54, 0x42, 1, 1, 0x54, 0x4B, 1, 0, 8, 0, 0, 0, 2, 0, 0, 0, 3, 0, 0, 0};

/* Released whenever it may be, it comes to four live jobs, of which the oldest runs, and to a miss. */
static int runs_deep(void) {
    struct mt_state state = mt_open(deep, sizeof deep, 0xFFFFFFFE).state;
    struct mt_tick_answer t;
    unsigned most = 0;
    for (int k = 0;; k++) {
        if (k > 20)
            return failed("nothing is missed");
        t = mt_tick_in_place(&state, deep, sizeof deep, state.tasks[0].wait == 0);
        if (t.number != MT_OK)
            break;
        if (!ran(&t, 0, 0, 0, 0) || !nobody_at(&t, 1))
            return failed("the oldest job does not run");
        unsigned live = 0;
        for (unsigned p = 0; p < MT_MAX_JOBS; p++)
            live += state.tasks[0].live[p];
        most = live > most ? live : most;
        struct mt_state bad = state;
        bad.pad[1] = 1;
        if (!refuses(bad, deep, sizeof deep, 0, MT_TICK_UNFIT))
            return failed("a padding that is not zero is not refused");
    }
    if (most != MT_MAX_JOBS || t.number != MT_TICK_MISSED || t.task != 0 || state.stopped != 1 || state.at != 0)
        return failed("a task with four live jobs does not come to a miss");
    if (!refuses(state, deep, sizeof deep, 0, MT_TICK_STOPPED))
        return failed("a stopped state is ticked");
    return 0;
}

/* States that fit no table, and no bytes at all, by null and by a pointer. */
static int refusals(void) {
    struct mt_state state = mt_open(a, sizeof a, 7).state;
    mt_tick_in_place(&state, a, sizeof a, 3);
    struct mt_state bad[6] = {state, state, state, state, state, state};
    bad[0].work[MT_MAX_TASKS + 1] = 1;
    bad[1].at = 1;
    bad[2].pad[0] = 1;
    bad[3].tasks[0].live[0] = 2;
    bad[4].tasks[0].deadline[1] = 1;
    bad[5].remaining[MT_COSTS] = 1;
    for (int k = 0; k < 6; k++)
        if (!refuses(bad[k], a, sizeof a, 0, MT_TICK_UNFIT))
            return failed("what is no state is not refused");
    if (!refuses(state, a, sizeof a, 4, MT_TICK_NO_TASK))
        return failed("a task that is not there is released");
    if (!refuses(state, NULL, 0, 0, MT_READ_SHORT) || !refuses(state, a, 0, 0, MT_READ_SHORT))
        return failed("a tick on no bytes is not refused");
    if (mt_read(NULL, 0).number != MT_READ_SHORT || mt_judge(NULL, 0, NULL, 0).number != MT_READ_SHORT || mt_quick(NULL, 0) != 0)
        return failed("no bytes are not refused");
    if (mt_write(mt_read(a, sizeof a).table, NULL, 0).number != MT_WRITE_ROOM || mt_report(a, sizeof a, NULL, 0) != sizeof text - 1)
        return failed("a buffer without room is written to");
    return 0;
}

/* The first three ticks of the same run as a journal. */
static int judges(void) {
    uint8_t rows[] = {0x4A, 0x52, 3, 0, 2, 1, 0, 0, 1, 0, 1, 0x4A, 0x52, 0, 0, 2, 1, 0, 0, 1, 0, 1, 0x4A, 0x52, 0, 0, 1, 0, 0, 0};
    struct mt_ruling j = mt_judge(a, sizeof a, rows, sizeof rows);
    if (j.number != MT_OK || j.rows != 3 || j.missed != 0 || j.row != 0 || j.place != 0)
        return failed("a journal of table A is refused");
    j = mt_judge(a, sizeof a, rows, sizeof rows - 1);
    if (j.number != MT_ROW_SHORT || j.row != 2 || j.rows != 0)
        return failed("a row cut short is not refused");
    rows[11] = 0;
    j = mt_judge(a, sizeof a, rows, sizeof rows);
    if (j.number != MT_ROW_MARK || j.row != 1 || j.rows != 0)
        return failed("a wrong mark in a journal is not refused");
    j = mt_judge(a, 51, rows, sizeof rows);
    if (j.number != MT_READ_SHORT || j.place != 48 || j.row != 0 || j.rows != 0)
        return failed("a journal of a file cut short is judged");
    return 0;
}

int main(void) {
    struct mt_read_answer r = mt_read(a, sizeof a);
    if (r.number != MT_OK || r.place != 0 || r.table.m != 2 || r.table.n != 2)
        return failed("table A is not read");
    if (r.table.tasks[0].v != 3 || r.table.tasks[0].d != 10 || r.table.tasks[0].t != 12 || r.table.tasks[0].succ[0] != 6)
        return failed("task 0 of table A is wrong");
    if (r.table.tasks[1].v != 2 || r.table.costs[1] != 3 || r.table.costs[17] != 2)
        return failed("task 1 of table A is wrong");
    uint8_t buffer[53];
    memset(buffer, 0xA5, sizeof buffer);
    struct mt_write_answer w = mt_write(r.table, buffer, 51);
    if (w.number != MT_WRITE_ROOM || w.place != 52 || buffer[0] != 0xA5)
        return failed("a buffer that is too short is not refused");
    w = mt_write(r.table, buffer, sizeof buffer);
    if (w.number != MT_OK || w.place != 52 || memcmp(buffer, a, 52) != 0 || buffer[52] != 0xA5)
        return failed("table A is not written back");
    r = mt_read(a, 51);
    if (r.number != MT_READ_SHORT || r.place != 48 || r.table.m != 0)
        return failed("a file cut short is not refused");
    struct mt_verdict_answer v = mt_verdict(a, sizeof a);
    if (v.number != MT_OK || v.task != 1 || v.place != 0 || v.margin != 0 || v.count != 1 || v.chain[0] != 0 || v.chain[1] != MT_NONE)
        return failed("table A is not accepted");
    uint8_t one[52];
    memcpy(one, a, sizeof a);
    one[2] = 1;
    v = mt_verdict(one, sizeof one);
    if (v.number != MT_VERDICT_REFUSED || v.task != 0 || v.place != 0 || v.margin != -4 || v.count != 2 || v.chain[0] != 0 || v.chain[1] != 1)
        return failed("table A with one processor is not refused");
    v = mt_verdict(a, 51);
    if (v.number != MT_READ_SHORT || v.task != MT_NONE || v.place != 48 || v.margin != 0 || v.count != 0 || v.chain[0] != MT_NONE)
        return failed("a file cut short is judged");
    if (mt_quick(a, sizeof a) != 1 || mt_quick(one, sizeof one) != 0 || mt_quick(a, 51) != 0)
        return failed("the quick answer is not yes exactly for table A");
    size_t length = sizeof text - 1;
    uint8_t report[MT_MAX_REPORT];
    memset(report, 0xA5, sizeof report);
    if (mt_report(a, sizeof a, report, length - 1) != length || report[0] != 0xA5)
        return failed("a report that does not fit is written");
    if (mt_report(a, sizeof a, report, sizeof report) != length || memcmp(report, text, length) != 0 || report[length] != 0xA5)
        return failed("the report on table A is wrong");
    if (sharply() != 0 || runs() != 0 || runs_deep() != 0 || refusals() != 0 || judges() != 0)
        return 1;
    puts("the C face from C: table A is read, written back, judged by both verdicts, reported, opened and run, and a journal of it judged");
    return 0;
}
