/* judge FILE CLOCK TICKS: prints the report on a table file, then runs it from that clock on, each task released as soon as it may be. */
#include "milltundra.h"
#include <inttypes.h>
#include <stdio.h>
#include <stdlib.h>

/* A byte more than the largest file, so that a longer one is refused too. */
static uint8_t file[MT_MAX_FILE + 1];
static uint8_t text[MT_MAX_REPORT];

/* The tasks of a file that has been read. */
static unsigned tasks_of(size_t count) {
    return mt_read(file, count).table.n;
}

/* The set of tasks that need not wait. */
static uint16_t ready(const struct mt_state *state, unsigned tasks) {
    unsigned set = 0;
    for (unsigned i = 0; i < tasks; i++)
        if (state->tasks[i].wait == 0)
            set |= 1u << i;
    return (uint16_t)set;
}

static void print_set(const char *word, uint16_t set) {
    printf(" %s", word);
    for (unsigned i = 0; i < MT_MAX_TASKS; i++)
        if (set >> i & 1)
            printf(" %u", i);
}

static void print_tick(uint32_t clock, uint16_t releases, const struct mt_tick_answer *t) {
    printf("clock %" PRIu32, clock);
    print_set("release", releases);
    printf(" run");
    for (int j = 0; j < MT_MAX_PROCESSORS && t->ran[j].task != MT_NONE; j++)
        printf(" %u.%u.%u", t->ran[j].task, t->ran[j].age, t->ran[j].vertex);
    print_set("finished", t->finished);
    printf("\n");
}

/* Runs so many ticks, or until one is not answered MT_OK. */
static void run(size_t count, struct mt_state *state, unsigned long ticks) {
    unsigned tasks = tasks_of(count);
    for (unsigned long k = 0; k < ticks; k++) {
        uint16_t releases = ready(state, tasks);
        uint32_t clock = state->clock;
        struct mt_tick_answer t = mt_tick_in_place(state, file, count, releases);
        print_tick(clock, releases, &t);
        if (t.number != MT_OK) {
            printf("number %u task %u\n", t.number, t.task);
            return;
        }
    }
}

int main(int words, char **word) {
    if (words != 4) {
        fprintf(stderr, "judge FILE CLOCK TICKS\n");
        return 2;
    }
    FILE *from = fopen(word[1], "rb");
    if (from == NULL) {
        perror(word[1]);
        return 1;
    }
    size_t count = fread(file, 1, sizeof file, from);
    fclose(from);
    uint64_t length = mt_report(file, count, text, sizeof text);
    fwrite(text, 1, (size_t)length, stdout);
    struct mt_open_answer opened = mt_open(file, count, (uint32_t)strtoul(word[2], NULL, 10));
    if (opened.number != MT_OK)
        return 1;
    run(count, &opened.state, strtoul(word[3], NULL, 10));
    return 0;
}
