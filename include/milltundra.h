/* Milltundra's C face: job tables of embroidery panels. Link with target/staticlib/libpanel.a, made by `. tools/face; face`.
   Every function answers every input. A pointer points to as many bytes as the count after it says; with a count of 0 it may be null.
   A buffer overlaps nothing else that is handed over.
   No struct has padding: what would be is a field `pad`, all zeros in an answer, so that equal answers are equal bytes, and a state can be
   saved, compared and summed as it lies. */
#ifndef MILLTUNDRA_H
#define MILLTUNDRA_H

#include <stddef.h>
#include <stdint.h>

#ifdef __cplusplus
extern "C" {
#endif

/* THE NUMBER OF EACH ANSWER. 0 is success everywhere: read, written, accepted, ticked, legal. */
enum { MT_OK = 0 };

/* Reading's, in every function that takes a table file. */
enum {
    MT_READ_SHORT = 1, /* a field does not lie wholly within the input */
    MT_READ_MARK = 2,  /* wrong mark */
    MT_READ_RANGE = 3, /* m, n, v or e outside its range */
    MT_READ_TICKS = 4, /* D or T outside its range, 1 to 1,000,000; or a cost above 1,000,000 */
    MT_READ_ORDER = 5, /* D greater than four times T */
    MT_READ_EDGE = 6,  /* an edge with an end not below v, or to itself, or not above the edge before it */
    MT_READ_CYCLE = 7, /* a cycle in the task */
    MT_READ_EXTRA = 8  /* bytes after the last record */
};

/* Writing's, besides MT_READ_RANGE to MT_READ_CYCLE. */
enum {
    MT_WRITE_ROOM = 9,   /* the buffer is shorter than the file */
    MT_WRITE_UNUSED = 10 /* an unused entry is not zero */
};

/* The verdict's. */
enum { MT_VERDICT_REFUSED = 20 }; /* some margin is negative */

/* The sharp verdict's. */
enum {
    MT_SHARP_CHAIN = 22,  /* some longest chain exceeds its task's D, lowest task; looked for before any margin */
    MT_SHARP_REFUSED = 23 /* some sharp margin is negative, lowest task */
};

/* A tick's. */
enum {
    MT_TICK_UNFIT = 30,   /* the state does not fit the table */
    MT_TICK_NO_TASK = 31, /* a release bit at or above n, lowest named */
    MT_TICK_STOPPED = 32, /* the state is stopped */
    MT_TICK_EARLY = 33,   /* a named task with a wait above 0, lowest named */
    MT_TICK_MISSED = 34   /* a live job's deadline is reached, lowest task; the state is stopped there */
};

/* The judge's for a row, besides MT_TICK_NO_TASK and MT_TICK_EARLY. */
enum {
    MT_ROW_SHORT = 40,         /* a row cut short */
    MT_ROW_MARK = 41,          /* wrong mark */
    MT_ROW_LIST = 42,          /* count above m or triples not ascending */
    MT_ROW_NOT_AVAILABLE = 44, /* a listed vertex not available */
    MT_ROW_TOO_FEW = 45,       /* fewer listed than the smaller of m and the available */
    MT_ROW_PASSED_OVER = 46,   /* an earlier deadline passed over */
    MT_ROW_AFTER_MISS = 47     /* any byte after a miss */
};

/* What stands where an answer names no task, vertex or age place. */
enum { MT_NONE = 255 };

/* THE MOST that a table or a state may have. */
enum {
    MT_MAX_PROCESSORS = 8,  /* processors, m; so a run list has as many places */
    MT_MAX_TASKS = 16,      /* tasks, n; in memory all sixteen have an entry */
    MT_MAX_VERTICES = 16,   /* vertices of a task, v */
    MT_MAX_EDGES = 120,     /* edges of a task, e */
    MT_MAX_JOBS = 4,        /* live jobs of a task; age place 0 is the oldest */
    MT_MAX_TICKS = 1000000, /* D, T and each cost; D and T are at least 1, and D is at most four times T */
    MT_MAX_FILE = 5060,     /* bytes of a table file */
    MT_MAX_REPORT = 1366,   /* bytes of a report, and of a sharp report */
    MT_MAX_ROW = 770        /* bytes of a journal's row: 5, and 3 for each of at most 255 triples; a legal one has at most 29 */
};

/* The numbers in a row of costs: vertex h of task i stands at 16 * i + h. */
enum { MT_COSTS = MT_MAX_TASKS * MT_MAX_VERTICES };

/* The places for jobs: age place p of task i is slot 16 * p + i. */
enum { MT_SLOTS = MT_MAX_JOBS * MT_MAX_TASKS };

/* What remains: vertex h of slot s stands at 16 * s + h, so there is a row of costs for each age place. */
enum { MT_REMAINING = MT_MAX_JOBS * MT_COSTS };

/* The two bytes at the start of a file, of each of its tasks, and of a journal's row. */
#define MT_TABLE_MARK "\x54\x42"
#define MT_TASK_MARK "\x54\x4B"
#define MT_JOURNAL_MARK "\x4A\x52"

/* Both ends of the margin's range, and of the sharp margin's. */
#define MT_MARGIN_LEAST INT64_C(-240000168000000)
#define MT_MARGIN_MOST INT64_C(8000000)
#define MT_SHARP_LEAST INT64_C(-120000226500000)
#define MT_SHARP_MOST INT64_C(8000000)

/* A task: vertices, deadline, period, and for each vertex its successors as sixteen bits. */
struct mt_task {
    uint8_t v;
    uint8_t pad[3];
    uint32_t d;
    uint32_t t;
    uint16_t succ[MT_MAX_VERTICES];
};

/* Processors, task count, sixteen tasks, used or not, and 256 costs, sixteen a task. Unused entries are zero. The padding of a table that is
   handed over is not looked at. */
struct mt_table {
    uint8_t m;
    uint8_t n;
    uint8_t pad[2];
    struct mt_task tasks[MT_MAX_TASKS];
    uint32_t costs[MT_COSTS];
};

/* Reading's number and place (0 and 0 on success), and the table (all zeros on a refusal). */
struct mt_read_answer {
    uint64_t place;
    uint8_t number;
    uint8_t pad[3];
    struct mt_table table;
};

/* Writing's number and place: 0 and the file's length on success; for MT_WRITE_ROOM the length needed. */
struct mt_write_answer {
    uint64_t place;
    uint8_t number;
    uint8_t pad[7];
};

/* A verdict's number, the task that it names (MT_NONE for a file that reading refuses), reading's place (otherwise 0), that
   task's margin (by the sharp verdict its sharp one; 0 where there is none), and its longest chain: `count` vertices in path order,
   of equal chains the one whose list is first; the other places are MT_NONE. A file that reading refuses has none, with a count
   of 0. */
struct mt_verdict_answer {
    uint64_t place;
    int64_t margin;
    uint8_t number;
    uint8_t task;
    uint8_t count;
    uint8_t chain[MT_MAX_VERTICES];
    uint8_t pad[5];
};

/* A task of a state: the ticks before it may be released again; and for each age place whether it has a live job, 0 or 1, and that job's
   deadline, 0 where there is none. Live jobs stand at the first places, the oldest first. */
struct mt_task_state {
    uint32_t wait;
    uint32_t deadline[MT_MAX_JOBS];
    uint8_t live[MT_MAX_JOBS];
};

/* A state of the machine: `stopped` is 0 for running or 1, and `at` the task at which it is stopped, 0 while it runs; what remains of each
   vertex, and the work of each slot, which is the sum of what remains there. Any numbers may stand in it: one that is no state, a padding
   that is not zero among them, is MT_TICK_UNFIT. */
struct mt_state {
    uint64_t work[MT_SLOTS];
    uint32_t clock;
    uint8_t stopped;
    uint8_t at;
    uint8_t pad[2];
    struct mt_task_state tasks[MT_MAX_TASKS];
    uint32_t remaining[MT_REMAINING];
};

/* Opening's number and place are reading's, its task is MT_NONE. */
struct mt_open_answer {
    uint64_t place;
    uint8_t number;
    uint8_t task;
    uint8_t pad[6];
    struct mt_state state;
};

/* A vertex that ran, and the age place of its job, counted once the tick's releases are made. */
struct mt_triple {
    uint8_t task;
    uint8_t age;
    uint8_t vertex;
};

/* A tick's number, the task that it names, reading's place (otherwise 0), the set of tasks of which a job finished (bit i is task i), and the
   vertices that ran in rank order. On a refusal nothing ran. */
struct mt_tick_answer {
    uint64_t place;
    uint8_t number;
    uint8_t task;
    uint16_t finished;
    struct mt_triple ran[MT_MAX_PROCESSORS];
    uint8_t pad[4];
};

/* A tick's answer and the next state; a refusal gives the same state back. */
struct mt_ticked {
    struct mt_tick_answer answer;
    struct mt_state state;
};

/* The ruling on a journal: number 0, the number of rows, and `missed` 1 if the last one missed; or the refusal's number and row,
   counted from 0, for reading's numbers the place and row 0. All else is 0. */
struct mt_ruling {
    uint64_t place;
    uint64_t row;
    uint64_t rows;
    uint8_t number;
    uint8_t missed;
    uint8_t pad[6];
};

/* The sizes that the library was built with: a compiler that lays a struct out in another way stops here. */
#if defined(__cplusplus) && __cplusplus >= 201103L
#define MT_HAS_SIZE(type, size) static_assert(sizeof(struct type) == (size), "struct " #type " has another size")
#elif defined(__STDC_VERSION__) && __STDC_VERSION__ >= 201112L
#define MT_HAS_SIZE(type, size) _Static_assert(sizeof(struct type) == (size), "struct " #type " has another size")
#else
#define MT_HAS_SIZE(type, size) typedef char type##_has_its_size[sizeof(struct type) == (size) ? 1 : -1]
#endif

MT_HAS_SIZE(mt_task, 44);
MT_HAS_SIZE(mt_table, 1732);
MT_HAS_SIZE(mt_read_answer, 1744);
MT_HAS_SIZE(mt_write_answer, 16);
MT_HAS_SIZE(mt_verdict_answer, 40);
MT_HAS_SIZE(mt_task_state, 24);
MT_HAS_SIZE(mt_state, 5000);
MT_HAS_SIZE(mt_open_answer, 5016);
MT_HAS_SIZE(mt_triple, 3);
MT_HAS_SIZE(mt_tick_answer, 40);
MT_HAS_SIZE(mt_ticked, 5040);
MT_HAS_SIZE(mt_ruling, 32);

/* Reads a table file. */
struct mt_read_answer mt_read(const uint8_t *bytes, size_t count);

/* Writes a table's file to the front of the buffer and leaves the rest; a refusal writes nothing. */
struct mt_write_answer mt_write(struct mt_table table, uint8_t *buffer, size_t count);

/* The verdict on a table file. */
struct mt_verdict_answer mt_verdict(const uint8_t *bytes, size_t count);

/* Whether the verdict on a table file is 0: 1 for yes, 0 for no. Stops at the first unreadable field, or at the first task whose due
   work exceeds its allowance. */
uint8_t mt_quick(const uint8_t *bytes, size_t count);

/* The length of the report on a table file. Its text is written to the front of the buffer if it fits there, and the rest is left: no zero
   byte ends it. Nothing is written otherwise. */
uint64_t mt_report(const uint8_t *bytes, size_t count, uint8_t *buffer, size_t room);

/* The sharp verdict on a table file: of a vertex only as much is due as its job's deadline leaves time for before the longest chain
   after it. It accepts every table that mt_verdict accepts, and more. */
struct mt_verdict_answer mt_sharp(const uint8_t *bytes, size_t count);

/* The report as mt_report gives it, with the sharp due work and margins and the sharp verdict. */
uint64_t mt_sharp_report(const uint8_t *bytes, size_t count, uint8_t *buffer, size_t room);

/* Opens the machine on a table file at any clock: running with all tasks idle, or stopped at MT_NONE where reading refuses. */
struct mt_open_answer mt_open(const uint8_t *bytes, size_t count, uint32_t clock);

/* One tick of the machine; bit i of the release set names task i. */
struct mt_ticked mt_tick(const uint8_t *bytes, size_t count, struct mt_state state, uint16_t releases);

/* The same tick on a state that the caller keeps: it is moved on where it stands, and left as it is on a refusal. */
struct mt_tick_answer mt_tick_in_place(struct mt_state *state, const uint8_t *bytes, size_t count, uint16_t releases);

/* Judges a panel's journal of a table file: whether every row is a legal tick, from an idle machine on. */
struct mt_ruling mt_judge(const uint8_t *bytes, size_t count, const uint8_t *journal, size_t length);

#ifdef __cplusplus
}
#endif

#endif
