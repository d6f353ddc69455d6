/* The proved library as C calls it; link target/staticlib/libface.a, and liblent.a for
   pszenorad_run_lent (x86-64 Linux). A lent buffer is a pointer and a count, and no
   pointer may be null, not even one with count 0. Numbers, refusals and buffers are those of document 01. */
#ifndef PSZENORAD_H
#define PSZENORAD_H

#include <stdbool.h>
#include <stddef.h>
#include <stdint.h>

#ifdef __cplusplus
extern "C" {
#endif

#define PSZENORAD_INVALID UINT32_C(4294967295)

/* The numbers of the refusals by name, in the answers' `number`; a place is 0 unless told otherwise here. */
enum pszenorad_refusal {
    PSZENORAD_ACCEPTED = 0,
    PSZENORAD_NO_HEAD = 1,               /* fewer than 2 bytes */
    PSZENORAD_THREADS = 2,               /* there are 0 threads or more than 8 */
    PSZENORAD_KEYS = 3,                  /* there are 0 keys or more than 16 */
    PSZENORAD_TABLE_CUT_SHORT = 4,       /* the contents table is cut short */
    PSZENORAD_OFFSET = 5,                /* an entry's offset is not the sum required; place: the entry's */
    PSZENORAD_TOO_MANY_OPERATIONS = 6,   /* more than 64 operations */
    PSZENORAD_TOO_MANY_STEPS = 7,        /* more than 4,096 steps */
    PSZENORAD_LENGTH = 8,                /* the file does not end with the schedule */
    PSZENORAD_KEY_TOO_LARGE = 9,         /* an insert, delete or contains with a key of 16 or more; place: the byte's */
    PSZENORAD_STEP = 10,                 /* a schedule byte names no thread; place: the byte's */
    PSZENORAD_TOO_SMALL = 11,            /* a lent output is too small */
    PSZENORAD_LISTS = 12,                /* the writer's lists disagree */
    PSZENORAD_KEY_NOT_BELOW_K = 13,      /* one with a key below 16 that is not below K; place: the byte's */
    PSZENORAD_SIZE_WITH_KEY = 14         /* a size byte other than 192; place: the byte's */
};

/* What stands where among the numbers of one operation in results, and how many they are. The raiser is the thread that
   raised the counter of this update, perhaps another than its own; PSZENORAD_INVALID for anything but a raised update. */
enum {
    PSZENORAD_ANSWER,
    PSZENORAD_FIRST,
    PSZENORAD_LAST,
    PSZENORAD_OWN,
    PSZENORAD_RAISER,
    PSZENORAD_PER_OPERATION
};

/* The same of one entry of the log. */
enum { PSZENORAD_LOG_OPERATION, PSZENORAD_LOG_STEP, PSZENORAD_PER_ENTRY };

/* number is 0 where the file is accepted; else number and place of the refusal, and every other number 0 */
typedef struct {
    uint32_t number;
    size_t place;
    uint8_t threads;
    uint8_t keys;
    uint16_t counts[8];
    size_t operations_at;
    size_t operations;
    size_t schedule_at;
    size_t steps;
} pszenorad_read_answer;

typedef struct {
    uint32_t number;
    size_t place;
    size_t length;
} pszenorad_write_answer;

typedef struct {
    uint32_t number;
    size_t place;
    size_t entries;
    uint32_t idle;
    uint32_t snapshots;
} pszenorad_run_answer;

typedef struct {
    uint32_t insertions;
    uint32_t deletions;
} pszenorad_cells;

typedef struct {
    pszenorad_cells cells[8];
    bool collecting;
    uint32_t size;
} pszenorad_snapshot;

pszenorad_read_answer pszenorad_read(const uint8_t *file, size_t length);

pszenorad_write_answer pszenorad_write(uint8_t threads, uint8_t keys, const uint16_t *counts, size_t counts_length,
                                       const uint8_t *operations, size_t operations_length, const uint8_t *schedule,
                                       size_t schedule_length, uint8_t *out, size_t out_length);

/* room needed: PSZENORAD_PER_OPERATION numbers per operation in results, PSZENORAD_PER_ENTRY in log */
pszenorad_run_answer pszenorad_run(const uint8_t *file, size_t length, uint32_t *results, size_t results_length,
                                   uint32_t *log, size_t log_length);

/* table: one record more than there are size operations */
pszenorad_run_answer pszenorad_run_lent(const uint8_t *file, size_t length, uint32_t *results, size_t results_length,
                                        uint32_t *log, size_t log_length, pszenorad_snapshot *table,
                                        size_t table_length);

#ifdef __cplusplus
}
#endif

#endif
