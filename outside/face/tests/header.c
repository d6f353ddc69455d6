/* The header compiles, and what C gets through it is what the library answers. */
#include "../pszenorad.h"
#include <stdio.h>
#include <string.h>

#define EXPECT(fact) \
    do { \
        if (!(fact)) { \
            printf("not so: %s\n", #fact); \
            return 1; \
        } \
    } while (0)

/* one thread, one key: insert 0 twice, eleven steps */
static const uint8_t file[] = {1, 1, 10, 0, 2, 0, 12, 0, 11, 0, 0, 0, 0, 0, 0, 0, 0, 0, 0, 0, 0, 0, 0};

enum { OPERATIONS = 2, RESULTS = OPERATIONS * PSZENORAD_PER_OPERATION, LOG = OPERATIONS * PSZENORAD_PER_ENTRY };

static int files(void) {
    uint8_t out[40];
    uint16_t counts[1] = {OPERATIONS};
    pszenorad_read_answer r = pszenorad_read(file, sizeof file);
    EXPECT(r.number == PSZENORAD_ACCEPTED && r.threads == 1 && r.keys == 1 && r.counts[0] == 2 && r.counts[7] == 0);
    EXPECT(r.operations_at == 10 && r.operations == OPERATIONS && r.schedule_at == 12 && r.steps == 11);
    r = pszenorad_read(file, sizeof file - 1);
    EXPECT(r.number == PSZENORAD_LENGTH && r.place == 0 && r.threads == 0);
    memcpy(out, file, sizeof file);
    out[11] = 1;
    r = pszenorad_read(out, sizeof file);
    EXPECT(r.number == PSZENORAD_KEY_NOT_BELOW_K && r.place == 11 && r.threads == 0);
    out[11] = 193;
    EXPECT(pszenorad_read(out, sizeof file).number == PSZENORAD_SIZE_WITH_KEY);
    out[11] = 16;
    EXPECT(pszenorad_read(out, sizeof file).number == PSZENORAD_KEY_TOO_LARGE);
    pszenorad_write_answer w = pszenorad_write(1, 1, counts, 1, file + 10, OPERATIONS, file + 12, 11, out, sizeof out);
    EXPECT(w.number == PSZENORAD_ACCEPTED && w.length == sizeof file && memcmp(out, file, sizeof file) == 0);
    return 0;
}

static int runs(void) {
    uint32_t results[RESULTS], log[LOG];
    const uint32_t *second = results + PSZENORAD_PER_OPERATION, *entry = log + PSZENORAD_PER_ENTRY;
    pszenorad_run_answer a = pszenorad_run(file, sizeof file, results, RESULTS, log, LOG);
    EXPECT(a.number == PSZENORAD_ACCEPTED && a.entries == 2 && a.idle == 0 && a.snapshots == 0);
    EXPECT(results[PSZENORAD_ANSWER] == 1 && results[PSZENORAD_FIRST] == 1 && results[PSZENORAD_LAST] == 7);
    EXPECT(results[PSZENORAD_OWN] == 7 && results[PSZENORAD_RAISER] == 0);
    EXPECT(second[PSZENORAD_ANSWER] == 0 && second[PSZENORAD_FIRST] == 8 && second[PSZENORAD_LAST] == 11);
    EXPECT(second[PSZENORAD_OWN] == 4 && second[PSZENORAD_RAISER] == PSZENORAD_INVALID);
    EXPECT(log[PSZENORAD_LOG_OPERATION] == 0 && log[PSZENORAD_LOG_STEP] == 5);
    EXPECT(entry[PSZENORAD_LOG_OPERATION] == 1 && entry[PSZENORAD_LOG_STEP] == 8);
    pszenorad_snapshot table[1];
    a = pszenorad_run_lent(file, sizeof file, results, RESULTS, log, LOG, table, 1);
    EXPECT(a.number == PSZENORAD_ACCEPTED && results[PSZENORAD_RAISER] == 0 && second[PSZENORAD_RAISER] == PSZENORAD_INVALID);
    EXPECT(table[0].size == PSZENORAD_INVALID && table[0].cells[7].deletions == PSZENORAD_INVALID);
    return 0;
}

/* one number too few, and one too few for each operation: refused, and nothing is written */
static int small_rooms(void) {
    static const size_t rooms[] = {RESULTS - 1, RESULTS - OPERATIONS};
    uint32_t results[RESULTS], before[RESULTS], log[LOG];
    pszenorad_snapshot table[1];
    memset(results, 9, sizeof results);
    memset(before, 9, sizeof before);
    for (size_t i = 0; i < sizeof rooms / sizeof *rooms; i++) {
        EXPECT(pszenorad_run(file, sizeof file, results, rooms[i], log, LOG).number == PSZENORAD_TOO_SMALL);
        EXPECT(pszenorad_run_lent(file, sizeof file, results, rooms[i], log, LOG, table, 1).number == PSZENORAD_TOO_SMALL);
        EXPECT(memcmp(results, before, sizeof results) == 0);
    }
    EXPECT(pszenorad_run(file, sizeof file, results, RESULTS, log, LOG - 1).number == PSZENORAD_TOO_SMALL);
    return 0;
}

int main(void) {
    return files() || runs() || small_rooms();
}
