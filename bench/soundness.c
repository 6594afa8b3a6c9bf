/* What the check of a register's soundness costs. Every call starts with it; an empty call is refused (23) right after it, so the time of
   alarm_step with an empty call is the check's own.

   Five registers of each size: all records free; full of typical alarms whose strings have the same lengths in all records (alike); full
   of alarms whose strings vary by a quarter around these lengths (varied), which a processor predicts less well; those again with two
   letters in each text that are not ASCII (accented); and with texts of such letters alone (cyrillic). Printed are nanoseconds per record
   (the least and the median of many runs) and bytes per second (of the least), and beside them those of a bare read of the same bytes.

   Each is measured twice: in memory of ordinary pages, and of large ones, for which a program asks Linux by madvise. A register of 154 MB
   has more ordinary pages than a processor keeps in mind.

   Alarms are written into the register's bytes here, by the offsets of docs/layout.json: each raise checks the whole register, so that
   filling it by calls would take time with the square of its records.

     make lib
     cc -O3 -Wall -Wextra bench/soundness.c target/staticlib/libstation.a -o target/soundness && target/soundness */
#define _DEFAULT_SOURCE
#include <stdint.h>
#include <stdio.h>
#include <stdlib.h>
#include <string.h>
#include <sys/mman.h>
#include <time.h>

uint32_t alarm_open(uint8_t *reg, size_t reg_len, uint32_t active, uint32_t history, uint32_t audit, uint64_t *length);
uint32_t alarm_step(uint8_t *reg, size_t reg_len, const uint8_t *call, size_t call_len, uint8_t *answer, size_t answer_len,
                    uint64_t *length);

enum { WIDTH = 1536, LARGE_PAGE = 2 << 20, NOT_SOUND = 22, EMPTY_CALL = 23 };

/* A register is measured so often that this many records are looked at: small ones more often than large ones. */
enum { LEAST_RECORDS = 1000, LOOKED_AT = 2100000, MOST_RUNS = LOOKED_AT / LEAST_RECORDS };

/* docs/layout.json: where the header has a chain's head, which the chain's length follows; where a record has an alarm's fields */
enum { ACTIVE_HEAD = 12, HISTORY_HEAD = 20, FREE_HEAD = 36 };
enum {
    NEXT = 0, KEY = 4, SEVERITY = 20, RAISED_AT = 22, UPDATED_AT = 30, ID = 47, TYPE = 113, CAUSE = 179, OBJECT_KIND = 277,
    OBJECT_FIRST = 278, OBJECT_SECOND = 345, TENANT = 413, TEXT = 678, DETAILS = 936, SPARE = 1464
};

typedef struct {
    uint8_t *bytes;
    size_t size;
    uint32_t records, active, history, audit;
} Register;

/* Linux's words for the pages of a register's memory. */
typedef enum { ORDINARY = MADV_NOHUGEPAGE, LARGE = MADV_HUGEPAGE } Pages;

/* What the strings of a register's alarms are. */
typedef enum { ALIKE, VARIED, ACCENTED, CYRILLIC } Strings;

typedef struct {
    double least, median;
} Times;

static void fail(const char *what) {
    fprintf(stderr, "soundness: %s\n", what);
    exit(1);
}

static double now(void) {
    struct timespec t;
    clock_gettime(CLOCK_MONOTONIC, &t);
    return (double)t.tv_sec * 1e9 + (double)t.tv_nsec;
}

static void put(uint8_t *at, uint64_t value, size_t width) {
    for (size_t i = width; 0 < i; value >>= 8)
        at[--i] = (uint8_t)value;
}

/* ---- registers */

static void open_register(Register r) {
    uint64_t length;
    if (alarm_open(r.bytes, r.size, r.active, r.history, r.audit, &length) != 0)
        fail("a register was not opened");
}

/* Memory of whole large pages, so that both kinds lie alike. */
static uint8_t *memory(size_t size, Pages pages) {
    size_t whole = (size + LARGE_PAGE - 1) / LARGE_PAGE * LARGE_PAGE;
    uint8_t *bytes = aligned_alloc(LARGE_PAGE, whole);
    if (bytes == NULL)
        fail("no memory");
    if (madvise(bytes, whole, (int)pages) != 0)
        fail("the system has no such pages");
    return bytes;
}

static Register made(uint32_t records, Pages pages) {
    Register r = {.size = (size_t)WIDTH * (1 + (size_t)records), .records = records};
    r.audit = 1;
    r.history = records / 2;
    r.active = records - r.history - r.audit;
    r.bytes = memory(r.size, pages);
    open_register(r);
    return r;
}

/* A number below n: each run draws the same ones. */
static uint32_t drawn(uint32_t n) {
    static uint32_t x = 1;
    x ^= x << 13;
    x ^= x >> 17;
    x ^= x << 5;
    return x % n;
}

static uint32_t length_of(uint32_t typical, Strings strings) {
    return strings == ALIKE ? typical : typical - typical / 4 + drawn(typical / 2 + 1);
}

/* A string of n bytes that begins with the record's number. */
static void put_string(uint8_t *slot, uint32_t n, uint32_t i) {
    char text[128];
    snprintf(text, sizeof text, "%06u %s", i,
             "the drive of the upper station has not answered three polls in a row: the car holds, doors stay shut");
    put(slot, n, 2);
    memcpy(slot + 2, text, n);
}

static void put_option(uint8_t *slot, uint32_t n, uint32_t i) {
    slot[0] = 1;
    put_string(slot + 1, n, i);
}

static void put_cause(uint8_t *slot, Strings strings) {
    static const char *const names[] = {"peer-unreachable", "lease-lost", "storage-corruption", "certificate-expiring",
                                        "security-break-glass"};
    const char *name = names[strings == ALIKE ? 0 : drawn(sizeof names / sizeof *names)];
    put(slot, strlen(name), 2);
    memcpy(slot + 2, name, strlen(name));
}

/* Two letters of two bytes each, within the shortest text. */
static void put_accents(uint8_t *slot) {
    memcpy(slot + 2 + 10, "\303\274", 2);
    memcpy(slot + 2 + 30, "\303\266", 2);
}

/* Letters of two bytes alone; of a text of odd length the last byte stays ASCII. */
static void put_cyrillic(uint8_t *slot) {
    uint32_t length = (uint32_t)slot[0] << 8 | slot[1];
    for (uint32_t i = 0; i + 1 < length; i += 2)
        memcpy(slot + 2 + i, "\320\266", 2);
}

/* An alarm: id, type, a cause by name, an object of two strings, tenant, text and details. */
static void put_alarm(uint8_t *record, uint32_t i, Strings strings) {
    put(record + KEY, i, 16);
    record[SEVERITY] = 1;
    put(record + RAISED_AT, 1800000000000000000u + i, 8);
    put(record + UPDATED_AT, 1800000000000000000u + i, 8);
    put_string(record + ID, length_of(20, strings), i);
    put_string(record + TYPE, length_of(14, strings), i);
    put_cause(record + CAUSE, strings);
    record[OBJECT_KIND] = 1;
    put_string(record + OBJECT_FIRST, length_of(8, strings), i);
    put_string(record + OBJECT_SECOND, length_of(18, strings), i);
    put_option(record + TENANT, length_of(13, strings), i);
    put_string(record + TEXT, length_of(60, strings), i);
    put_option(record + DETAILS, length_of(80, strings), i);
    if (strings == ACCENTED)
        put_accents(record + TEXT);
    if (strings == CYRILLIC)
        put_cyrillic(record + TEXT);
}

static void put_head(Register r, size_t head, uint32_t first, uint32_t count) {
    put(r.bytes + head, first, 4);
    put(r.bytes + head + 4, count, 4);
}

/* A chain of alarms in `count` records from `first` on. */
static void put_chain(Register r, size_t head, uint32_t first, uint32_t count, Strings strings) {
    put_head(r, head, first, count);
    for (uint32_t i = first; i < first + count; i++) {
        uint8_t *record = r.bytes + (size_t)WIDTH * i;
        put(record + NEXT, i + 1 < first + count ? i + 1 : 0, 4);
        put_alarm(record, i, strings);
    }
}

/* Active chain and history are full; the record for an audit event stays free. */
static void fill(Register r, Strings strings) {
    open_register(r);
    put_chain(r, ACTIVE_HEAD, 1, r.active, strings);
    put_chain(r, HISTORY_HEAD, 1 + r.active, r.history, strings);
    put_head(r, FREE_HEAD, r.records, r.audit);
}

/* ---- measuring */

static uint32_t check(Register r) {
    uint8_t none = 0;
    uint64_t length;
    return alarm_step(r.bytes, r.size, &none, 0, &none, 0, &length);
}

static int by_size(const void *a, const void *b) {
    double x = *(const double *)a, y = *(const double *)b;
    return (x > y) - (x < y);
}

static Times summary(double *runs, size_t count) {
    qsort(runs, count, sizeof *runs, by_size);
    return (Times){runs[0], runs[count / 2]};
}

static Times check_times(Register r) {
    double runs[MOST_RUNS];
    size_t count = LOOKED_AT / r.records;
    for (size_t k = 0; k < count; k++) {
        double began = now();
        uint32_t number = check(r);
        runs[k] = now() - began;
        if (number != EMPTY_CALL)
            fail("a sound register was not taken for sound");
    }
    return summary(runs, count);
}

/* The or of all words of the register: the least that a check does which looks at every byte. */
static uint64_t joined(Register r) {
    const uint64_t *words = (const uint64_t *)r.bytes;
    uint64_t a = 0, b = 0, c = 0, d = 0;
    for (size_t i = 0; i < r.size / sizeof *words; i += 4) {
        a |= words[i];
        b |= words[i + 1];
        c |= words[i + 2];
        d |= words[i + 3];
    }
    return a | b | c | d;
}

static Times read_times(Register r) {
    double runs[MOST_RUNS];
    size_t count = LOOKED_AT / r.records;
    for (size_t k = 0; k < count; k++) {
        double began = now();
        uint64_t x = joined(r);
        __asm__ volatile("" : : "r"(x) : "memory");
        runs[k] = now() - began;
    }
    return summary(runs, count);
}

/* The check reads to the end: a stray byte in history's last record is seen. */
static void see_damage(Register r) {
    uint8_t *stray = r.bytes + (size_t)WIDTH * (r.active + r.history) + SPARE;
    *stray = 1;
    if (check(r) != NOT_SOUND)
        fail("a damaged register was taken for sound");
    *stray = 0;
}

static void print_times(Register r, Times t) {
    printf("  %8.1f %8.1f %7.2f", t.least / r.records, t.median / r.records, (double)r.size / t.least);
}

static void measure(Register r, const char *kind) {
    see_damage(r);
    printf("%8u  %-8s", r.records, kind);
    print_times(r, check_times(r));
    print_times(r, read_times(r));
    printf("\n");
}

static void measure_all(const char *name, Pages pages) {
    const uint32_t sizes[] = {LEAST_RECORDS, 10000, 100000};
    printf("%-18s  check, ns per record       bare read, ns per record\n", name);
    printf(" records               least   median    GB/s     least   median    GB/s\n");
    for (size_t k = 0; k < sizeof sizes / sizeof *sizes; k++) {
        Register r = made(sizes[k], pages);
        measure(r, "free");
        fill(r, ALIKE);
        measure(r, "alike");
        fill(r, VARIED);
        measure(r, "varied");
        fill(r, ACCENTED);
        measure(r, "accented");
        fill(r, CYRILLIC);
        measure(r, "cyrillic");
        free(r.bytes);
    }
}

int main(void) {
    measure_all("ordinary pages", ORDINARY);
    printf("\n");
    measure_all("large pages", LARGE);
    return 0;
}
