/* What operation 10 costs, and how much stack a call takes.

   First the time of alarm_step with operation 10 on 4,096 active alarms, for several numbers of pairs of severity and cause: microseconds,
   the least and the median of many runs. The check of soundness, with which each call starts, is in it; that of an empty call is printed
   beside it. Records stand on the chain in a random order, and so do the pairs.

   Then the stack. A thread's stack is painted; the lowest byte that a call changed tells how deep it went, and what an empty thread takes
   is taken off. Calls are those of recorded lists (crates/lists_replay/stdin), each operation by its deepest; then operation 10 again, with
   more pairs than its table has rows.

   Alarms are written into the register's bytes here, by the offsets of docs/layout.json, as in bench/soundness.c.

     make lib
     cc -O3 -Wall -Wextra bench/counts.c target/staticlib/libstation.a -o target/counts -lpthread
     target/counts < crates/lists_replay/stdin */
#define _DEFAULT_SOURCE
#include <pthread.h>
#include <stdint.h>
#include <stdio.h>
#include <stdlib.h>
#include <string.h>
#include <time.h>

uint32_t alarm_open(uint8_t *reg, size_t reg_len, uint32_t active, uint32_t history, uint32_t audit, uint64_t *length);
uint32_t alarm_step(uint8_t *reg, size_t reg_len, const uint8_t *call, size_t call_len, uint8_t *answer, size_t answer_len,
                    uint64_t *length);

enum { WIDTH = 1536, ALARMS = 4096, RUNS = 15, STACK = 1 << 20, PAINT = 0xA5, EMPTY_CALL = 23 };

/* docs/layout.json: where the header has a chain's head, which the chain's length follows; where a record has an alarm's fields */
enum { ACTIVE_HEAD = 12, FREE_HEAD = 36 };
enum {
    NEXT = 0, KEY = 4, SEVERITY = 20, RAISED_AT = 22, UPDATED_AT = 30, ID = 47, TYPE = 113, CAUSE = 179, OBJECT_KIND = 277,
    OBJECT_FIRST = 278, OBJECT_SECOND = 345, TEXT = 678
};

static uint8_t reg[WIDTH * (ALARMS + 3)], answer[WIDTH * (ALARMS + 3)], lists[1 << 20], stack[STACK] __attribute__((aligned(4096)));
static size_t size = sizeof reg;

static void fail(const char *what) {
    fprintf(stderr, "counts: %s\n", what);
    exit(1);
}

static double now(void) {
    struct timespec t;
    clock_gettime(CLOCK_MONOTONIC, &t);
    return (double)t.tv_sec * 1e6 + (double)t.tv_nsec / 1e3;
}

static void put(uint8_t *at, uint64_t value, size_t width) {
    for (size_t i = width; 0 < i; value >>= 8)
        at[--i] = (uint8_t)value;
}

static uint32_t got(const uint8_t *at) { return (uint32_t)at[0] << 24 | (uint32_t)at[1] << 16 | (uint32_t)at[2] << 8 | at[3]; }

static void put_string(uint8_t *slot, const char *text) {
    put(slot, strlen(text), 2);
    memcpy(slot + 2, text, strlen(text));
}

/* ---- a register full of alarms with so many pairs */

/* A number below n: each run draws the same ones. */
static uint32_t drawn(uint32_t n) {
    static uint32_t x = 1;
    x ^= x << 13;
    x ^= x >> 17;
    x ^= x << 5;
    return x % n;
}

static void shuffle(uint32_t *numbers) {
    for (uint32_t i = ALARMS; 1 < i; i--) {
        uint32_t j = drawn(i), last = numbers[i - 1];
        numbers[i - 1] = numbers[j];
        numbers[j] = last;
    }
}

static void put_alarm(uint8_t *r, uint32_t i, uint32_t next, uint32_t pair) {
    char text[64];
    put(r + NEXT, next, 4);
    put(r + KEY, i, 16);
    r[SEVERITY] = (uint8_t)(pair % 6);
    put(r + RAISED_AT, i, 8);
    put(r + UPDATED_AT, i, 8);
    snprintf(text, sizeof text, "a-%06u", i);
    put_string(r + ID, text);
    put_string(r + TYPE, "drive.trip");
    snprintf(text, sizeof text, "other:ropeway.part-%04u", pair / 6);
    put_string(r + CAUSE, text);
    r[OBJECT_KIND] = 1;
    put_string(r + OBJECT_FIRST, "drive");
    put_string(r + OBJECT_SECOND, "upper");
    put_string(r + TEXT, "overcurrent");
}

static void fill(uint32_t pairs) {
    static uint32_t at[ALARMS], pair[ALARMS];
    uint64_t length;
    memset(reg, 0, size = sizeof reg);
    if (alarm_open(reg, size, ALARMS, 1, 1, &length) != 0)
        fail("a register was not opened");
    for (uint32_t i = 0; i < ALARMS; i++)
        at[i] = i + 1, pair[i] = i % pairs;
    shuffle(at);
    shuffle(pair);
    put(reg + ACTIVE_HEAD, at[0], 4);
    put(reg + ACTIVE_HEAD + 4, ALARMS, 4);
    put(reg + FREE_HEAD, ALARMS + 1, 4);
    put(reg + FREE_HEAD + 4, 2, 4);
    for (uint32_t i = 0; i < ALARMS; i++) {
        memset(reg + (size_t)WIDTH * at[i], 0, WIDTH);
        put_alarm(reg + (size_t)WIDTH * at[i], i, i + 1 < ALARMS ? at[i + 1] : 0, pair[i]);
    }
}

/* ---- times */

static const uint8_t counts[] = {10};

static double once(size_t call_len, uint32_t number) {
    uint64_t length;
    double start = now();
    if (alarm_step(reg, size, counts, call_len, answer, sizeof answer, &length) != number)
        fail("another number");
    return now() - start;
}

static int order(const void *a, const void *b) {
    double x = *(const double *)a, y = *(const double *)b;
    return (y < x) - (x < y);
}

static void measure(uint32_t pairs) {
    static double took[RUNS], check[RUNS];
    fill(pairs);
    for (int i = 0; i < RUNS; i++)
        took[i] = once(1, 0), check[i] = once(0, EMPTY_CALL);
    qsort(took, RUNS, sizeof *took, order);
    qsort(check, RUNS, sizeof *check, order);
    if (got(answer + 4) != pairs)
        fail("the answer has another number of entries");
    printf("%6u  %10.0f  %10.0f  %10.0f\n", pairs, took[0], took[RUNS / 2], check[RUNS / 2]);
}

/* ---- stack */

static const uint8_t *call;
static size_t call_len, room;

static void *called(void *none) {
    uint64_t length;
    if (call != NULL)
        alarm_step(reg, size, call, call_len, answer, room, &length);
    return none;
}

static size_t depth(void) {
    pthread_attr_t kind;
    pthread_t thread;
    size_t left = 0;
    memset(stack, PAINT, STACK);
    pthread_attr_init(&kind);
    if (pthread_attr_setstack(&kind, stack, STACK) != 0 || pthread_create(&thread, &kind, called, NULL) != 0)
        fail("no thread");
    pthread_join(thread, NULL);
    while (left < STACK && stack[left] == PAINT)
        left++;
    return STACK - left;
}

/* An order of compare/orders.py: 'o' with limits and size, 's' with room, a byte and a call. Gives where the next one is. */
static size_t take(size_t at, size_t own, size_t *deepest) {
    uint64_t length;
    if (lists[at] == 'o') {
        size = got(lists + at + 13);
        memset(reg, 0, sizeof reg);
        alarm_open(reg, size, got(lists + at + 1), got(lists + at + 5), got(lists + at + 9), &length);
        return at + 18;
    }
    call = lists + at + 10;
    call_len = got(lists + at + 6);
    room = got(lists + at + 1);
    size_t took = depth() - own;
    uint8_t operation = call_len == 0 ? 0 : call[0];
    if (operation < 13 && deepest[operation] < took)
        deepest[operation] = took;
    return at + 10 + call_len;
}

static void measure_stack(void) {
    size_t n = fread(lists, 1, sizeof lists, stdin), own = depth(), deepest[13] = {0};
    for (size_t at = 0; at < n && (lists[at] == 'o' || lists[at] == 's');)
        at = take(at, own, deepest);
    puts("operation  stack, bytes");
    for (int i = 0; i < 13; i++)
        printf("%9d  %12zu\n", i, deepest[i]);
    for (uint32_t pairs = 1000; pairs <= ALARMS; pairs += 1032) {
        fill(pairs);
        call = counts, call_len = 1, room = sizeof answer;
        printf("       10  %12zu  with %u pairs\n", depth() - own, pairs);
    }
}

int main(void) {
    static const uint32_t pairs[] = {1, 21, 100, 1000, 1024, 1025, 4096};
    puts(" pairs       least      median  empty call");
    for (size_t i = 0; i < sizeof pairs / sizeof *pairs; i++)
        measure(pairs[i]);
    measure_stack();
}
