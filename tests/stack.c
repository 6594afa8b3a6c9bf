/*
 * How deep the stack goes in each opening, each call and each panel call of a list.
 *
 * Reads orders from the standard input, as compare/lists/src/lib.rs has them, and prints a line for each of these: the number that
 * it returned, the first byte of the answer (0 where there is none), and the depth in bytes. Each is made on a stack of its own,
 * filled with a pattern beforehand: the depth is that of the lowest word that has changed, less what a function that does nothing
 * takes there. Where it is at most the argument, the call is made once more on a stack of just that depth, above a page that may
 * not be touched.
 */
#define _GNU_SOURCE
#include <signal.h>
#include <stdio.h>
#include <stdlib.h>
#include <string.h>
#include <sys/mman.h>
#include <ucontext.h>

#include "alarm_register.h"

enum { WORD = sizeof(uint64_t), WORDS = 1 << 15, PAGE = 1 << 12 };

struct bytes {
    uint8_t *at;
    size_t length;
};

static uint64_t paint[WORDS], *stack; /* what an unused stack holds; the stack, above a page that may not be touched */
static ucontext_t here, there;
static void (*work)(void);

static struct bytes reg, call, answer, block;
static uint32_t limits[3], number, place;
static uint8_t value;
static uint64_t length;

static void ended(const char *why)
{
    fprintf(stderr, "stack: %s\n", why);
    exit(1);
}

static void nothing(void)
{
}

static void opening(void)
{
    number = alarm_open(reg.at, reg.length, limits[0], limits[1], limits[2], &length);
}

static void step(void)
{
    number = alarm_step(reg.at, reg.length, call.at, call.length, answer.at, answer.length, &length);
}

static void look(void)
{
    number = alarm_panel_look(reg.at, reg.length, block.at, block.length, &length);
}

static void write_byte(void)
{
    number = alarm_panel_write(reg.at, reg.length, block.at, block.length, place, value, &length);
}

static void enter(void)
{
    work();
}

/* Runs the work on the lowest so many words of the stack. */
static void run_on(size_t words)
{
    if (getcontext(&there) != 0)
        ended("no context");
    there.uc_stack.ss_sp = stack;
    there.uc_stack.ss_size = words * WORD;
    there.uc_link = &here;
    makecontext(&there, enter, 0);
    if (swapcontext(&here, &there) != 0)
        ended("no stack");
}

/* The words of the stack that the work changes. */
static size_t words_of(void (*what)(void))
{
    size_t i = 0;
    work = what;
    memcpy(stack, paint, sizeof paint);
    run_on(WORDS);
    while (i < WORDS && stack[i] == paint[i])
        i++;
    return WORDS - i;
}

static uint8_t *copied(uint8_t *to, const struct bytes *from)
{
    to = realloc(to, from->length + 1);
    if (to == NULL)
        ended("no memory");
    return memcpy(to, from->at, from->length);
}

/* Prints a line for an opening, a call or a panel call. The second time it meets the same bytes as the first. */
static void measure(void (*what)(void), size_t limit)
{
    static uint8_t *former_reg, *former_answer, *former_block;
    size_t empty = words_of(nothing), words;
    uint32_t first;

    former_reg = copied(former_reg, &reg);
    former_answer = copied(former_answer, &answer);
    former_block = copied(former_block, &block);
    words = words_of(what) - empty;
    first = number;
    if (words * WORD <= limit) {
        memcpy(reg.at, former_reg, reg.length);
        memcpy(answer.at, former_answer, answer.length);
        memcpy(block.at, former_block, block.length);
        run_on((empty + words + 1) / 2 * 2); /* a context begins at a multiple of 16 bytes */
        if (number != first)
            ended("a call returned two numbers");
    }
    printf("%u %u %lu\n", (unsigned)number, length > 0 ? (unsigned)answer.at[0] : 0u, (unsigned long)(words * WORD));
}

/* ---- orders */

static uint64_t number_of(size_t width)
{
    uint64_t value = 0;
    while (width-- > 0) {
        int byte = getchar();
        if (byte == EOF)
            ended("the list is damaged");
        value = value << 8 | (unsigned)byte;
    }
    return value;
}

/* Room of a length, filled with a byte; the pointer is not null, even where the length is 0. */
static void room(struct bytes *bytes, size_t size, int former)
{
    free(bytes->at);
    bytes->at = malloc(size + 1);
    bytes->length = size;
    if (bytes->at == NULL)
        ended("no memory");
    memset(bytes->at, former, size);
}

static void fill(struct bytes *bytes)
{
    room(bytes, number_of(4), 0);
    if (fread(bytes->at, 1, bytes->length, stdin) != bytes->length)
        ended("the list is damaged");
}

/* A panel call: on a block of its own, or on what the one before left. */
static void panel(size_t limit)
{
    static struct bytes none;
    int is_write = (int)number_of(1);
    place = (uint32_t)number_of(4);
    value = (uint8_t)number_of(1);
    fill(number_of(1) == 1 ? &none : &block);
    measure(is_write ? write_byte : look, limit);
}

static void order(int letter, size_t limit)
{
    size_t i, at;
    if (letter == 'o') {
        for (i = 0; i < 3; i++)
            limits[i] = (uint32_t)number_of(4);
        at = number_of(4);
        room(&reg, at, (int)number_of(1));
        room(&answer, 0, 0);
        measure(opening, limit);
    } else if (letter == 's') {
        at = number_of(4);
        room(&answer, at, (int)number_of(1));
        fill(&call);
        measure(step, limit);
    } else if (letter == 'p') {
        panel(limit);
    } else if (letter == 'r') {
        fill(&reg);
    } else if (letter == 'c') {
        at = number_of(4);
        for (i = 0; i < 16; i++)
            reg.at[at + i] = (uint8_t)number_of(1);
    } else {
        ended("the list is damaged");
    }
}

static void overflow(int signal)
{
    static const char why[] = "stack: a call goes deeper than was measured\n";
    (void)signal;
    fwrite(why, 1, sizeof why - 1, stderr);
    _Exit(1);
}

int main(int count, char **words)
{
    static uint8_t aside[1 << 16]; /* where an overflow is told */
    stack_t other = {0};
    struct sigaction action = {0};
    size_t limit = count > 1 ? strtoul(words[1], NULL, 10) : 0, i;
    uint8_t *pages = mmap(NULL, PAGE + sizeof paint, PROT_READ | PROT_WRITE, MAP_PRIVATE | MAP_ANONYMOUS, -1, 0);
    int letter;

    if (pages == MAP_FAILED || mprotect(pages, PAGE, PROT_NONE) != 0)
        ended("no memory");
    stack = (uint64_t *)(pages + PAGE);
    for (i = 0; i < WORDS; i++)
        paint[i] = (i + 1) * 0x9E3779B97F4A7C15u;
    room(&block, 0, 0);
    room(&answer, 0, 0);
    other.ss_sp = aside;
    other.ss_size = sizeof aside;
    action.sa_handler = overflow;
    action.sa_flags = SA_ONSTACK;
    if (sigaltstack(&other, NULL) != 0 || sigaction(SIGSEGV, &action, NULL) != 0)
        ended("no signals");
    while ((letter = getchar()) != EOF)
        order(letter, limit);
    return 0;
}
