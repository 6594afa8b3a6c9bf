/*
 * A lamp card's program in C: a register, and the eight bytes that the card reads of it. In each round something happens
 * to an alarm, and the card looks. The operator narrows the mask and widens it again; a write to another byte changes
 * nothing, and a block that is not of eight bytes is refused.
 *
 *     gcc -Iinclude examples/lamp_card.c target/staticlib/libstation.a -o lamp_card
 */
#include <stdio.h>
#include <string.h>

#include "alarm_register.h"

enum { ACTIVE = 4, HISTORY = 8, AUDIT = 2, SEVERITIES = 6 };

static const char *const NAMES[SEVERITIES] = {"cleared", "indeterminate", "warning", "minor", "major", "critical"};

static uint8_t reg[ALARM_REGISTER_LENGTH(ACTIVE, HISTORY, AUDIT)];
static uint8_t answer[ALARM_ANSWER_ROOM];
static uint8_t block[ALARM_PANEL_WIDTH];

/* A call that is being written: its bytes, and how many there are. */
struct call {
    uint8_t bytes[2048];
    size_t length;
};

static void put_number(struct call *call, uint64_t number, size_t width)
{
    size_t i;
    for (i = 0; i < width; i++)
        call->bytes[call->length++] = (uint8_t)(number >> (8 * (width - 1 - i)));
}

static void put_string(struct call *call, const char *string)
{
    put_number(call, strlen(string), 4);
    memcpy(call->bytes + call->length, string, strlen(string));
    call->length += strlen(string);
}

/* The start of a call: its operation and its time, in seconds from 1970. */
static struct call begun(uint8_t operation, uint64_t seconds)
{
    struct call call;
    call.length = 0;
    put_number(&call, operation, 1);
    put_number(&call, seconds * 1000000000u, 8);
    return call;
}

static void perform(const struct call *call)
{
    uint64_t length;
    uint32_t number = alarm_step(reg, sizeof reg, call->bytes, call->length, answer, sizeof answer, &length);
    if (number != 0)
        printf("refused with %u\n", (unsigned)number);
}

/* An alarm of a part of the ropeway: the part's name is its id too. */
static void raise_alarm(uint64_t seconds, const char *part, uint8_t severity, const char *cause)
{
    struct call call = begun(ALARM_OP_RAISE, seconds);
    put_string(&call, part);
    put_string(&call, "ropeway");
    put_number(&call, severity, 1);
    put_string(&call, cause);
    put_number(&call, ALARM_OBJECT_INTERFACE, 1);
    put_string(&call, "line");
    put_string(&call, part);
    put_number(&call, 0, 3); /* no tenant, no slice, no region */
    put_string(&call, "no text can light a lamp");
    put_number(&call, 0, 1); /* no details */
    perform(&call);
}

static void acknowledge(uint64_t seconds, const char *part)
{
    struct call call = begun(ALARM_OP_ACKNOWLEDGE, seconds);
    put_string(&call, part);
    put_number(&call, 1, 1); /* authorised */
    perform(&call);
}

static void suppress_until(uint64_t seconds, uint64_t end, const char *part)
{
    struct call call = begun(ALARM_OP_SUPPRESS_UNTIL, seconds);
    put_number(&call, end * 1000000000u, 8);
    put_string(&call, part);
    put_string(&call, "rope-crew");
    put_number(&call, 0, 1); /* no tenant */
    put_string(&call, "sheaves greased");
    put_number(&call, ALARM_SCOPE_GLOBAL, 1);
    put_number(&call, 0, 1); /* no correlation */
    put_number(&call, 0, 1); /* critical alarms are not allowed */
    put_number(&call, 1, 1); /* authorised */
    put_string(&call, "");
    perform(&call);
}

/* The lamps from critical down: # is lit, o is flagged and held back by the mask, . is not flagged. */
static void show(const char *what)
{
    char lamps[SEVERITIES + 1];
    int s;
    for (s = 0; s < SEVERITIES; s++) {
        int flagged = block[ALARM_PANEL_FLAGS] >> s & 1, through = block[ALARM_PANEL_MASK] >> s & 1;
        lamps[SEVERITIES - 1 - s] = flagged ? through ? '#' : 'o' : '.';
    }
    lamps[SEVERITIES] = '\0';
    printf("%s: [%s] %s, waiting: %s, %lu active\n", what, lamps, block[ALARM_PANEL_LIT] ? "lit" : "dark",
           block[ALARM_PANEL_WAITING] ? NAMES[block[ALARM_PANEL_WAITING] - 1] : "none",
           (unsigned long)alarm_panel_active(block));
}

static void look(const char *what)
{
    uint64_t length = 1; /* becomes 0: a panel has no answer slice */
    if (alarm_panel_look(reg, sizeof reg, block, sizeof block, &length) == 0 && length == 0)
        show(what);
}

static void write_byte(const char *what, uint32_t at, uint8_t value)
{
    uint64_t length = 1;
    if (alarm_panel_write(reg, sizeof reg, block, sizeof block, at, value, &length) == 0 && length == 0)
        show(what);
}

/* Two alarms come, and people deal with them. */
static void rounds(uint64_t seconds)
{
    struct call lift;
    raise_alarm(seconds, "sheaves", ALARM_SEVERITY_MINOR, "other:ropeway.sheave-wear");
    raise_alarm(seconds + 1, "drive", ALARM_SEVERITY_CRITICAL, "other:ropeway.drive-trip");
    look("two alarms");
    acknowledge(seconds + 60, "drive");
    look("the trip is acknowledged");
    suppress_until(seconds + 120, seconds + 3720, "sheaves");
    look("the sheaves are suppressed");
    lift = begun(ALARM_OP_LIFT, seconds + 3780);
    perform(&lift);
    look("the job is over");
}

int main(void)
{
    uint64_t length;
    uint32_t number = alarm_open(reg, sizeof reg, ACTIVE, HISTORY, AUDIT, &length);
    printf("opened: %u\n", (unsigned)number);
    write_byte("a fresh register, every severity let through", ALARM_PANEL_MASK, ALARM_PANEL_MASK_ALL);
    rounds(1773483462u);

    write_byte("major and critical alone", ALARM_PANEL_MASK, 1u << ALARM_SEVERITY_MAJOR | 1u << ALARM_SEVERITY_CRITICAL);
    write_byte("a write to the lit byte", ALARM_PANEL_LIT, 1);
    write_byte("a write behind the block", ALARM_PANEL_WIDTH, 1);
    write_byte("a mask with bits 6 and 7", ALARM_PANEL_MASK, 255);
    printf("the mask is %u\n", (unsigned)block[ALARM_PANEL_MASK]);

    number = alarm_panel_look(reg, sizeof reg, block, sizeof block - 1, &length);
    printf("a block of seven bytes: %s\n", number == ALARM_REFUSED_ANSWER_LENGTH ? "refused with 30" : "taken");
    number = alarm_panel_look(reg, sizeof reg - 1, block, sizeof block, &length);
    printf("a register that is cut off: %s\n", number == ALARM_REFUSED_UNSOUND ? "refused with 22" : "taken");
    show("the block stays");
    return 0;
}
