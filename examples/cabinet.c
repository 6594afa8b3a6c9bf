/*
 * A cabinet's program in C: opens a register, raises an alarm twice, suppresses it until a time and lifts that, asks for
 * the summary, and is refused once.
 *
 *     gcc -Iinclude examples/cabinet.c target/staticlib/libstation.a -o cabinet
 */
#include <stdio.h>
#include <string.h>

#include "alarm_register.h"

enum { ACTIVE = 4, HISTORY = 8, AUDIT = 2 };

static uint8_t reg[ALARM_REGISTER_LENGTH(ACTIVE, HISTORY, AUDIT)];
static uint8_t answer[ALARM_ANSWER_ROOM];

/* A call that is being written: its bytes, and how many there are. */
struct call {
    uint8_t bytes[2048];
    size_t length;
};

static void put_number(struct call *call, uint64_t number, size_t width)
{
    size_t i;
    for (i = 0; i < width; i++)
        call->bytes[call->length++] = (uint8_t)(number >> (8 * (width - 1 - i)));
}

static void put_string(struct call *call, const char *string)
{
    put_number(call, strlen(string), 4);
    memcpy(call->bytes + call->length, string, strlen(string));
    call->length += strlen(string);
}

static uint64_t number_at(const uint8_t *bytes, size_t width)
{
    uint64_t number = 0;
    while (width-- > 0)
        number = number << 8 | *bytes++;
    return number;
}

/* A raise of the drive's trip with the given cause, at a time in seconds from 1970. */
static void put_trip(struct call *call, uint64_t seconds, const char *cause)
{
    call->length = 0;
    put_number(call, ALARM_OP_RAISE, 1);
    put_number(call, seconds * 1000000000u, 8);
    put_string(call, "A-1");
    put_string(call, "drive.trip");
    put_number(call, ALARM_SEVERITY_CRITICAL, 1);
    put_string(call, cause);
    put_number(call, ALARM_OBJECT_INTERFACE, 1);
    put_string(call, "drive");
    put_string(call, "converter");
    put_number(call, 0, 3); /* no tenant, no slice, no region */
    put_string(call, "overcurrent");
    put_number(call, 0, 1); /* no details */
}

/* A suppression of the trip from one time until another, both in seconds from 1970. */
static void put_suppression(struct call *call, uint64_t seconds, uint64_t end)
{
    call->length = 0;
    put_number(call, ALARM_OP_SUPPRESS_UNTIL, 1);
    put_number(call, seconds * 1000000000u, 8);
    put_number(call, end * 1000000000u, 8);
    put_string(call, "A-1");
    put_string(call, "rope-crew");
    put_number(call, 0, 1); /* no tenant */
    put_string(call, "converter replaced");
    put_number(call, ALARM_SCOPE_GLOBAL, 1);
    put_number(call, 0, 1); /* no correlation */
    put_number(call, 1, 1); /* critical alarms are allowed */
    put_number(call, 1, 1); /* authorised */
    put_string(call, "");
}

/* Suppresses the trip for a job of an hour, and lifts what has ended a minute behind its end. */
static void job(uint64_t seconds)
{
    struct call call;
    uint64_t length;
    int64_t end = 0;
    uint32_t number;
    put_suppression(&call, seconds, seconds + 3600);
    number = alarm_step(reg, sizeof reg, call.bytes, call.length, answer, sizeof answer, &length);
    if (alarm_record_end(answer + ALARM_HEAD_WIDTH, &end))
        printf("suppressed: %u, until second %lu\n", (unsigned)number, (unsigned long)(end / 1000000000));

    call.length = 0;
    put_number(&call, ALARM_OP_LIFT, 1);
    put_number(&call, (seconds + 3660) * 1000000000u, 8);
    number = alarm_step(reg, sizeof reg, call.bytes, call.length, answer, sizeof answer, &length);
    printf("lifted: %u, %u alarm\n", (unsigned)number, (unsigned)number_at(answer + ALARM_HEAD_NUMBER, 8));
}

int main(void)
{
    struct call call;
    uint64_t length;
    uint32_t number = alarm_open(reg, sizeof reg, ACTIVE, HISTORY, AUDIT, &length);
    printf("opened: %u\n", (unsigned)number);

    put_trip(&call, 1773483462u, "other:ropeway.drive-trip");
    number = alarm_step(reg, sizeof reg, call.bytes, call.length, answer, sizeof answer, &length);
    printf("raise: %u, code %u, %u bytes, severity %u\n", (unsigned)number, (unsigned)answer[ALARM_HEAD_CODE], (unsigned)length,
           (unsigned)answer[ALARM_HEAD_WIDTH + ALARM_RECORD_SEVERITY]);

    put_trip(&call, 1773483463u, "other:ropeway.drive-trip");
    number = alarm_step(reg, sizeof reg, call.bytes, call.length, answer, sizeof answer, &length);
    printf("again: %u, code %u, raised %lu times\n", (unsigned)number, (unsigned)answer[ALARM_HEAD_CODE],
           (unsigned long)alarm_record_raises(answer + ALARM_HEAD_WIDTH));

    job(1773486000u);

    put_trip(&call, 1773483464u, "drive tripped");
    number = alarm_step(reg, sizeof reg, call.bytes, call.length, answer, sizeof answer, &length);
    printf("a cause that is none: %s\n", number == ALARM_REFUSED_CAUSE ? "refused with 28" : "taken");

    call.bytes[0] = ALARM_OP_SUMMARY;
    number = alarm_step(reg, sizeof reg, call.bytes, 1, answer, sizeof answer, &length);
    printf("summary: %u, %u active, worst severity %u, readiness %u\n", (unsigned)number,
           (unsigned)number_at(answer + ALARM_HEAD_NUMBER, 8), (unsigned)answer[ALARM_HEAD_WIDTH],
           (unsigned)answer[ALARM_HEAD_WIDTH + 1]);
    printf("the header counts %u active\n", (unsigned)number_at(reg + ALARM_HEADER_ACTIVE_LENGTH, 4));
    return 0;
}
