/*
 * The station alarm register: its four functions, the numbers that calls, answers, registers and panel blocks are made of,
 * and readers of an alarm's raises, of the end of its suppression and of a panel block's active length.
 *
 * Everything is bytes that the caller lends. A register is 1,536 bytes for each record; a call goes in as bytes, an
 * answer comes out as bytes. Numbers in them are unsigned and big-endian; a time is a signed count of nanoseconds from
 * 1970 UTC in 8 bytes. The library allocates nothing, keeps nothing between calls, reads no clock and calls nothing
 * back. Two calls on one register must not run at the same time; calls on different registers may. The panel functions only
 * read a register: these may run beside one another, each on a block of its own, but not beside the other two.
 *
 * A call needs 16 KiB (16,384 bytes) of stack, beside what the thread itself takes. It uses memcpy and memset of the C
 * library: where the dynamic linker binds these only at their first call (lazily, without -z now), that call needs some
 * 3 KiB more.
 *
 * docs/LAYOUT.md explains each byte of a register. Link with libstation.a, which `make lib` puts into target/staticlib.
 */
#ifndef ALARM_REGISTER_H
#define ALARM_REGISTER_H

#include <stddef.h>
#include <stdint.h>

#ifdef __cplusplus
extern "C" {
#endif

/*
 * Makes a fresh register in reg[0..reg_len] with room for `active` active alarms, `history` entries of history and
 * `audit` audit events. reg_len must be ALARM_REGISTER_LENGTH(active, history, audit).
 *
 * Returns 0, or ALARM_REFUSED_LIMITS or ALARM_REFUSED_REGISTER_LENGTH (20, 21), and no other number; on a refusal reg is
 * as it was. *length becomes 0.
 *
 * No pointer may be null, even where its length is 0, and the parts must not overlap.
 */
uint32_t alarm_open(uint8_t *reg, size_t reg_len, uint32_t active, uint32_t history, uint32_t audit,
                    uint64_t *length);

/*
 * Performs one call on a register, and writes the answer to answer[0..*length]. The bytes behind it stay as they were.
 *
 * Returns 0, or one of ALARM_REFUSED_UNSOUND to ALARM_REFUSED_END (22 to 31, 33 and 34), and no other number; on a
 * refusal *length is 0, and reg and answer are as they were. An answer such as ALARM_CODE_UNAUTHORIZED is no refusal: the
 * result is 0, and the answer's first byte tells.
 *
 * That each function returns its numbers alone is proved (theorems `numbers` and, of the panel's, `panel_numbers`;
 * docs/NUMBERS.md): a host that handles the refusals listed below handles all there are.
 *
 * An answer slice of ALARM_ANSWER_ROOM is enough for operations 1 to 7, 11, 13 and 14, and needed for them. A list of n
 * records needs ALARM_LIST_ROOM(n); no answer needs more than ALARM_LIST_ROOM of the largest of the three limits.
 *
 * No pointer may be null, even where its length is 0, and the parts must not overlap.
 */
uint32_t alarm_step(uint8_t *reg, size_t reg_len, const uint8_t *call, size_t call_len, uint8_t *answer,
                    size_t answer_len, uint64_t *length);

/*
 * Makes a panel block anew: the eight bytes that the desk's lamp card reads (ALARM_PANEL_FLAGS and below). All of them come
 * from the register but the mask, which is the block's own and stays, its bits 6 and 7 taken away. Nothing else brings a
 * block up to date: look whenever the card asks, or behind each call that may have changed an alarm.
 *
 * The register is only read, and may lie in read-only memory; as by alarm_step, the whole of it is checked. No text can
 * light a lamp: sound registers that differ only in texts and details give equal blocks from equal blocks and equal calls.
 *
 * Returns 0, or ALARM_REFUSED_UNSOUND, or ALARM_REFUSED_ANSWER_LENGTH where block_len is not ALARM_PANEL_WIDTH (22, 30),
 * and no other number; on a refusal block is as it was, bits 6 and 7 of its mask too. *length becomes 0 in any case, as
 * there is no answer slice.
 *
 * No pointer may be null, even where its length is 0, and the parts must not overlap. Nothing else may read or write the
 * block meanwhile: a card that reads at any time is best given a copy.
 */
uint32_t alarm_panel_look(const uint8_t *reg, size_t reg_len, uint8_t *block, size_t block_len, uint64_t *length);

/*
 * Writes one byte of a panel block, as a card asks for it, and makes the block anew as alarm_panel_look does. At
 * ALARM_PANEL_MASK the mask becomes `value`, its bits 6 and 7 taken away, and the block is made with it. A write to any
 * other byte, also to one behind the block, is a look: `value` is not used, and that is no refusal.
 *
 * Returns 0, 22 or 30 as alarm_panel_look does, and asks the same of its pointers; on a refusal block is as it was.
 */
uint32_t alarm_panel_write(const uint8_t *reg, size_t reg_len, uint8_t *block, size_t block_len, uint32_t at,
                           uint8_t value, uint64_t *length);

/* Widths and rooms, in bytes. */
#define ALARM_RECORD_WIDTH                     1536u  /* one record, the header included */
#define ALARM_HEAD_WIDTH                       16u  /* the head of an answer */
#define ALARM_ANSWER_ROOM                      1552u  /* a head and one record */
#define ALARM_LIMIT_MAX                        65535u  /* each of the three limits is 1 to this */
#define ALARM_REGISTER_LENGTH(active, history, audit) \
    ((size_t)ALARM_RECORD_WIDTH * ((size_t)1 + (size_t)(active) + (size_t)(history) + (size_t)(audit)))
#define ALARM_LIST_ROOM(records) \
    ((size_t)ALARM_HEAD_WIDTH + (size_t)ALARM_RECORD_WIDTH * (size_t)(records))

/*
 * Refusals: what alarm_open (20, 21), alarm_step (22 to 31, 33 and 34), alarm_panel_look and alarm_panel_write (22, 30)
 * return besides 0. Checks go in the order of 20 to 31, and the first fault wins; a call is read field by field, and of 23
 * to 29 and 33 the one that is met first is returned: 33 at a raise's text, directly after 26 and 27 for it, and so before
 * 24 to 26 for the details behind it. 34 comes behind all of these, bytes left over (24) among them, and before 30.
 */
#define ALARM_REFUSED_LIMITS                   20u  /* opening: a limit is 0 or above 65,535 */
#define ALARM_REFUSED_REGISTER_LENGTH          21u  /* opening: reg_len is not that of the limits */
#define ALARM_REFUSED_UNSOUND                  22u  /* the bytes are not a sound register: calls, panel */
#define ALARM_REFUSED_OPERATION                23u  /* the call is empty, or its operation not 1 to 14 */
#define ALARM_REFUSED_CALL_LENGTH              24u  /* the call ends early, or has bytes left over */
#define ALARM_REFUSED_VALUE                    25u  /* a byte of the call is outside its values */
#define ALARM_REFUSED_TOO_LONG                 26u  /* a string of the call is longer than its limit */
#define ALARM_REFUSED_UTF8                     27u  /* a string of the call is not UTF-8 */
#define ALARM_REFUSED_CAUSE                    28u  /* the cause is not one of the names, nor other:a.b */
#define ALARM_REFUSED_REGION                   29u  /* a raise with a region that is present and empty */
#define ALARM_REFUSED_ANSWER_LENGTH            30u  /* answer_len is too short for the answer; panel: block_len not 8 */
#define ALARM_REFUSED_ID_ACTIVE                31u  /* a raise would store an id that is active */
#define ALARM_REFUSED_CODE_POINTS              33u  /* a raise's text has more than 120 code points */
#define ALARM_REFUSED_END                      34u  /* a suppression's end is not later than the call's time */

/* Operations: a call's first byte. The fields that follow are in docs/CALLS.md. */
#define ALARM_OP_RAISE                         1u
#define ALARM_OP_CLEAR                         2u
#define ALARM_OP_ACKNOWLEDGE                   3u
#define ALARM_OP_SUPPRESS                      4u
#define ALARM_OP_ACKNOWLEDGE_WITH_POLICY       5u
#define ALARM_OP_SUPPRESS_WITH_POLICY          6u
#define ALARM_OP_EXPIRE                        7u
#define ALARM_OP_ACTIVE_LIST                   8u
#define ALARM_OP_HISTORY                       9u
#define ALARM_OP_COUNTS                        10u
#define ALARM_OP_SUMMARY                       11u
#define ALARM_OP_TAKE_AUDIT                    12u
#define ALARM_OP_SUPPRESS_UNTIL                13u  /* suppress with policy, with an end directly behind the time */
#define ALARM_OP_LIFT                          14u  /* suppressions whose end is not after the cutoff */

/* The head of an answer: code, three zeros, a u32 count of items, a u64 number. */
#define ALARM_HEAD_CODE                        0u
#define ALARM_HEAD_COUNT                       4u
#define ALARM_HEAD_NUMBER                      8u

/* Codes: an answer's first byte, with what follows the head. A string has a u32 length before its bytes. */
#define ALARM_CODE_RAISED                      1u  /* the new alarm's record */
#define ALARM_CODE_UPDATED                     2u  /* the alarm's record */
#define ALARM_CODE_CLEARED                     3u  /* the alarm's id, a string */
#define ALARM_CODE_CLEAR_WITHOUT_ACTIVE        4u  /* 32 digits of the key; the cause, a string */
#define ALARM_CODE_ACTIVE_LIMIT_EXCEEDED       5u  /* 32 digits of the key; number: the limit */
#define ALARM_CODE_SUPPRESSED                  6u  /* the alarm's record */
#define ALARM_CODE_ACKNOWLEDGED                7u  /* the alarm's record */
#define ALARM_CODE_UNAUTHORIZED                8u  /* a message, a string */
#define ALARM_CODE_AUDIT_FAILED                9u  /* a message, a string */
#define ALARM_CODE_NOT_FOUND                   10u  /* the call's id, a string */
#define ALARM_CODE_REPORT                      11u  /* operations 7 to 12 and 14, see below */
/*
 * ALARM_CODE_REPORT, by operation. 7: number is how many expired, no body. 8, 9, 12: count records. 10: count entries of
 * severity byte, u32 alarms, cause string. 11: number is the active length, with suppressed alarms; the body is, of the
 * active alarms that are not suppressed, the worst severity or ALARM_SEVERITY_NONE and the worst readiness, and then the
 * two u64 counters of audit events stored and lost. 14: number is how many were lifted, no body.
 */

/* Severities. */
#define ALARM_SEVERITY_CLEARED                 0u
#define ALARM_SEVERITY_INDETERMINATE           1u
#define ALARM_SEVERITY_WARNING                 2u
#define ALARM_SEVERITY_MINOR                   3u
#define ALARM_SEVERITY_MAJOR                   4u
#define ALARM_SEVERITY_CRITICAL                5u
#define ALARM_SEVERITY_ALL                     255u  /* in an active list: every severity */
#define ALARM_SEVERITY_NONE                    255u  /* in a summary: no active alarm, or all suppressed */

/* Readiness, in a summary. */
#define ALARM_READINESS_NO_IMPACT              0u
#define ALARM_READINESS_DEGRADED               1u
#define ALARM_READINESS_NOT_READY              2u

/* States of an alarm: 0 to 3 are active, 4 and 5 stand in history only. */
#define ALARM_STATE_RAISED                     0u
#define ALARM_STATE_UPDATED                    1u  /* raised again, or lifted from a suppression */
#define ALARM_STATE_ACKNOWLEDGED               2u
#define ALARM_STATE_SUPPRESSED                 3u
#define ALARM_STATE_CLEARED                    4u
#define ALARM_STATE_EXPIRED                    5u

/* Kinds of affected objects, with their strings in order. */
#define ALARM_OBJECT_NF_INSTANCE               1u  /* kind, instance */
#define ALARM_OBJECT_INTERFACE                 2u  /* nf, name */
#define ALARM_OBJECT_PEER                      3u  /* nf, peer */
#define ALARM_OBJECT_SESSION_STORE             4u  /* nf, optional shard */
#define ALARM_OBJECT_SLICE                     5u  /* S-NSSAI */
#define ALARM_OBJECT_TENANT                    6u  /* tenant */
#define ALARM_OBJECT_CERTIFICATE               7u  /* key id */
#define ALARM_OBJECT_DATA_PLANE_QUEUE          8u  /* nf, interface, then a u16 queue */

/* Scopes of a call with policy. */
#define ALARM_SCOPE_ALARM                      0u  /* with an id */
#define ALARM_SCOPE_TENANT                     1u  /* with a tenant */
#define ALARM_SCOPE_GLOBAL                     2u  /* with nothing */

/* Actions and outcomes of audit events. */
#define ALARM_ACTION_ACKNOWLEDGE               0u
#define ALARM_ACTION_SUPPRESS                  1u
#define ALARM_OUTCOME_AUTHORISED               0u
#define ALARM_OUTCOME_DENIED                   1u

/* Longest strings of a call and a record, in bytes. */
#define ALARM_LONGEST_ID                       64u
#define ALARM_LONGEST_TYPE                     64u
#define ALARM_LONGEST_OBJECT_STRING            64u  /* each */
#define ALARM_LONGEST_TENANT                   64u
#define ALARM_LONGEST_SLICE                    64u
#define ALARM_LONGEST_PRINCIPAL                64u
#define ALARM_LONGEST_CORRELATION              64u
#define ALARM_LONGEST_SCOPE_STRING             64u
#define ALARM_LONGEST_CAUSE                    96u
#define ALARM_LONGEST_REGION                   128u
#define ALARM_LONGEST_DENIAL                   128u
#define ALARM_LONGEST_TEXT                     256u
#define ALARM_LONGEST_REASON                   256u
#define ALARM_LONGEST_DETAILS                  512u  /* any bytes; all others are UTF-8 */

/*
 * The most code points of a raise's text, beside its 256 bytes: in UTF-8, how many of its bytes are not 0x80 to 0xbf. The
 * text of a record may have more, if it was stored before they were counted.
 */
#define ALARM_TEXT_CODE_POINTS                 120u

/*
 * Offsets in a register's first record, the header. Limits, heads and lengths are u32, the counters u64.
 */
#define ALARM_HEADER_A                         0u
#define ALARM_HEADER_H                         4u
#define ALARM_HEADER_E                         8u
#define ALARM_HEADER_ACTIVE_HEAD               12u
#define ALARM_HEADER_ACTIVE_LENGTH             16u
#define ALARM_HEADER_HISTORY_HEAD              20u
#define ALARM_HEADER_HISTORY_LENGTH            24u
#define ALARM_HEADER_AUDIT_HEAD                28u
#define ALARM_HEADER_AUDIT_LENGTH              32u
#define ALARM_HEADER_FREE_HEAD                 36u
#define ALARM_HEADER_FREE_LENGTH               40u
#define ALARM_HEADER_SUCCESSES                 44u
#define ALARM_HEADER_FAILURES                  52u

/*
 * Offsets in a record that holds an alarm, in a register or an answer. Bytes 0 to 3 are the next index, zero in an
 * answer. A length is a u16 before the string's room; a byte PRESENT is 0 or 1; times are 8 bytes, the key 16. RAISES is
 * a u32: alarm_record_raises reads it. END is the time until which an alarm is suppressed: alarm_record_end reads it.
 */
#define ALARM_RECORD_KEY                       4u
#define ALARM_RECORD_SEVERITY                  20u
#define ALARM_RECORD_STATE                     21u
#define ALARM_RECORD_RAISED_AT                 22u
#define ALARM_RECORD_UPDATED_AT                30u
#define ALARM_RECORD_CLEARED_AT_PRESENT        38u
#define ALARM_RECORD_CLEARED_AT                39u
#define ALARM_RECORD_ID_LENGTH                 47u
#define ALARM_RECORD_ID                        49u
#define ALARM_RECORD_TYPE_LENGTH               113u
#define ALARM_RECORD_TYPE                      115u
#define ALARM_RECORD_CAUSE_LENGTH              179u
#define ALARM_RECORD_CAUSE                     181u
#define ALARM_RECORD_OBJECT_KIND               277u
#define ALARM_RECORD_OBJECT_STRING_0_LENGTH    278u
#define ALARM_RECORD_OBJECT_STRING_0           280u
#define ALARM_RECORD_OBJECT_SHARD_PRESENT      344u
#define ALARM_RECORD_OBJECT_STRING_1_LENGTH    345u
#define ALARM_RECORD_OBJECT_STRING_1           347u
#define ALARM_RECORD_OBJECT_QUEUE              411u
#define ALARM_RECORD_TENANT_PRESENT            413u
#define ALARM_RECORD_TENANT_LENGTH             414u
#define ALARM_RECORD_TENANT                    416u
#define ALARM_RECORD_SLICE_PRESENT             480u
#define ALARM_RECORD_SLICE_LENGTH              481u
#define ALARM_RECORD_SLICE                     483u
#define ALARM_RECORD_REGION_PRESENT            547u
#define ALARM_RECORD_REGION_LENGTH             548u
#define ALARM_RECORD_REGION                    550u
#define ALARM_RECORD_TEXT_LENGTH               678u
#define ALARM_RECORD_TEXT                      680u
#define ALARM_RECORD_DETAILS_PRESENT           936u
#define ALARM_RECORD_DETAILS_LENGTH            937u
#define ALARM_RECORD_DETAILS                   939u
#define ALARM_RECORD_RAISES                    1451u
#define ALARM_RECORD_END_PRESENT               1455u
#define ALARM_RECORD_END                       1456u

/* Offsets in a record that holds an audit event. */
#define ALARM_EVENT_ACTION                     4u
#define ALARM_EVENT_OUTCOME                    5u
#define ALARM_EVENT_OCCURRED_AT                6u
#define ALARM_EVENT_ID_LENGTH                  14u
#define ALARM_EVENT_ID                         16u
#define ALARM_EVENT_TYPE_LENGTH                80u
#define ALARM_EVENT_TYPE                       82u
#define ALARM_EVENT_CAUSE_LENGTH               146u
#define ALARM_EVENT_CAUSE                      148u
#define ALARM_EVENT_PRINCIPAL_LENGTH           244u
#define ALARM_EVENT_PRINCIPAL                  246u
#define ALARM_EVENT_TENANT_PRESENT             310u
#define ALARM_EVENT_TENANT_LENGTH              311u
#define ALARM_EVENT_TENANT                     313u
#define ALARM_EVENT_REASON_LENGTH              377u
#define ALARM_EVENT_REASON                     379u
#define ALARM_EVENT_SCOPE_KIND                 635u
#define ALARM_EVENT_SCOPE_STRING_LENGTH        636u
#define ALARM_EVENT_SCOPE_STRING               638u
#define ALARM_EVENT_CORRELATION_PRESENT        702u
#define ALARM_EVENT_CORRELATION_LENGTH         703u
#define ALARM_EVENT_CORRELATION                705u

/*
 * Offsets in a panel block. FLAGS has bit s, 1u << s, where an active alarm of severity s is raised or updated, whatever
 * the mask; acknowledged and suppressed alarms set none. MASK has the same bits: a bit that is 1 lets its severity through,
 * and what is set in both is waiting. WAITING is one more than the highest waiting severity, so that 1 means
 * ALARM_SEVERITY_CLEARED, or 0 if nothing is waiting. LIT is 1 if WAITING is not 0, else 0. ACTIVE is how many alarms are
 * active, acknowledged and suppressed ones among them, a u32: alarm_panel_active reads it.
 */
#define ALARM_PANEL_FLAGS                      0u
#define ALARM_PANEL_MASK                       1u
#define ALARM_PANEL_WAITING                    2u
#define ALARM_PANEL_LIT                        3u
#define ALARM_PANEL_ACTIVE                     4u
#define ALARM_PANEL_WIDTH                      8u  /* of the whole block, in bytes */
#define ALARM_PANEL_MASK_ALL                   63u  /* a mask that lets every severity through; 0 lets none */

/*
 * How often an alarm was raised: 1 when it was raised, and one more at each raise since then that was folded into it
 * (ALARM_CODE_UPDATED). It is held at the largest number, 4,294,967,295. What else happens to an alarm leaves it as it is;
 * an alarm that has ended and is raised anew has 1 again. An entry of history has the number as of its change: those of one
 * alarm are not to be added up. 0 means a record from before raises were counted: they are counted from its next raise on.
 *
 * record[0..ALARM_RECORD_WIDTH] is the record of an alarm, active or in history, in a register or in an answer behind its
 * head.
 */
static inline uint32_t alarm_record_raises(const uint8_t *record)
{
    const uint8_t *raises = record + ALARM_RECORD_RAISES;
    return (uint32_t)raises[0] << 24 | (uint32_t)raises[1] << 16 | (uint32_t)raises[2] << 8 | (uint32_t)raises[3];
}

/*
 * Whether an alarm is suppressed until a time (ALARM_OP_SUPPRESS_UNTIL): 1, and *end is that time; or 0, and *end stays as
 * it was. Only a record in ALARM_STATE_SUPPRESSED has an end. Nothing happens at the end by itself: the alarm stays
 * suppressed until an ALARM_OP_LIFT with that cutoff or a later one. A raise keeps the end; an acknowledgement, another
 * suppression, a clear and an expiry remove it. An entry of history has the end as of its change.
 *
 * The record is as for alarm_record_raises.
 */
static inline int alarm_record_end(const uint8_t *record, int64_t *end)
{
    uint64_t time = 0;
    size_t i;
    if (record[ALARM_RECORD_END_PRESENT] == 0)
        return 0;
    for (i = 0; i < 8; i++)
        time = time << 8 | record[ALARM_RECORD_END + i];
    /* a u64 above the largest i64 is converted as each compiler likes, and so not directly */
    *end = time <= INT64_MAX ? (int64_t)time : -(int64_t)(UINT64_MAX - time) - 1;
    return 1;
}

/* How many alarms are active, by a panel block, block[0..ALARM_PANEL_WIDTH]. */
static inline uint32_t alarm_panel_active(const uint8_t *block)
{
    const uint8_t *active = block + ALARM_PANEL_ACTIVE;
    return (uint32_t)active[0] << 24 | (uint32_t)active[1] << 16 | (uint32_t)active[2] << 8 | (uint32_t)active[3];
}

#ifdef __cplusplus
}
#endif

#endif
