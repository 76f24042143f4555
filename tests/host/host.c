/* The host's functions on plans and reports whose answers docs/RULES.md gives, or the second program (bounds at late steps, tight), called on a thread of
   KEZHUVANAM_STACK bytes. Every expected number is written out here by hand. tests/host/run --stack: how much stack a call takes on one byte, on
   these plans and on one with the longest paths and long busy lengths. */
#define _POSIX_C_SOURCE 200809L
#include <pthread.h>
#include <stddef.h>
#include <stdint.h>
#include <stdio.h>

#include "kezhuvanam.h"

#define TWO(x) (x) / 256, (x) % 256
#define LINKS(least, most) 0x01, TWO(least), TWO(most)
#define FLOW(number, priority, period, jitter, deadline, length) \
    0x02, number, priority, TWO(period), TWO(jitter), TWO(deadline), length
#define NODES(a, b, c) a, b, c, 0, 0, 0, 0, 0
#define COSTS(a, b, c) TWO(a), TWO(b), TWO(c), 0, 0, 0, 0, 0, 0, 0, 0, 0, 0
#define END 0x7F

/* A flow on node 1 alone. */
#define ALONE(number, priority, period, jitter, deadline, cost) \
    FLOW(number, priority, period, jitter, deadline, 1), NODES(1, 0, 0), COSTS(cost, 0, 0)
#define SMALL(number) ALONE(number, 0, 1000, 0, 1000, 1)
#define SIXTEEN                                                                                             \
    SMALL(1), SMALL(2), SMALL(3), SMALL(4), SMALL(5), SMALL(6), SMALL(7), SMALL(8), SMALL(9), SMALL(10), \
        SMALL(11), SMALL(12), SMALL(13), SMALL(14), SMALL(15), SMALL(16)

typedef const uint8_t plan[];

/* RULES, cases, by their numbers there. */
static plan case1 = {LINKS(1, 1), END};
static plan case2 = {LINKS(1, 1), FLOW(1, 1, 20, 0, 60, 2), NODES(1, 2, 0), COSTS(4, 4, 0), END};
static plan case3 = {LINKS(1, 1), ALONE(1, 1, 10, 0, 60, 3), ALONE(2, 1, 20, 0, 60, 5), END};
static plan case4 = {LINKS(1, 1), ALONE(1, 1, 10, 0, 60, 3), ALONE(2, 0, 20, 0, 60, 5), END};
static plan case5 = {LINKS(1, 1), ALONE(1, 1, 10, 8, 60, 3), ALONE(2, 0, 20, 0, 60, 5), END};
static plan case6 = {LINKS(1, 1), ALONE(1, 1, 100, 10, 60, 1), ALONE(2, 1, 100, 0, 60, 50), END};
static plan case7 = {LINKS(1, 1), FLOW(1, 1, 20, 0, 60, 2), NODES(1, 2, 0), COSTS(4, 4, 0),
                     FLOW(2, 1, 20, 0, 60, 1), NODES(2, 0, 0), COSTS(3, 0, 0), END};
static plan case8 = {LINKS(1, 1), ALONE(1, 1, 10, 0, 60, 5), ALONE(2, 1, 10, 0, 60, 5), END};
static plan case9 = {LINKS(1, 1), ALONE(1, 1, 10, 0, 60, 6), ALONE(2, 1, 10, 0, 60, 5), END};
static plan case10 = {LINKS(1, 1), ALONE(1, 1, 10, 65534, 65535, 1), END};
static plan case10_9 = {LINKS(1, 1), ALONE(1, 1, 10, 65535, 65535, 1), END};
static plan case11 = {LINKS(1, 1), ALONE(1, 1, 10, 0, 60, 3), ALONE(2, 0, 20, 0, 8, 5), END};
static plan case11_10 = {LINKS(1, 1), ALONE(1, 1, 10, 0, 60, 3), ALONE(2, 0, 20, 0, 7, 5), END};
static plan case12_10 = {LINKS(1, 1), ALONE(1, 1, 10, 0, 7, 3), ALONE(2, 1, 20, 0, 60, 5), END};
static plan case13 = {LINKS(1, 1), FLOW(1, 0, 100, 0, 60, 3), NODES(1, 2, 3), COSTS(1, 1, 1),
                      FLOW(2, 1, 100, 0, 60, 2), NODES(1, 3, 0), COSTS(1, 1, 0), END};
static plan case13_7 = {LINKS(1, 1), FLOW(1, 1, 100, 0, 60, 3), NODES(1, 2, 3), COSTS(1, 1, 1),
                        FLOW(2, 1, 100, 0, 60, 2), NODES(1, 3, 0), COSTS(1, 1, 0), END};
static plan case14 = {LINKS(1, 1), ALONE(1, 1, 10, 0, 60, 3), END};

static plan last_number = {LINKS(1, 1), ALONE(255, 1, 10, 0, 60, 3), END};
static plan sixteen = {LINKS(1, 1), SIXTEEN, END};

/* RULES, refusals. The first flow's kind byte is at 5, the second's at 39, a seventeenth's at 549. */
static plan delays_exchanged = {LINKS(2, 1), END};
static plan number_0 = {LINKS(1, 1), ALONE(0, 1, 10, 0, 60, 3), END};
static plan period_0 = {LINKS(1, 1), ALONE(1, 1, 10, 0, 60, 3), ALONE(2, 1, 0, 0, 60, 5), END};
static plan node_twice = {LINKS(1, 1), FLOW(1, 1, 20, 0, 60, 2), NODES(1, 1, 0), COSTS(4, 4, 0), END};
static plan seventeen = {LINKS(1, 1), SIXTEEN, SMALL(17), END};
static plan no_links = {END};
static plan not_rising = {LINKS(1, 1), ALONE(2, 1, 10, 0, 60, 3), ALONE(2, 1, 20, 0, 60, 5), END};
static plan byte_after_end = {LINKS(1, 1), SIXTEEN, END, END};

/* Records before the set: a deadline that flow 1 cannot keep, in records that are all in order, and before one that is not. */
static plan late = {LINKS(1, 1), ALONE(1, 1, 10, 0, 2, 3), ALONE(2, 1, 20, 0, 60, 5), END};
static plan late_and_period_0 = {LINKS(1, 1), ALONE(1, 1, 10, 0, 2, 3), ALONE(2, 1, 0, 0, 60, 5), END};

/* Bounds at late steps: flow 1's is reached at t = 10 ticks, where flow 4's count steps up at node 1 alone. A reading that leaves this instant out gives
   18 for 20. With times a thousand times as long the instant is 10,000, of 35,000 to try; flows 2 and 3 then wait longer for what is below them. */
#define STEPS(tick, deadline)                                                                      \
    LINKS(0, 0), FLOW(1, 1, 5 * tick, tick, deadline, 3), NODES(1, 2, 3), COSTS(tick, tick, tick), \
        FLOW(2, 2, 5 * tick, 0, 60 * tick, 2), NODES(1, 3, 0), COSTS(2 * tick, tick, 0),           \
        FLOW(3, 2, 9 * tick, 0, 60 * tick, 1), NODES(2, 0, 0), COSTS(2 * tick, 0, 0),              \
        FLOW(4, 1, 6 * tick, 0, 60 * tick, 3), NODES(3, 2, 1), COSTS(tick, tick, tick), END
static plan steps = {STEPS(1, 20)};
static plan steps_10 = {STEPS(1, 19)};
static plan wide = {STEPS(1000, 20000)};
static plan wide_10 = {STEPS(1000, 19999)};

/* A busy length of 156 with as many packets: flows are looked at near a peak before all of it. */
#define TIGHT(deadline)                                                                  \
    LINKS(1, 1), FLOW(1, 0, 3, 0, deadline, 3), NODES(1, 2, 3), COSTS(1, 1, 1),          \
        FLOW(2, 0, 3, 0, 60, 3), NODES(3, 2, 1), COSTS(1, 1, 1), FLOW(3, 0, 4, 0, 60, 3), \
        NODES(2, 3, 1), COSTS(1, 1, 1), ALONE(4, 0, 13, 0, 60, 1), ALONE(5, 0, 157, 0, 60, 1), END
static plan tight = {TIGHT(35)};
static plan tight_10 = {TIGHT(34)};

/* RULES, the report. A line is number, bound, jitter, busy length. */
#define LINE(number, bound, jitter, busy) 0x11, number, TWO(bound), TWO(jitter), TWO(busy)
#define CLOSE 0x1F

static plan report1 = {0x10, 0, CLOSE};
static plan report2 = {0x10, 1, LINE(1, 9, 0, 4), CLOSE};
static plan report4 = {0x10, 2, LINE(1, 7, 4, 3), LINE(2, 8, 3, 8), CLOSE};
static plan report5 = {0x10, 2, LINE(1, 15, 12, 3), LINE(2, 11, 6, 8), CLOSE};
static plan report10 = {0x10, 1, LINE(1, 65535, 65534, 1), CLOSE};
static plan report255 = {0x10, 1, LINE(255, 3, 0, 3), CLOSE};

static plan report_steps = {0x10, 4, LINE(1, 20, 17, 35), LINE(2, 3, 0, 2), LINE(3, 2, 0, 2), LINE(4, 23, 20, 35), CLOSE};
static plan report_wide = {0x10, 4, LINE(1, 20000, 17000, 35000), LINE(2, 4998, 1998, 2000), LINE(3, 2999, 999, 2000),
                           LINE(4, 23000, 20000, 35000), CLOSE};

#define SMALL_LINE(number) LINE(number, 16, 15, 16)
static plan report16 = {0x10, 16, SMALL_LINE(1), SMALL_LINE(2), SMALL_LINE(3), SMALL_LINE(4), SMALL_LINE(5), SMALL_LINE(6), SMALL_LINE(7),
                        SMALL_LINE(8), SMALL_LINE(9), SMALL_LINE(10), SMALL_LINE(11), SMALL_LINE(12), SMALL_LINE(13), SMALL_LINE(14),
                        SMALL_LINE(15), SMALL_LINE(16), CLOSE};
static plan report16_more = {0x10, 16, SMALL_LINE(1), SMALL_LINE(2), SMALL_LINE(3), SMALL_LINE(4), SMALL_LINE(5), SMALL_LINE(6), SMALL_LINE(7),
                             SMALL_LINE(8), SMALL_LINE(9), SMALL_LINE(10), SMALL_LINE(11), SMALL_LINE(12), SMALL_LINE(13), SMALL_LINE(14),
                             SMALL_LINE(15), SMALL_LINE(16), CLOSE, CLOSE};

/* The first line's kind byte is at 2, the second's at 10. */
static plan bound_0 = {0x10, 2, LINE(1, 0, 0, 5), 0xFF};
static plan busy_0 = {0x10, 2, LINE(1, 7, 4, 3), LINE(2, 8, 3, 0), CLOSE};
static plan jitter_is_bound = {0x10, 1, LINE(1, 7, 7, 3), CLOSE};
static plan line_missing = {0x10, 1, CLOSE};
static plan line_too_many = {0x10, 1, LINE(1, 7, 4, 3), LINE(2, 8, 3, 8), CLOSE};
static plan count_17 = {0x10, 17, CLOSE};
static plan line_of_0 = {0x10, 1, LINE(0, 7, 4, 3), CLOSE};
static plan lines_not_rising = {0x10, 2, LINE(1, 7, 4, 3), LINE(1, 0, 0, 0), CLOSE};
static plan later_kind = {0x10, 2, LINE(1, 7, 4, 3), 0x12, 0, CLOSE};
static plan after_close = {0x10, 1, LINE(1, 7, 4, 3), CLOSE, 0};

#define WHOLE(p) p, sizeof(p)

/* RULES, host calls: number + 256 * flow + 65536 * place. */
static const struct {
    const char *name;
    const uint8_t *plan;
    size_t len;
    uint64_t code;
} judged[] = {
    {"case 1", WHOLE(case1), 0},
    {"case 2", WHOLE(case2), 0},
    {"case 3", WHOLE(case3), 0},
    {"case 4", WHOLE(case4), 0},
    {"case 5", WHOLE(case5), 0},
    {"case 6", WHOLE(case6), 0},
    {"case 7", WHOLE(case7), 0},
    {"case 8", WHOLE(case8), 0},
    {"case 9", WHOLE(case9), 8 + 256 * 1},
    {"case 10", WHOLE(case10), 0},
    {"case 10, J 65,535", WHOLE(case10_9), 9},
    {"case 11, D 8", WHOLE(case11), 0},
    {"case 11, D 7", WHOLE(case11_10), 10 + 256 * 2},
    {"case 12", WHOLE(case12_10), 10 + 256 * 1},
    {"case 13, second flow higher", WHOLE(case13), 0},
    {"case 13, equal priority", WHOLE(case13_7), 7 + 256 * 2},
    {"case 14", WHOLE(case14), 0},
    {"flow 255", WHOLE(last_number), 0},
    {"sixteen flows", WHOLE(sixteen), 0},
    {"late steps", WHOLE(steps), 0},
    {"late steps, D 19", WHOLE(steps_10), 10 + 256 * 1},
    {"late steps, wide", WHOLE(wide), 0},
    {"late steps, wide, D 19,999", WHOLE(wide_10), 10 + 256 * 1},
    {"tight", WHOLE(tight), 0},
    {"tight, D 34", WHOLE(tight_10), 10 + 256 * 1},
    {"Lmin > Lmax", WHOLE(delays_exchanged), 1},
    {"flow number 0", WHOLE(number_0), 2 + 65536 * 5},
    {"second flow's period 0", WHOLE(period_0), 3 + 65536 * 39},
    {"node twice", WHOLE(node_twice), 4 + 65536 * 5},
    {"seventeenth flow", WHOLE(seventeen), 6 + 65536 * 549},
    {"no link delays", WHOLE(no_links), 12},
    {"numbers not rising", WHOLE(not_rising), 12 + 65536 * 39},
    {"byte after the end", WHOLE(byte_after_end), 12 + 65536 * 550},
    {"late flow", WHOLE(late), 10 + 256 * 1},
    {"late flow, then a period 0", WHOLE(late_and_period_0), 3 + 65536 * 39},
    {"late flow, no end", late, sizeof(late) - 1, 12 + 65536 * 73},
    {"case 4 without its end", case4, 73, 12 + 65536 * 73},
    {"case 4, second body short", case4, 72, 12 + 65536 * 39},
    {"empty plan", NULL, 0, 12},
};

/* RULES, host calls: a flow's bound, or 0. */
static const struct {
    const char *name;
    const uint8_t *plan;
    size_t len;
    uint64_t number;
    uint64_t bound;
} bounded[] = {
    {"case 2", WHOLE(case2), 1, 9},
    {"case 3", WHOLE(case3), 1, 8},
    {"case 3", WHOLE(case3), 2, 8},
    {"case 4", WHOLE(case4), 1, 7},
    {"case 4", WHOLE(case4), 2, 8},
    {"case 5", WHOLE(case5), 1, 15},
    {"case 5", WHOLE(case5), 2, 11},
    {"case 6", WHOLE(case6), 1, 51},
    {"case 6", WHOLE(case6), 2, 51},
    {"case 7", WHOLE(case7), 1, 12},
    {"case 7", WHOLE(case7), 2, 7},
    {"case 8", WHOLE(case8), 1, 10},
    {"case 8", WHOLE(case8), 2, 10},
    {"case 10", WHOLE(case10), 1, 65535},
    {"case 14", WHOLE(case14), 1, 3},
    {"flow 255", WHOLE(last_number), 255, 3},
    {"sixteen flows", WHOLE(sixteen), 16, 16},
    {"late steps", WHOLE(steps), 1, 20},
    {"late steps", WHOLE(steps), 2, 3},
    {"late steps", WHOLE(steps), 3, 2},
    {"late steps", WHOLE(steps), 4, 23},
    {"late steps, wide", WHOLE(wide), 1, 20000},
    {"late steps, wide", WHOLE(wide), 4, 23000},
    {"tight", WHOLE(tight), 1, 35},
    {"tight", WHOLE(tight), 2, 35},
    {"tight", WHOLE(tight), 3, 30},
    {"tight", WHOLE(tight), 4, 15},
    {"tight", WHOLE(tight), 5, 15},

    /* No such flow. Cut to eight bits, 257 would be flow 1; so would 2^32 + 1, cut to 32. */
    {"case 1", WHOLE(case1), 1, 0},
    {"case 4", WHOLE(case4), 3, 0},
    {"case 4", WHOLE(case4), 255, 0},
    {"case 4", WHOLE(case4), 0, 0},
    {"case 4", WHOLE(case4), 256, 0},
    {"case 4", WHOLE(case4), 257, 0},
    {"case 4", WHOLE(case4), UINT64_C(4294967296), 0},
    {"case 4", WHOLE(case4), UINT64_C(4294967297), 0},
    {"case 4", WHOLE(case4), UINT64_MAX, 0},
    {"flow 255", WHOLE(last_number), 511, 0},

    /* Refused plans. */
    {"case 9", WHOLE(case9), 1, 0},
    {"case 10, J 65,535", WHOLE(case10_9), 1, 0},
    {"case 11, D 7", WHOLE(case11_10), 1, 0},
    {"case 11, D 7", WHOLE(case11_10), 2, 0},
    {"second flow's period 0", WHOLE(period_0), 1, 0},
    {"late flow", WHOLE(late), 2, 0},
    {"case 4 without its end", case4, 73, 1, 0},
    {"empty plan", NULL, 0, 0, 0},
    {"empty plan", NULL, 0, 1, 0},
};

/* RULES, host calls: 256 * length and the report, or the refusal and a buffer as it was. A buffer of room bytes is lent. */
static const struct {
    const char *name;
    const uint8_t *plan;
    size_t len;
    size_t room;
    uint64_t answer;
    const uint8_t *report;
} written[] = {
    {"case 1", WHOLE(case1), 131, 256 * 3, report1},
    {"case 1", WHOLE(case1), 3, 256 * 3, report1},
    {"case 1", WHOLE(case1), 2, 13, NULL},
    {"case 2", WHOLE(case2), 131, 256 * 11, report2},
    {"case 4", WHOLE(case4), 19, 256 * 19, report4},
    {"case 4", WHOLE(case4), 20, 256 * 19, report4},
    {"case 4", WHOLE(case4), 18, 13, NULL},
    {"case 4", WHOLE(case4), 0, 13, NULL},
    {"case 5", WHOLE(case5), 131, 256 * 19, report5},
    {"case 10", WHOLE(case10), 131, 256 * 11, report10},
    {"flow 255", WHOLE(last_number), 131, 256 * 11, report255},
    {"sixteen flows", WHOLE(sixteen), KEZHUVANAM_REPORT, 256 * 131, report16},
    {"sixteen flows", WHOLE(sixteen), 130, 13, NULL},
    {"late steps", WHOLE(steps), 131, 256 * 35, report_steps},
    {"late steps, wide", WHOLE(wide), 131, 256 * 35, report_wide},

    /* Refused plans: 13 comes last. */
    {"case 9", WHOLE(case9), 131, 8 + 256 * 1, NULL},
    {"case 11, D 7", WHOLE(case11_10), 0, 10 + 256 * 2, NULL},
    {"second flow's period 0", WHOLE(period_0), 131, 3 + 65536 * 39, NULL},
    {"empty plan", NULL, 0, 0, 12, NULL},
    {"a report for a plan", WHOLE(report4), 131, 12, NULL},
};

static const struct {
    const char *name;
    const uint8_t *report;
    size_t len;
    uint64_t code;
} checked[] = {
    {"case 1", WHOLE(report1), 0},
    {"case 2", WHOLE(report2), 0},
    {"case 4", WHOLE(report4), 0},
    {"case 10", WHOLE(report10), 0},
    {"sixteen flows", WHOLE(report16), 0},
    {"bound 0", WHOLE(bound_0), 3 + 65536 * 2},
    {"busy length 0", WHOLE(busy_0), 3 + 65536 * 10},
    {"jitter not below the bound", WHOLE(jitter_is_bound), 3 + 65536 * 2},
    {"a line missing", WHOLE(line_missing), 12 + 65536 * 2},
    {"a line too many", WHOLE(line_too_many), 12 + 65536 * 10},
    {"seventeen flows", WHOLE(count_17), 12},
    {"seventeen flows, no more", count_17, 2, 12},
    {"number 0", WHOLE(line_of_0), 12 + 65536 * 2},
    {"numbers not rising, figures 0", WHOLE(lines_not_rising), 12 + 65536 * 10},
    {"a kind of a later time", WHOLE(later_kind), 12 + 65536 * 10},
    {"byte after the end", WHOLE(after_close), 12 + 65536 * 11},
    {"byte after the longest", WHOLE(report16_more), 12 + 65536 * 131},
    {"case 4 without its end", report4, 18, 12 + 65536 * 18},
    {"case 4, second body short", report4, 17, 12 + 65536 * 10},
    {"case 4, count cut off", report4, 1, 12},
    {"a plan for a report", WHOLE(case4), 12},
    {"empty report", NULL, 0, 12},
};

/* RULES, host calls: a figure and 1, or 0. */
static const struct {
    const char *name;
    const uint8_t *report;
    size_t len;
    uint64_t number;
    uint64_t figure;
    uint64_t answer;
} figured[] = {
    {"case 5", WHOLE(report5), 1, KEZHUVANAM_BOUND, 16},
    {"case 5", WHOLE(report5), 1, KEZHUVANAM_JITTER, 13},
    {"case 5", WHOLE(report5), 1, KEZHUVANAM_BUSY, 4},
    {"case 5", WHOLE(report5), 2, KEZHUVANAM_BOUND, 12},
    {"case 5", WHOLE(report5), 2, KEZHUVANAM_JITTER, 7},
    {"case 5", WHOLE(report5), 2, KEZHUVANAM_BUSY, 9},
    {"case 2, a jitter of 0", WHOLE(report2), 1, KEZHUVANAM_JITTER, 1},
    {"case 10", WHOLE(report10), 1, KEZHUVANAM_BOUND, 65536},
    {"flow 255", WHOLE(report255), 255, KEZHUVANAM_BUSY, 4},
    {"sixteen flows", WHOLE(report16), 16, KEZHUVANAM_JITTER, 16},
    {"late steps, wide", WHOLE(report_wide), 4, KEZHUVANAM_BUSY, 35001},

    /* No such figure, no such flow, a refused report. */
    {"case 5", WHOLE(report5), 1, 0, 0},
    {"case 5", WHOLE(report5), 1, 4, 0},
    {"case 5", WHOLE(report5), 1, 257, 0},
    {"case 5", WHOLE(report5), 1, UINT64_C(4294967297), 0},
    {"case 5", WHOLE(report5), 1, UINT64_MAX, 0},
    {"case 5", WHOLE(report5), 3, 1, 0},
    {"case 5", WHOLE(report5), 0, 1, 0},
    {"case 5", WHOLE(report5), 256, 1, 0},
    {"case 5", WHOLE(report5), 257, 1, 0},
    {"case 5", WHOLE(report5), UINT64_C(4294967297), 1, 0},
    {"case 5", WHOLE(report5), UINT64_MAX, 1, 0},
    {"case 1", WHOLE(report1), 1, 1, 0},
    {"busy length 0, after flow 1", WHOLE(busy_0), 1, 1, 0},
    {"byte after the end", WHOLE(after_close), 1, 1, 0},
    {"a plan for a report", WHOLE(case5), 1, 1, 0},
    {"empty report", NULL, 0, 0, 1, 0},
};

#define COUNT(rows) (sizeof(rows) / sizeof(rows)[0])

#define UNTOUCHED 0x5A

/* Differences found. */
static int judge_all(void) {
    int differences = 0;
    for (size_t k = 0; k < COUNT(judged); k++) {
        uint64_t code = kezhuvanam_judge(judged[k].plan, judged[k].len);
        if (code != judged[k].code) {
            printf("%s: judged %llu, expected %llu\n", judged[k].name, (unsigned long long)code,
                   (unsigned long long)judged[k].code);
            differences++;
        }
    }
    return differences;
}

static int bound_all(void) {
    int differences = 0;
    for (size_t k = 0; k < COUNT(bounded); k++) {
        uint64_t bound = kezhuvanam_bound(bounded[k].plan, bounded[k].len, bounded[k].number);
        if (bound != bounded[k].bound) {
            printf("%s, flow %llu: bound %llu, expected %llu\n", bounded[k].name, (unsigned long long)bounded[k].number,
                   (unsigned long long)bound, (unsigned long long)bounded[k].bound);
            differences++;
        }
    }
    return differences;
}

/* Bytes of a lent buffer that are not what they should be: those of the report, and the others as they were. */
static int bytes_wrong(const uint8_t *buffer, size_t size, const uint8_t *report, size_t length) {
    int wrong = 0;
    for (size_t at = 0; at < size; at++) wrong += buffer[at] != (at < length ? report[at] : UNTOUCHED);
    return wrong;
}

/* The buffer has bytes on both sides that nobody lent; one of no bytes is NULL. */
static int write_all(void) {
    int differences = 0;
    for (size_t k = 0; k < COUNT(written); k++) {
        uint8_t around[8 + KEZHUVANAM_REPORT + 8];
        size_t length = written[k].report == NULL ? 0 : (size_t)(written[k].answer / 256);
        for (size_t at = 0; at < sizeof(around); at++) around[at] = UNTOUCHED;
        uint8_t *buffer = written[k].room == 0 ? NULL : around + 8;
        uint64_t answer = kezhuvanam_report_write(written[k].plan, written[k].len, buffer, written[k].room);
        if (answer != written[k].answer || bytes_wrong(around, 8, NULL, 0) != 0 ||
            bytes_wrong(around + 8, sizeof(around) - 8, written[k].report, length) != 0) {
            printf("%s, into %lu bytes: %llu, expected %llu, or other bytes\n", written[k].name, (unsigned long)written[k].room,
                   (unsigned long long)answer, (unsigned long long)written[k].answer);
            differences++;
        }
    }
    return differences;
}

static int check_all(void) {
    int differences = 0;
    for (size_t k = 0; k < COUNT(checked); k++) {
        uint64_t code = kezhuvanam_report_check(checked[k].report, checked[k].len);
        if (code != checked[k].code) {
            printf("report of %s: checked %llu, expected %llu\n", checked[k].name, (unsigned long long)code,
                   (unsigned long long)checked[k].code);
            differences++;
        }
    }
    return differences;
}

static int figure_all(void) {
    int differences = 0;
    for (size_t k = 0; k < COUNT(figured); k++) {
        uint64_t answer = kezhuvanam_report_figure(figured[k].report, figured[k].len, figured[k].number, figured[k].figure);
        if (answer != figured[k].answer) {
            printf("report of %s, flow %llu, figure %llu: %llu, expected %llu\n", figured[k].name, (unsigned long long)figured[k].number,
                   (unsigned long long)figured[k].figure, (unsigned long long)answer, (unsigned long long)figured[k].answer);
            differences++;
        }
    }
    return differences;
}

/* Sixteen flows over the same eight nodes, three priorities, busy for 58,400 ticks. */
#define EIGHT(x) x, x, x, x, x, x, x, x
#define BUSY(number, priority, period, cost) \
    FLOW(number, priority, period, 0, 65535, 8), 1, 2, 3, 4, 5, 6, 7, 8, EIGHT(TWO(cost))
#define TWO_BUSY(number, priority, next) BUSY(number, priority, 20000, 1300), BUSY(number + 1, next, 30000, 1700)
#define SIX_BUSY(number) TWO_BUSY(number, 0, 1), TWO_BUSY(number + 2, 2, 0), TWO_BUSY(number + 4, 1, 2)
static plan hall = {LINKS(1, 2), SIX_BUSY(1), SIX_BUSY(7), TWO_BUSY(13, 0, 1), TWO_BUSY(15, 2, 0), END};

static int differences;

static void on_one_byte(void) { differences += kezhuvanam_judge(no_links, sizeof(no_links)) != 12; }

static void on_all(void) { differences += judge_all() + bound_all() + write_all() + check_all() + figure_all(); }

static void on_reports(void) { differences += check_all() + figure_all(); }

static void on_hall(void) { differences += kezhuvanam_judge(WHOLE(hall)) != 0; }

/* The thread's stack is the upper half. All is filled before the thread starts, so that the lowest byte that it changed tells how deep it went;
   the lower half, below its stack, must stay as it is. */
static _Alignas(64) unsigned char memory[2 * KEZHUVANAM_STACK];
#define FILLED 0xA5

static void (*calls)(void);
static size_t top;

static void *thread_runs(void *unused) {
    unsigned char here;
    top = (size_t)((uintptr_t)&here - (uintptr_t)memory);
    calls();
    return unused;
}

/* Bytes of stack that the calls took; 0 if they did not run, or went below the thread's stack. */
static size_t taken_by(void (*to_run)(void)) {
    pthread_attr_t attributes;
    pthread_t thread;
    size_t lowest = 0;
    for (size_t k = 0; k < sizeof(memory); k++) memory[k] = FILLED;
    calls = to_run;
    if (pthread_attr_init(&attributes) != 0 ||
        pthread_attr_setstack(&attributes, memory + KEZHUVANAM_STACK, KEZHUVANAM_STACK) != 0 ||
        pthread_create(&thread, &attributes, thread_runs, NULL) != 0 || pthread_join(thread, NULL) != 0) {
        printf("host: no thread\n");
        return 0;
    }
    while (memory[lowest] == FILLED) lowest++;
    if (lowest < KEZHUVANAM_STACK) {
        printf("host: a call goes %lu bytes below a stack of KEZHUVANAM_STACK bytes\n",
               (unsigned long)(KEZHUVANAM_STACK - lowest));
        return 0;
    }
    return top - lowest;
}

/* Whole KiB, rounded up. */
static unsigned kib(size_t bytes) { return (unsigned)((bytes + 1023) / 1024); }

/* HEADER_KIB is what the header says that a call takes. How much of it a C library's memcpy takes is its own matter. */
static int as_the_header_says(size_t taken) {
    if (taken == 0) return 0;
    if (kib(taken) > HEADER_KIB + 2 || kib(taken) + 2 < HEADER_KIB || taken + 64 * 1024 > KEZHUVANAM_STACK) {
        printf("host: a call takes %u KiB of stack, and the header says %u of %u\n", kib(taken), HEADER_KIB,
               kib(KEZHUVANAM_STACK));
        return 0;
    }
    return 1;
}

/* The header says that calls on a report take no more. */
static int reports_take_little(size_t taken) {
    if (taken != 0 && kib(taken) <= 4) return 1;
    printf("host: a call on a report takes %u KiB of stack\n", kib(taken));
    return 0;
}

int main(int words, char **word) {
    size_t taken = taken_by(on_all);
    size_t by_reports = taken_by(on_reports);
    int right = as_the_header_says(taken) && reports_take_little(by_reports);
    (void)word;
    if (words > 1) {
        printf("one byte: %lu bytes of stack\n", (unsigned long)taken_by(on_one_byte));
        printf("every plan and report of this test: %lu\n", (unsigned long)taken);
        printf("its reports, checked and asked: %lu\n", (unsigned long)by_reports);
        printf("sixteen flows of eight nodes, busy for 58,400 ticks: %lu\n", (unsigned long)taken_by(on_hall));
    }
    printf("host: %u calls on a thread of %u KiB, of which a call takes %u, %d differences\n",
           (unsigned)(COUNT(judged) + COUNT(bounded) + COUNT(written) + COUNT(checked) + COUNT(figured)), kib(KEZHUVANAM_STACK), kib(taken), differences);
    return differences != 0 || !right;
}
