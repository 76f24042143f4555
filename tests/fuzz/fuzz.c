/* libFuzzer's target: on any bytes, as a plan and as a report, the host's functions against the second program. Stops at the first difference. */
#define _DEFAULT_SOURCE
#include <stdbool.h>
#include <stddef.h>
#include <stdint.h>
#include <stdio.h>
#include <stdlib.h>
#include <string.h>
#include <sys/mman.h>
#include <unistd.h>

#include "kezhuvanam.h"

/* Of tests/fuzz/oracle. */
struct answer {
    uint64_t code;
    uint64_t bounds[256];
};
bool second_answer(const uint8_t *plan, size_t len, uint64_t most, struct answer *out);
uint64_t second_report_write(const uint8_t *plan, size_t len, uint8_t *buffer, size_t room);
uint64_t second_report_check(const uint8_t *report, size_t len);
uint64_t second_report_figure(const uint8_t *report, size_t len, uint64_t number, uint64_t figure);

/* Terms for a plan, beyond which it is left out. Each flow that is asked for is a judgement of its own. */
#define MOST_TERMS 2000000

static uint64_t answers[256], reports[256], left_out;

static uint8_t *page_end, *buffer_end;

static void print_answers(const char *what, const uint64_t counts[256]) {
    fprintf(stderr, "%s:", what);
    for (int number = 0; number < 256; number++) {
        if (counts[number] != 0) {
            fprintf(stderr, " %d: %llu", number, (unsigned long long)counts[number]);
        }
    }
    fprintf(stderr, "\n");
}

static void print_counts(void) {
    print_answers("plans", answers);
    print_answers("reports", reports);
    fprintf(stderr, "left out as too long: %llu\n", (unsigned long long)left_out);
}

/* The end of a page with one behind it that nobody may read or write. */
static uint8_t *make_page(void) {
    size_t page = (size_t)sysconf(_SC_PAGESIZE);
    uint8_t *pages = mmap(NULL, 2 * page, PROT_READ | PROT_WRITE, MAP_PRIVATE | MAP_ANONYMOUS, -1, 0);
    if (pages == MAP_FAILED || mprotect(pages + page, page, PROT_NONE) != 0) {
        perror("fuzz");
        exit(2);
    }
    return pages + page;
}

int LLVMFuzzerInitialize(int *argc, char ***argv) {
    (void)argc, (void)argv;
    page_end = make_page();
    buffer_end = make_page();
    atexit(print_counts);
    return 0;
}

static void expect(const char *what, uint64_t number, uint64_t given, uint64_t expected, const uint8_t *plan, size_t len) {
    if (given == expected) {
        return;
    }
    fprintf(stderr, "%s(%llu) gave %llu, the second program %llu, for the bytes ", what, (unsigned long long)number,
            (unsigned long long)given, (unsigned long long)expected);
    for (size_t k = 0; k < len; k++) {
        fprintf(stderr, "%02x", plan[k]);
    }
    fprintf(stderr, "\n");
    abort();
}

static void expect_bound(const uint8_t *plan, size_t len, uint64_t number, const struct answer *answer) {
    uint64_t expected = number < 256 ? answer->bounds[number] : 0;
    expect("bound", number, kezhuvanam_bound(plan, len, number), expected, plan, len);
}

/* The numbers that the records have (of a refused plan the first: each costs a judgement), one that none has, and some that no flow can have. */
static void expect_bounds(const uint8_t *plan, size_t len, const struct answer *answer) {
    bool listed[256] = {true};
    size_t end = answer->code == 0 || len < 7 ? len : 7;
    for (size_t at = 6; at < end; at += 34) {
        expect_bound(plan, len, plan[at], answer);
        listed[plan[at]] = true;
    }
    uint64_t lacking = 0;
    while (lacking < 255 && listed[lacking]) {
        lacking++;
    }
    const uint64_t others[] = {lacking, 0, 256, 257, UINT64_C(1) << 32, (UINT64_C(1) << 32) + 1, UINT64_MAX};
    for (size_t k = 0; k < sizeof others / sizeof others[0]; k++) {
        expect_bound(plan, len, others[k], answer);
    }
}

/* The report of the plan, into a buffer of its own size, of the longest, and of one byte less, each with bytes before it that nobody lent. */
static void expect_report(const uint8_t *plan, size_t len) {
    const size_t longest = KEZHUVANAM_REPORT;
    uint8_t expected[KEZHUVANAM_REPORT];
    memset(expected, 0xA5, longest);
    uint64_t whole = second_report_write(plan, len, expected, longest);
    size_t length = whole % 256 == 0 ? (size_t)(whole / 256) : 0;
    const size_t rooms[] = {longest, length, length == 0 ? 0 : length - 1};
    for (size_t k = 0; k < sizeof rooms / sizeof rooms[0]; k++) {
        uint8_t other[KEZHUVANAM_REPORT], *buffer = buffer_end - rooms[k];
        memset(buffer - 8, 0xA5, rooms[k] + 8);
        memset(other, 0xA5, longest);
        uint64_t answer = second_report_write(plan, len, other, rooms[k]);
        expect("report_write", rooms[k], kezhuvanam_report_write(plan, len, buffer, rooms[k]), answer, plan, len);
        expect("bytes written", rooms[k], memcmp(buffer, other, rooms[k]) != 0, 0, plan, len);
        memset(other, 0xA5, 8);
        expect("bytes before the buffer", rooms[k], memcmp(buffer - 8, other, 8) != 0, 0, plan, len);
    }
}

/* As a report: its refusal, and each figure of the numbers that its records have and of some that no flow can have. */
static void expect_figures(const uint8_t *report, size_t len) {
    uint64_t code = second_report_check(report, len);
    reports[code % 256]++;
    expect("report_check", 0, kezhuvanam_report_check(report, len), code, report, len);
    uint64_t numbers[24] = {0, 1, 255, 256, 257, (UINT64_C(1) << 32) + 1, UINT64_MAX};
    size_t count = 7;
    for (size_t at = 3; at < len && count < 24; at += 8) {
        numbers[count++] = report[at];
    }
    const uint64_t figures[] = {0, 1, 2, 3, 4, 257, (UINT64_C(1) << 32) + 1, UINT64_MAX};
    for (size_t k = 0; k < count; k++) {
        for (size_t m = 0; m < sizeof figures / sizeof figures[0]; m++) {
            uint64_t expected = second_report_figure(report, len, numbers[k], figures[m]);
            expect("report_figure", numbers[k], kezhuvanam_report_figure(report, len, numbers[k], figures[m]), expected, report, len);
        }
    }
}

int LLVMFuzzerTestOneInput(const uint8_t *data, size_t size) {
    static struct answer answer;
    uint8_t *plan = page_end - size;
    memcpy(plan, data, size);
    expect_figures(plan, size);
    if (!second_answer(data, size, MOST_TERMS, &answer)) {
        left_out++;
        return 0;
    }
    answers[answer.code % 256]++;
    expect("judge", 0, kezhuvanam_judge(plan, size), answer.code, plan, size);
    expect_bounds(plan, size, &answer);
    expect_report(plan, size);
    expect("bytes changed", 0, memcmp(plan, data, size) != 0, 0, data, size);
    return 0;
}
