/* Kezhuvanam: judges plans of flows in a hall's network, and passes their figures on as reports. The rules are docs/RULES.md.

   Link with libhost.a (x86-64), which needs memcpy and memset and nothing else. A function reads the len bytes at plan or report and nothing
   else, keeps nothing between calls, allocates nothing, and may be called from several threads. plan or report may be NULL if len is 0. Only
   kezhuvanam_report_write writes, and only into the buffer that it is handed.

   Stack: a call takes 22 KiB of stack, whatever the plan. A thread with less dies. The calls on a report alone take at most 4 KiB.

   Time: a call on a report ends at once. A call on a plan ends on any plan, but how long it takes hangs on the plan's numbers and not on its
   length, and nothing stops it before. Most take microseconds or milliseconds. The slowest that a search found (docs/PERFORMANCE.md) takes half a
   minute: sixteen flows of three priorities that cross at the same nodes in two orders and load each to nearly 1. So who must stay responsive calls
   on a thread of its own. */
#ifndef KEZHUVANAM_H
#define KEZHUVANAM_H

#include <stddef.h>
#include <stdint.h>

#ifdef __cplusplus
extern "C" {
#endif

/* Bytes of stack for a thread that calls: room for a call, and at least 64 KiB for what else the thread does. */
#define KEZHUVANAM_STACK (128 * 1024)

/* 0 if the plan is accepted. Otherwise why not:

     code % 256            the refusal number, 1 to 12
     code / 256 % 256      the flow that 7, 8 and 10 name, 1 to 255; otherwise 0
     code / 65536          the place

   The place of 1, 2, 3, 4, 6 and 12 is the offset in the plan of the kind byte of the record that is refused; or the plan's length, if no kind byte
   is left where a record must stand; or the offset of the byte after the end record, if there is one. The place of 7 to 10, which are of the
   whole set, is 0: all records were read, so such a plan may be kept unfinished and judged again once it is changed. 5 and 11 are not given.

   1   Lmin > Lmax or Lmax > 4,095
   2   flow number 0
   3   a period, deadline, path length, node or cost out of range, or an unused node or cost not 0
   4   a node twice on a path
   6   more than 16 flows
   7   a path crosses that of the flow named in a way that the rules do not permit
   8   the flow named has no busy length: the load is too high
   9   no settled arrival bounds
   10  the bound of the flow named exceeds its deadline
   12  plan malformed */
uint64_t kezhuvanam_judge(const uint8_t *plan, size_t len);

/* The worst-case end-to-end response bound, in ticks, of the flow of that number; 0 exactly if the plan is refused or has no
   such flow. Any number may be asked for. */
uint64_t kezhuvanam_bound(const uint8_t *plan, size_t len, uint64_t number);

/* A report is a table's figures as bytes, for whoever shows them without the plan: at most 131 of them, 3 + 8 for each flow.
   RULES, the report, has its layout. A later library may write kinds of records that this one does not have; it then refuses the report. */
#define KEZHUVANAM_REPORT 131

/* Writes the report of the plan's table to the beginning of buffer, which has size bytes and does not overlap the plan; it may be NULL if size is 0.

     answer % 256 == 0     it is written: answer / 256 bytes, from 3 to 131. What is behind them in buffer is as it was
     otherwise             nothing is written, buffer is as it was, and answer is a refusal, read as that of kezhuvanam_judge. It is the
                           plan's, or, if the plan is accepted, 13: the buffer is too short */
uint64_t kezhuvanam_report_write(const uint8_t *plan, size_t len, uint8_t *buffer, size_t size);

/* 0 if the report is in order. Otherwise why not, as kezhuvanam_judge says it; the flow is 0.

   3   at the record at that place: a bound or a busy length is 0, or a jitter is not less than its bound
   12  report malformed, or with a record of a kind that this library does not have */
uint64_t kezhuvanam_report_check(const uint8_t *report, size_t len);

/* For the last argument of kezhuvanam_report_figure. */
#define KEZHUVANAM_BOUND 1
#define KEZHUVANAM_JITTER 2
#define KEZHUVANAM_BUSY 3

/* One figure of the flow of that number, in ticks, plus 1: a jitter of 0 is given as 1. 0 exactly if the report is refused, has no such flow, or
   there is no such figure. Any two numbers may be asked for. */
uint64_t kezhuvanam_report_figure(const uint8_t *report, size_t len, uint64_t number, uint64_t figure);

#ifdef __cplusplus
}
#endif

#endif
