/* A hall of tasks and gates, moved by calls, and which of its tasks will never go on: the entries of libmollavisce.a,
 * for C. C++ programs: see mollavisce.hpp. */
#ifndef MOLLAVISCE_H
#define MOLLAVISCE_H

#include <stddef.h>
#include <stdint.h>

/*
 * A table of tasks, gates ("phasers") and waits is a hall sheet: plain bytes, to be stored and sent as they are. One
 * table has one sheet. The sheet of the fresh table, no task and no open phaser, is where a hall begins:
 *
 *     uint8_t sheet[MOLLAVISCE_LONGEST_SHEET] = MOLLAVISCE_FRESH_SHEET;
 *     size_t sheet_len = MOLLAVISCE_FRESH_LENGTH;
 */
#define MOLLAVISCE_LONGEST_SHEET 2291 /* no accepted sheet is longer */
#define MOLLAVISCE_FRESH_SHEET                                                                                         \
    { 1, 0, 0 }
#define MOLLAVISCE_FRESH_LENGTH 3

#ifdef __cplusplus
extern "C" {
#endif

/*
 * What the two entries can answer. From 10 up it is a refusal.
 *
 *    0  done                                               22  the ring walk finds no named task to step to
 *    1  wait passed                                        30  sheet ends inside a number, or before one
 *    2  now blocked                                        31  number with a needless last group
 *   10  no such live task                                  32  number too large
 *   11  no such open phaser                                33  list not rising (a repeat doesn't rise)
 *   12  caller is blocked                                  34  version not 1, or task state not 0 or 1
 *   13  caller not a member                                35  bytes after the sheet
 *   14  target already a member                            36  sheet speaks of a phaser that isn't open
 *   15  phase would exceed, or exceeds, 65,535             40  answer strip under 38 bytes
 *   16  no free number of that sort                        41  route over 2
 *   17  task to release is not blocked                     42  no such kind of call
 *   18  some member has not reached the awaited phase      43  buffer shorter than the sheet
 *   19  phaser has a member, or a task is blocked on it    44  table not sound
 *   20  target is blocked
 *
 * (22 and 44 stand in the list of answers and come from neither: a sheet that is read is a sound table.)
 *
 * Every byte, number and length is answered: that is proved, and none of it leans on your care. What no proof inside
 * the library can see is your side of the border. Outside the contract, so not to be done, are:
 *   - lent memory that overlaps: sheet and strip; sheet, next, value and length, each with each;
 *   - a pointer to fewer bytes than its length says; a null pointer with a length other than 0 is one such
 *     (null with length 0 is fine: no bytes at all); a null `value` or `length`, or one that is not aligned;
 *   - a length of 2^63 or more;
 *   - another thread that writes the sheet, or uses what is written, during the call.
 * There is no state between calls, so calls on different buffers may run at the same time. Many may read one sheet.
 */

/*
 * Judges a sheet by a route: 0 goes from task to task, 1 from event to event, 2 by events where the awaited ones are
 * fewer than the blocked tasks, otherwise by tasks. All name the same tasks and give the same ring.
 * Tests: 41, 40, then the sheet's 30 to 36. Answer 0 writes the first 38 bytes of the strip and keeps the rest:
 *   0..3   mask of the named tasks, low byte first, bit k for task k
 *   4      how many are named
 *   5      the ring's length
 *   6..37  the ring's task numbers, its lowest first, filled up with 255
 * Any other answer is a refusal and writes nothing. The sheet is never written.
 */
uint32_t sheet_verdict(const uint8_t *sheet, size_t sheet_len, uint64_t route, uint8_t *strip, size_t strip_len);

/*
 * Makes one call on a sheet's table, and writes the next table's sheet:
 *
 *   kind                 numbers looked at       tests, in order                             value
 *   0  open a task                               16                                          its number
 *   1  end a task        task                    10, 12
 *   2  open a phaser     task                    10, 12, 16                                  its number
 *   3  close a phaser    phaser                  11, 19
 *   4  admit a target    task, phaser, other     10, 12, 11, 13; of the target 10, 20, 14    the phase it joins at
 *   5  leave             task, phaser            10, 12, 11, 13
 *   6  arrive            task, phaser            10, 12, 11, 13, 15                          the new phase
 *   7  wait              task, phaser            10, 12, 11, 13
 *   8  wait at a phase   task, phaser, other     10, 12, 11, 15
 *   9  release a task    task                    10, 17, 18
 *
 * `task` is the caller, or who is ended or released; `other` the target's number, or the phase that is waited for.
 * `sort` is not looked at. (A later version will; send 0.)
 *
 * Tests: 42 before all else; the sheet's 30 to 36; the call's own, as above; last 43, if `next` is shorter than the
 * next table's sheet. MOLLAVISCE_LONGEST_SHEET bytes are enough for any table.
 * Below 10, a wait that passes (1) or blocks (2) too: `next` begins with the next table's sheet and keeps its rest,
 * *length is that sheet's length, *value the call's value, 0 where none is stated.
 * From 10 up: *value and *length are 0, and no byte of `next` moves. The sheet is never written.
 */
uint32_t sheet_call(const uint8_t *sheet, size_t sheet_len, uint64_t kind, uint64_t task, uint64_t phaser,
                    uint64_t other, uint64_t sort, uint8_t *next, size_t next_len, uint64_t *value, uint64_t *length);

#ifdef __cplusplus
}
#endif

#endif
