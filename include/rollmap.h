/*
 * The roll map library: which labels of a reel of paper are shown at which zoom.
 *
 * Link with librollmap.a, which is for x86-64 Linux and needs of other libraries only
 * memcpy and memset. All calls answer by value; nothing is allocated or kept, there is no
 * state, and any thread may call at any time. A call takes less than 8 KiB of stack,
 * rollmap_judge less than 16.
 *
 * A sheet is bytes: contents, then up to seven parts, as docs/FORMAT.md has them. Part 1
 * has 11 bytes a mark, so that the number n of a sheet's marks is the length of part 1
 * over 11 (rollmap_part tells it).
 *
 * A mark ranks higher than another if its priority is higher. Between equal priorities the
 * edition of the marking handbook decides, which part 4 names: in the first, the lower
 * number ranks higher; in the second, the larger radius, that of the kind where 0 is
 * written, and then the lower number. Without part 4 the first edition holds. Whatever goes
 * by rank goes by the sheet's own edition.
 *
 * So marks of lower priority never move those of higher. Take two sheets that
 * rollmap_schedule, rollmap_add or rollmap_take_out wrote, of the same edition and shape,
 * which hold the same marks of priority p and above, in the same order and with the same
 * popups, whatever stands below p: these marks have the same removal values and, counted
 * among themselves, the same eliminators.
 *
 * Part 7 names the shape of the labels: disks, or upright squares, whose radius is half a
 * side. Without part 7 they are disks. Two places are as far apart as the straight line
 * between them is long, and for squares as the larger of the differences of their x and of
 * their y. Whatever goes by distance goes by the sheet's own shape.
 *
 * Part 5 gives each mark a popup k, 4 bytes: the mark is not there while 64 times the zoom
 * is below k. Without part 5 every k is 0, and all marks are there from the start. Two marks
 * touch first where the squared zoom is the squared distance over the squared sum of their
 * radii, their touching value. Their pair value is that, or k squared over 4,096 for the
 * larger k of the two, where this is greater. The process, which removes the lower-ranked
 * mark of a pair, and the records of part 2 go by pair values, whose two numbers stand
 * unreduced. So no mark is removed before it pops up; one that is removed at its own popup
 * is never shown.
 *
 * Part 6 has 85 counts of 2 bytes, little-endian: how many marks of each kind group live at
 * each stop, over the whole reel. Stop 0 comes first and stop 16 last, and within a stop the
 * five groups in the order of their kinds: notes (0 to 9), spots (10 to 49), streaks (50 to
 * 99), moisture patches (100 to 149), breaks (150 to 199). So the count of stop s and group
 * g, both from 0, stands at 2 * (5s + g) of part 6. A mark lives at stop s if 2 to the
 * power s is at least its popup and, unless the sheet's own part 2 has it never removed, the
 * squared zoom, 4 to the power s over 4,096, is below its removal value there. Without part
 * 5 no count grows from one stop to the next.
 *
 * A buffer is a pointer and its length in bytes. It needs no alignment. What the caller
 * answers for, since no call can see it:
 *   - There are that many bytes at the pointer, and those of a buffer that is only read
 *     are initialised. The pointer is not null, not even where the length is 0.
 *   - A buffer that is written (work, out, map) overlaps no other buffer of the call.
 *   - While a call runs, no other thread writes any of its buffers, and none reads those
 *     that are written. Any number of calls may read the same bytes at a time.
 *   - All this holds of the codes, rows and bodies that rollmap_assemble reads, too; codes
 *     and rows are aligned as their types ask, and their lengths count elements.
 *
 * Every call puts its questions in turn. The first that is answered with no gives its
 * number, and then the call has written nothing: look at the number before the value.
 * rollmap_part alone gives no number.
 *
 *    1  there are 2 bytes, 1 to 7 parts, and the whole contents
 *    2  the codes rise within 1 to 7, part 1 is there, and parts 3 and 6 only with part 2
 *    3  the first body starts right after the contents, each next one where the last
 *       ended, and the last ends with the sheet
 *    4  part 1 is a multiple of 11 and at most 45,056 bytes (4,096 marks)
 *    5  mark by mark, before its radius: the kind is below 200
 *    6  the radius is at most 16,383
 *    7  parts 2 and 3, if present, are 14n and 2n bytes for n marks
 *   19  part 4, if present, is one byte of 1 or 2; this is asked between 7 and 8, wherever
 *       these are
 *   21  part 5, if present, is 4n bytes, and no k in it exceeds 65,536; this is asked
 *       between 19 and 8, wherever these are. Of a mark to be added: its k does not exceed
 *       65,536, and is 0 where the sheet has no part 5
 *   24  part 7, if present, is one byte of 1 or 2; this is asked between 21 and 8, wherever
 *       these are
 *    8  each schedule record is the 'never' record, or names a higher-ranked mark with
 *       their pair value as its two unreduced numbers, and that one is removed later
 *    9  part 3, if present, is the tree that parts 1 and 2 give
 *   23  part 6, if present, is 170 bytes with the counts that parts 1, 2 and 5 give; this is
 *       asked right after 9, wherever that is, also where part 3 is not there
 *   10  parts 2 and 3 are there; of a sheet to be counted: part 2 is
 *   22  of a schedule that is judged: no pair of marks has both removed later than its pair
 *       value, each removal value is the pair value with some higher-ranked mark that is
 *       removed later, and the highest-ranked such mark is named; this is asked after 10
 *   20  the turn is 0 to 3, and 0 where the labels are squares, and each edge is from
 *       -32,768 to 32,768; this is asked between 10 and 11
 *   11  x0 is at most x1, and y0 at most y1
 *   12  the zoom is taken
 *   13  each written or work buffer, and a walked map, is long enough; at most 4,096
 *       marks are walked
 *   15  of a log: a coordinate is five digits and a sign, 12 or 13, and not minus zero
 *   16  of a log: it is from -32,768 to 32,767
 *   17  of a mark to be taken out: its number is below n
 *   18  of a mark to be added: the sheet has fewer than 4,096 marks
 *
 * Of marks by columns, 4 is as of part 1. Of a log, it is: a multiple of 13, and at most
 * 4,096 records. 14 is asked by the program alone.
 */
#ifndef ROLLMAP_H
#define ROLLMAP_H

#include <stddef.h>
#include <stdint.h>

#ifdef __cplusplus
extern "C" {
#endif

/* The version of this header and of the library. */
#define ROLLMAP_VERSION "0.1.0"

/* The numbers of an answer: success, or the question that was answered with no. More may
   come. */
#define ROLLMAP_SUCCESS 0u
#define ROLLMAP_REFUSED_CONTENTS 1u
#define ROLLMAP_REFUSED_CODES 2u
#define ROLLMAP_REFUSED_BODIES 3u
#define ROLLMAP_REFUSED_MARKS 4u
#define ROLLMAP_REFUSED_KIND 5u
#define ROLLMAP_REFUSED_RADIUS 6u
#define ROLLMAP_REFUSED_LENGTHS 7u
#define ROLLMAP_REFUSED_SCHEDULE 8u
#define ROLLMAP_REFUSED_INDEX 9u
#define ROLLMAP_REFUSED_UNSCHEDULED 10u
#define ROLLMAP_REFUSED_EDGES 11u
#define ROLLMAP_REFUSED_ZOOM 12u
#define ROLLMAP_REFUSED_BUFFER 13u
#define ROLLMAP_REFUSED_PACKED 15u
#define ROLLMAP_REFUSED_PLACE 16u
#define ROLLMAP_REFUSED_MISSING 17u
#define ROLLMAP_REFUSED_FULL 18u
#define ROLLMAP_REFUSED_EDITION 19u
#define ROLLMAP_REFUSED_WINDOW 20u
#define ROLLMAP_REFUSED_POPUPS 21u
#define ROLLMAP_REFUSED_JUDGEMENT 22u
#define ROLLMAP_REFUSED_COUNTS 23u
#define ROLLMAP_REFUSED_SHAPE 24u

/* The codes of a sheet's parts. More may come. */
#define ROLLMAP_CODE_MARKS 1u
#define ROLLMAP_CODE_SCHEDULE 2u
#define ROLLMAP_CODE_INDEX 3u
#define ROLLMAP_CODE_EDITION 4u
#define ROLLMAP_CODE_POPUPS 5u
#define ROLLMAP_CODE_COUNTS 6u
#define ROLLMAP_CODE_SHAPE 7u

/* What the one byte of part 4 says. */
#define ROLLMAP_EDITION_FIRST 1u
#define ROLLMAP_EDITION_SECOND 2u

/* What the one byte of part 7 says. */
#define ROLLMAP_SHAPE_DISK 1u
#define ROLLMAP_SHAPE_SQUARE 2u

/* The popup of a mark that is there from the start, and the largest one. */
#define ROLLMAP_NO_POPUP 0u
#define ROLLMAP_LARGEST_POPUP 65536u

/* The most marks of a sheet. */
#define ROLLMAP_MOST_MARKS 4096u

/* Bytes of a mark in part 1, of a record in part 2, of a number in part 3, of a popup in
   part 5. */
#define ROLLMAP_MARK_BYTES 11u
#define ROLLMAP_RECORD_BYTES 14u
#define ROLLMAP_INDEX_BYTES 2u
#define ROLLMAP_POPUP_BYTES 4u

/* The number of stops and of kind groups, and the bytes of part 6, which has 2 for each stop
   and group. */
#define ROLLMAP_STOPS 17u
#define ROLLMAP_GROUPS 5u
#define ROLLMAP_COUNTS_BYTES 170u

/* Bytes of a record in a log. */
#define ROLLMAP_LOG_RECORD_BYTES 13u

/* Bytes of the contents of a sheet of so many parts, which the first body follows. */
#define ROLLMAP_CONTENTS_BYTES(parts) ((size_t)10 * (parts) + 2)

/* What a walk answers where it finds no mark, and what a record has for an eliminator
   where its mark is never removed. */
#define ROLLMAP_NO_MARK 65535u

/* Bytes that scheduling n marks needs: of work, and of out, which has more where the sheet
   has a part 4, 5, 6 or 7. Adding a mark and taking one out need those of the new number of
   marks. */
#define ROLLMAP_WORK_BYTES(n) ((size_t)32 * (n) + 1024)
#define ROLLMAP_SCHEDULED_BYTES(n) ((size_t)27 * (n) + 32)

/* Bytes that part 4 adds to a sheet, part 5 to one of n marks, part 6 to any that is
   counted, and part 7 to any: 10 of contents, and the body. */
#define ROLLMAP_EDITION_BYTES 11u
#define ROLLMAP_POPUPS_BYTES(n) ((size_t)4 * (n) + 10)
#define ROLLMAP_COUNTED_BYTES 180u
#define ROLLMAP_SHAPE_BYTES 11u

/* Bytes of the map of n marks. */
#define ROLLMAP_MAP_BYTES(n) (((size_t)(n) + 7) / 8)

/* The turn that callers without a turn pass, and all where the labels are squares. */
#define ROLLMAP_NO_TURN 0u

/* How far out an edge of a view lies at most, on either side of 0. */
#define ROLLMAP_FARTHEST_EDGE 32768

/* number: 0 for success, or the number of the question answered with no.
   value: what the call says; 0 where it is refused (65,535 from the walk). */
struct rollmap_answer {
    uint32_t number;
    uint32_t value;
};

/* Where a part stands in its sheet. */
struct rollmap_extent {
    uint32_t offset;
    uint32_t length;
};

/* The body of a part, as a row that rollmap_assemble reads. */
struct rollmap_body {
    const uint8_t *bytes;
    size_t length;
};

/* Checks a sheet. The value is 0. Asks 1 to 9, with 19, 21 and 24 after 7 and 23 after 9, as
   wherever 4 to 9 are asked below. */
struct rollmap_answer rollmap_check(const uint8_t *sheet, size_t sheet_length);

/* Schedules a sheet of n marks afresh by its own edition, popups and shape, whatever
   schedule it has: writes the sheet of parts 1 to 3, of parts 4, 5 and 7 as they were where
   they are there, and of a part 6 with the counts of the new schedule where there is one, to
   out, and leaves what follows there as it is. The value is the number of bytes written,
   32 + 27n, 11 more with part 4, 10 + 4n more with part 5, 180 more with part 6, and 11 more
   with part 7. work has at least 32n + 1,024 bytes, which hold anything before the call and
   anything after a success. Asks 1 to 9, and 13 of work and out. */
struct rollmap_answer rollmap_schedule(const uint8_t *sheet, size_t sheet_length,
                                       uint8_t *work, size_t work_length,
                                       uint8_t *out, size_t out_length);

/* Adds a mark to a sheet with parts 2 and 3, or takes mark m out of it, and schedules the
   new marks afresh, whatever schedule the sheet has. A new mark is given by its six fields,
   as part 1 has them, and its popup, and stands at the end: its number is the old number of
   marks. Where mark m is taken out, higher numbers drop by one; the only mark of a sheet may
   go, too. What is written to out is the sheet that rollmap_schedule writes for the new
   marks, with parts 4 and 7 as they were and part 5 changed with the marks, where they are
   there; what follows in out stays as it is. A part 5 has the new mark's popup at its end, or
   no longer that of mark m; where there is none, the new mark's popup is 0
   (ROLLMAP_NO_POPUP), and none is written. Where there is a part 6, one with the counts of
   the new schedule is written. The value is the number of bytes written, 32 + 27n for the new
   number n of marks, 11 more with part 4, 10 + 4n more with part 5, 180 more with part 6, and
   11 more with part 7. work has at least 32n + 1,024 bytes for that n, which hold anything
   before the call and anything after a success. Where a mark is added to a sheet that
   rollmap_schedule or one of these calls wrote, and that mark is taken out again, the old
   bytes come back.

   Adding asks 1 to 10 of the sheet, 18, 5, 6 and 21 of the new mark, and 13 of work and
   out. Taking out asks 1 to 10 of the sheet, 17 of m, of which all 32 bits count, and 13 of
   work and out. */
struct rollmap_answer rollmap_add(const uint8_t *sheet, size_t sheet_length,
                                  int16_t x, int16_t y, uint16_t radius, uint16_t priority,
                                  uint8_t kind, uint16_t tag, uint32_t popup,
                                  uint8_t *work, size_t work_length,
                                  uint8_t *out, size_t out_length);
struct rollmap_answer rollmap_take_out(const uint8_t *sheet, size_t sheet_length, uint32_t m,
                                       uint8_t *work, size_t work_length,
                                       uint8_t *out, size_t out_length);

/* Judges the schedule of a sheet with parts 2 and 3, whoever made it, without working it out
   again: nothing is written, and no work buffer is needed. The value is 0. Accepted is the
   schedule that rollmap_schedule writes for the sheet, by its own edition, popups and shape,
   and no other. So an accepted sheet is, byte for byte, what rollmap_schedule writes for it,
   and what holds of such a sheet holds of this one. rollmap_check accepts other schedules,
   too, in which marks stay or go later, or name another mark; these get 22 here, and
   rollmap_schedule replaces them. Asks 1 to 10, and 22. */
struct rollmap_answer rollmap_judge(const uint8_t *sheet, size_t sheet_length);

/* Counts the marks of a sheet with part 2, by the schedule that it has, whoever made it: how
   many of each kind group live at each stop. Writes the same sheet with part 6 to out, its
   parts in the order of their codes, and leaves what follows there as it is; no index is
   needed, and none is added. The value is the number of bytes written, as many as the sheet
   has, and 180 more where it has no part 6. Where it has one, that has these counts already,
   or 23 refuses it, and the sheet's own bytes are written. A count is read at
   2 * (ROLLMAP_GROUPS * s + g) of part 6, 2 bytes little-endian, for stop s and group g.
   Asks 1 to 9; 10, of part 2 alone; and 13 of out. */
struct rollmap_answer rollmap_count(const uint8_t *sheet, size_t sheet_length,
                                    uint8_t *out, size_t out_length);

/* Puts parts together into a sheet in out, and leaves what follows there as it is: the
   first row is the body of the part of the first code, and so on. Further rows than codes
   are ignored, whatever their bodies hold. Both lengths count elements. The value is the
   number of bytes written: 2, 10 for each part, and the bodies.

   No pointer is null, those in the rows included, also in the ignored ones and where a
   length is 0. out overlaps neither the bodies nor the rows nor the codes, and none of
   these changes while the call runs.

   Asks 1 (there are 1 to 7 codes, and not fewer rows than codes), 2 of the codes, 4 to 9 of
   the bodies, and 13 of out. */
struct rollmap_answer rollmap_assemble(const uint16_t *codes, size_t codes_length,
                                       const struct rollmap_body *bodies, size_t bodies_length,
                                       uint8_t *out, size_t out_length);

/* Fills marks (11 bytes each, as in part 1): writes the same marks to out, each radius 0
   as the number in the old table of house radii, in which a moisture patch (kinds 100 to
   149) has 120 and not 150; what follows in out stays as it is. The value is the number
   of bytes written, as many as marks has. Filled marks pass 4 to 6 and have no radius 0,
   and filling them again gives the same bytes. Asks 4, then 5 and 6 mark by mark, and 13
   of out.

   A sheet that was scheduled when patches had 120 may now be refused by 8, and then has
   no parts. Its owner takes part 1 by the contents (offset and length are the numbers of
   4 bytes at 4 and 8 of the sheet, once 1 to 3 are answered with yes), fills it and puts
   it together afresh: rollmap_assemble of code 1 alone. */
struct rollmap_answer rollmap_fill(const uint8_t *marks, size_t marks_length,
                                   uint8_t *out, size_t out_length);

/* Turns a log of the winder into marks (11 bytes each, as in part 1), and marks into a
   log. A log has 13 bytes a record: x and y as packed decimal, 3 bytes each, then radius,
   priority, kind and tag as in a mark. Packed decimal is five digits, one a half-byte,
   highest first, the upper half of a byte before the lower, then a half-byte for the
   sign: 12 plus, 13 minus. The value is the number of bytes written to out, 11 or 13 a
   record; what follows there stays as it is. An accepted log, turned into marks and back,
   is the same bytes, and so are accepted marks.

   Logs to marks asks 4 of the log; record by record 15 and 16 of x, both of y, then 5 and
   6; and 13 of out. Marks to logs asks 4, then 5 and 6 mark by mark, and 13 of out. */
struct rollmap_answer rollmap_log_to_marks(const uint8_t *log, size_t log_length,
                                           uint8_t *out, size_t out_length);
struct rollmap_answer rollmap_marks_to_log(const uint8_t *marks, size_t marks_length,
                                           uint8_t *out, size_t out_length);

/* Rearranges marks (11 bytes each, as in part 1) by columns, as an archive stores them, and
   back: all x, then all y, radii, priorities, kinds and tags, each as many bytes wide as in
   a mark. So the columns of n marks start at 0, 2n, 4n, 6n, 8n and 9n. Each x after the
   first is replaced by its difference from the x before, modulo 65,536, and each y likewise.
   The value is the number of bytes written to out, as many as are given; what follows there
   stays as it is. Kinds and radii are not looked at: marks that 5 or 6 would refuse are
   rearranged like any others. Each call undoes the other, both ways round: whatever bytes
   one takes, the other gives them back from what it wrote.

   Both ask 4 of what is given, and 13 of out. */
struct rollmap_answer rollmap_to_columns(const uint8_t *marks, size_t marks_length,
                                         uint8_t *out, size_t out_length);
struct rollmap_answer rollmap_from_columns(const uint8_t *columns, size_t columns_length,
                                           uint8_t *out, size_t out_length);

/* Answers a view of a sheet of n marks: those that live at the zoom and whose label there,
   about the turned place, reaches the rectangle, touching included. A mark lives if 64 times
   the zoom is at least its popup and, where it has a removal value, the squared zoom is below
   that. With k = 64 times the zoom, a label reaches the rectangle where the squared
   distance from turned place to rectangle, times 4,096, is at most k squared times the
   squared radius; for squares that distance is the larger of those along x and along y. A
   place inside has distance 0, and a mark of radius 0 has the radius of its kind. Mark m is
   bit m mod 8 of byte m / 8 of the map. The first (n + 7) / 8 bytes are wholly written, the
   unused bits of the last as 0, and what follows stays as it is. The value is the count of
   shown marks. Asks 1 to 10, 20, 11 and 12, and 13 of the map.

   The turn is a number of quarter turns, 0 to 3. One of them takes x, y to -y, x; so two
   take it to -x, -y, three to y, -x, and after four every place is where it was. The edges
   x0, x1, y0 and y1 are the least and the greatest x and y of the rectangle, and refer to
   turned places; they go from -32,768 to 32,768, since -32,768 may turn to 32,768. Callers
   without a turn pass 0; their edges refer to places as part 1 has them, and may be 32,768,
   too. 4 is no other way to say 0, and gets 20. So does every turn but 0 where part 7 says
   that the labels are squares; where it says disks, all four are taken, as without part 7.

   A screen that runs the web left to right, with x to the right, takes the turn after
   which x grows along the web: 0 where x of part 1 grows along it, 1 where y falls, 2 where
   x falls, 3 where y grows. Say that y grows along the web, and that the screen is to show
   the places with y from a to b and x from c to d: it passes x0 = a, x1 = b, y0 = -d,
   y1 = -c and the turn 3, and draws the mark at x, y of part 1 at y, -x. Where y falls, it
   passes x0 = -b, x1 = -a, y0 = c, y1 = d and the turn 1, and draws the mark at -y, x. The
   map goes by the numbers of the marks, whatever the turn.

   One sheet of disks serves screens of every turn. Take one that rollmap_schedule,
   rollmap_add or rollmap_take_out wrote, counted or not; move its marks to their turned
   places, where these fit 2 bytes each, put them together with its parts 4, 5 and 7, and
   schedule that. A view of the new sheet without a turn gives the same answer and the same
   map as the view of the old one with the turn.

   A stop s, 0 to 16, is the zoom of 2 to the power s, divided by 64, map units per pixel.
   A wheel value is the zoom itself, taken where 64 times it is a whole number from 1 to
   65,536. A stop and the wheel value of the same zoom give the same answer and the same
   map, refusals too; any other stop gets 12. */
struct rollmap_answer rollmap_view_stop(const uint8_t *sheet, size_t sheet_length,
                                        int32_t x0, int32_t x1, int32_t y0, int32_t y1,
                                        uint8_t turn, uint8_t stop,
                                        uint8_t *map, size_t map_length);
struct rollmap_answer rollmap_view_wheel(const uint8_t *sheet, size_t sheet_length,
                                         int32_t x0, int32_t x1, int32_t y0, int32_t y1,
                                         uint8_t turn, float wheel,
                                         uint8_t *map, size_t map_length);

/* One step of a walk over the map of n marks. The value is the least shown number at or
   after start and below n, else 65,535 (ROLLMAP_NO_MARK). Asks 13: the map has at least
   (n + 7) / 8 bytes, and n is at most 4,096; a refused walk has value 65,535 too. */
struct rollmap_answer rollmap_walk(const uint8_t *map, size_t map_length,
                                   uint32_t n, uint32_t start);

/* Whether the map of n marks shows mark m. The value is 1 or 0, and 0 where m is not below
   n. Asks 13 as the walk does; a refused call has value 0. */
struct rollmap_answer rollmap_is_shown(const uint8_t *map, size_t map_length,
                                       uint32_t n, uint32_t m);

/* Where the part of that code (1 the marks, 2 the schedule, 3 the index, 4 the edition, 5
   the popups, 6 the counts, 7 the shape) stands in an accepted sheet. Both numbers are 0
   where there is no such part or the sheet is refused; a part that is there has an offset
   above 0, and may be empty. */
struct rollmap_extent rollmap_part(const uint8_t *sheet, size_t sheet_length, uint32_t code);

#ifdef __cplusplus
}
#endif

#endif
