/* Puts a sheet together, schedules it, looks at it, and prints what it finds. */
#include <stdio.h>
#include <string.h>

#include "rollmap.h"

#define N 4

/* x, y, radius, priority; kind 0, tag 0. */
static const uint8_t marks[ROLLMAP_MARK_BYTES * N] = {
    0,   0, 0, 0, 10, 0, 9, 0, 0, 0, 0, /* (0, 0), 10, 9 */
    100, 0, 0, 0, 10, 0, 5, 0, 0, 0, 0, /* (100, 0), 10, 5 */
    200, 0, 0, 0, 10, 0, 5, 0, 0, 0, 0, /* (200, 0), 10, 5 */
    0,   0, 3, 0, 5,  0, 1, 0, 0, 0, 0, /* (0, 3), 5, 1 */
};

static uint64_t number_at(const uint8_t *bytes, int width)
{
    uint64_t number = 0;
    while (width-- > 0)
        number = number << 8 | bytes[width];
    return number;
}

static void print_record(const uint8_t *sheet, size_t length, unsigned m)
{
    struct rollmap_extent schedule = rollmap_part(sheet, length, ROLLMAP_CODE_SCHEDULE);
    const uint8_t *record = sheet + schedule.offset + ROLLMAP_RECORD_BYTES * m;

    printf("%u: %u %lu %lu\n", m, (unsigned)number_at(record, 2),
           (unsigned long)number_at(record + 2, 8), (unsigned long)number_at(record + 10, 4));
}

static void print_schedule(const uint8_t *sheet, size_t length)
{
    struct rollmap_extent schedule = rollmap_part(sheet, length, ROLLMAP_CODE_SCHEDULE);
    struct rollmap_extent index = rollmap_part(sheet, length, ROLLMAP_CODE_INDEX);
    struct rollmap_extent none = rollmap_part(sheet, length, ROLLMAP_CODE_EDITION);
    unsigned m;

    printf("part 2 at %u, %u bytes\n", schedule.offset, schedule.length);
    for (m = 0; m < N; m++)
        print_record(sheet, length, m);
    printf("part 3 at %u, %u bytes:", index.offset, index.length);
    for (m = 0; m < N; m++)
        printf(" %u", (unsigned)number_at(sheet + index.offset + ROLLMAP_INDEX_BYTES * m, ROLLMAP_INDEX_BYTES));
    printf("\npart 4 at %u, %u bytes\n", none.offset, none.length);
}

static void print_view(const char *name, struct rollmap_answer answer, const uint8_t *map)
{
    struct rollmap_answer step;

    printf("%s: %u, count %u, map %02x %02x, marks", name, answer.number, answer.value,
           map[0], map[1]);
    step = rollmap_walk(map, 1, N, 0);
    while (step.value != ROLLMAP_NO_MARK) {
        printf(" %u", step.value);
        step = rollmap_walk(map, 1, N, step.value + 1);
    }
    printf("\n");
}

static void print_views(const uint8_t *sheet, size_t length)
{
    const int32_t far = ROLLMAP_FARTHEST_EDGE;
    uint8_t map[2] = {0xee, 0xee};

    print_view("wheel 1", rollmap_view_wheel(sheet, length, 50, 250, -10, 10, ROLLMAP_NO_TURN, 1.0f, map, 2), map);
    print_view("wheel 5", rollmap_view_wheel(sheet, length, 50, 250, -10, 10, ROLLMAP_NO_TURN, 5.0f, map, 2), map);
    print_view("stop 0", rollmap_view_stop(sheet, length, -far, far, -far, far, ROLLMAP_NO_TURN, 0, map, 2), map);
    print_view("stop 17", rollmap_view_stop(sheet, length, -far, far, -far, far, ROLLMAP_NO_TURN, 17, map, 2), map);
}

/* The first view of the above with every turn, and what is refused. A quarter turn takes the marks
   to (0, 0), (0, 100), (0, 200) and (-3, 0). */
static void print_turned_views(const uint8_t *sheet, size_t length)
{
    const int32_t far = ROLLMAP_FARTHEST_EDGE;
    uint8_t map[2] = {0xee, 0xee};

    print_view("turn 1", rollmap_view_wheel(sheet, length, -10, 10, 50, 250, 1, 1.0f, map, 2), map);
    print_view("turn 2", rollmap_view_wheel(sheet, length, -250, -50, -10, 10, 2, 1.0f, map, 2), map);
    print_view("turn 3", rollmap_view_wheel(sheet, length, -10, 10, -250, -50, 3, 1.0f, map, 2), map);
    print_view("turn 1, the place of 3", rollmap_view_stop(sheet, length, -3, -3, 0, 0, 1, 0, map, 2), map);
    print_view("turn 4", rollmap_view_stop(sheet, length, -far, far, -far, far, 4, 0, map, 2), map);
    print_view("edge 32769", rollmap_view_stop(sheet, length, -far, far, -far, far + 1, 1, 0, map, 2), map);
}

/* A fifth mark comes, with something in every field, and the first one goes. */
static void print_changes(const uint8_t *sheet, size_t length)
{
    uint8_t work[ROLLMAP_WORK_BYTES(N + 1)];
    uint8_t more[ROLLMAP_SCHEDULED_BYTES(N + 1) + 1], back[ROLLMAP_SCHEDULED_BYTES(N) + 1];
    struct rollmap_answer answer;
    const uint8_t *mark = more + ROLLMAP_CONTENTS_BYTES(3) + ROLLMAP_MARK_BYTES * N;
    const uint8_t *record = back + ROLLMAP_CONTENTS_BYTES(3) + ROLLMAP_MARK_BYTES * (N - 1) + ROLLMAP_RECORD_BYTES;
    unsigned at;

    memset(more, 0xee, sizeof more);
    memset(back, 0xee, sizeof back);
    answer = rollmap_add(sheet, length, -300, 1025, 0, 513, 149, 65534, ROLLMAP_NO_POPUP, work, sizeof work - 1, more, sizeof more);
    printf("add in short work: %u %u, then %02x\n", answer.number, answer.value, more[0]);
    answer = rollmap_add(sheet, length, -300, 1025, 0, 513, 200, 65534, ROLLMAP_NO_POPUP, work, sizeof work, more, sizeof more);
    printf("add an unknown kind: %u %u, then %02x\n", answer.number, answer.value, more[0]);
    answer = rollmap_add(sheet, length, -300, 1025, 0, 513, 149, 65534, 1, work, sizeof work, more, sizeof more);
    printf("add a popup without part 5: %u %u, then %02x\n", answer.number, answer.value, more[0]);
    answer = rollmap_add(sheet, length, -300, 1025, 0, 513, 149, 65534, ROLLMAP_NO_POPUP, work, sizeof work, more, sizeof more);
    printf("add: %u %u, then %02x, mark", answer.number, answer.value, more[answer.value]);
    for (at = 0; at < ROLLMAP_MARK_BYTES; at++)
        printf(" %02x", mark[at]);
    printf("\n");
    answer = rollmap_take_out(more, sizeof more - 1, N, work, sizeof work, back, sizeof back);
    printf("take it out: %u %u, the same %d, then %02x\n", answer.number, answer.value,
           memcmp(back, sheet, length) == 0, back[length]);
    answer = rollmap_take_out(sheet, length, N, work, sizeof work, back, sizeof back);
    printf("take out 4 of 4: %u %u\n", answer.number, answer.value);
    answer = rollmap_take_out(sheet, length, 65536, work, sizeof work, back, sizeof back);
    printf("take out 65536: %u %u, the same %d\n", answer.number, answer.value,
           memcmp(back, sheet, length) == 0);
    answer = rollmap_take_out(sheet, length, 0, work, sizeof work, back, sizeof back);
    printf("take out 0: %u %u, 1: %u %lu %lu\n", answer.number, answer.value,
           (unsigned)number_at(record, 2), (unsigned long)number_at(record + 2, 8),
           (unsigned long)number_at(record + 10, 4));
}

/* The schedule is ours; the marks alone have none; and one in which no mark of two goes is
   accepted by a check and not by the judge. */
static void print_judgements(const uint8_t *sheet, size_t length)
{
    static const uint16_t codes[3] = {ROLLMAP_CODE_MARKS, ROLLMAP_CODE_SCHEDULE, ROLLMAP_CODE_INDEX};
    static const uint8_t never[2 * ROLLMAP_RECORD_BYTES] = {
        255, 255, 0, 0, 0, 0, 0, 0, 0, 0, 0, 0, 0, 0, 255, 255};
    static const uint8_t index[2 * ROLLMAP_INDEX_BYTES] = {0, 0, 1, 0};
    uint8_t foreign[ROLLMAP_SCHEDULED_BYTES(2)], ours[ROLLMAP_SCHEDULED_BYTES(2)];
    uint8_t work[ROLLMAP_WORK_BYTES(2)];
    struct rollmap_body rows[3];
    struct rollmap_answer answer;

    answer = rollmap_judge(sheet, length);
    printf("judge: %u %u\n", answer.number, answer.value);
    rows[0].bytes = marks;
    rows[0].length = 2 * ROLLMAP_MARK_BYTES;
    rows[1].bytes = never;
    rows[1].length = sizeof never;
    rows[2].bytes = index;
    rows[2].length = sizeof index;
    answer = rollmap_assemble(codes, 1, rows, 3, foreign, sizeof foreign);
    answer = rollmap_judge(foreign, answer.value);
    printf("judge marks alone: %u %u\n", answer.number, answer.value);
    answer = rollmap_assemble(codes, 3, rows, 3, foreign, sizeof foreign);
    printf("nobody goes: %u %u", answer.number, answer.value);
    answer = rollmap_check(foreign, sizeof foreign);
    printf(", check %u %u", answer.number, answer.value);
    answer = rollmap_judge(foreign, sizeof foreign);
    printf(", judge %u %u", answer.number, answer.value);
    answer = rollmap_schedule(foreign, sizeof foreign, work, sizeof work, ours, sizeof ours);
    printf(", schedule %u %u", answer.number, answer.value);
    answer = rollmap_judge(ours, sizeof ours);
    printf(", judge that %u %u\n", answer.number, answer.value);
}

/* Further rows than codes are ignored, and fewer are refused. */
static void print_rows(const uint8_t *sheet)
{
    static const uint16_t codes[3] = {ROLLMAP_CODE_MARKS, ROLLMAP_CODE_SCHEDULE, ROLLMAP_CODE_EDITION};
    static const uint8_t edition[1] = {ROLLMAP_EDITION_FIRST};
    uint8_t out[ROLLMAP_SCHEDULED_BYTES(N)];
    struct rollmap_answer answer;
    const uint8_t *body1 = sheet + ROLLMAP_CONTENTS_BYTES(3);
    const size_t length1 = ROLLMAP_MARK_BYTES * N, length2 = ROLLMAP_RECORD_BYTES * N;
    struct rollmap_body rows[3];

    rows[0].bytes = body1;
    rows[0].length = length1;
    rows[1].bytes = body1 + length1;
    rows[1].length = length2;
    rows[2].bytes = edition;
    rows[2].length = sizeof edition;
    answer = rollmap_assemble(codes, 1, rows, 3, out, sizeof out);
    printf("part 1 of three: %u %u\n", answer.number, answer.value);
    answer = rollmap_assemble(codes, 3, rows, 3, out, sizeof out);
    printf("parts 1, 2 and 4: %u %u\n", answer.number, answer.value);
    answer = rollmap_assemble(codes, 3, rows, 2, out, sizeof out);
    printf("two rows for three codes: %u %u\n", answer.number, answer.value);
    answer = rollmap_assemble(codes + 1, 2, rows + 1, 2, out, sizeof out);
    printf("no part 1: %u %u\n", answer.number, answer.value);
    answer = rollmap_assemble(codes, 0, rows, 3, out, sizeof out);
    printf("no parts: %u %u\n", answer.number, answer.value);
}

/* Marks 1 and 2 have equal priority; with a larger radius, mark 2 ranks higher in the second
   edition. */
static void print_edition(uint8_t edition)
{
    static const uint16_t codes[2] = {ROLLMAP_CODE_MARKS, ROLLMAP_CODE_EDITION};
    uint8_t larger[sizeof marks], sheet[ROLLMAP_CONTENTS_BYTES(2) + sizeof marks + 1];
    uint8_t work[ROLLMAP_WORK_BYTES(N)];
    uint8_t out[ROLLMAP_SCHEDULED_BYTES(N) + ROLLMAP_EDITION_BYTES + 1];
    struct rollmap_body rows[2];
    struct rollmap_answer answer;
    struct rollmap_extent extent;

    memcpy(larger, marks, sizeof marks);
    larger[2 * ROLLMAP_MARK_BYTES + 4] = 90;
    rows[0].bytes = larger;
    rows[0].length = sizeof larger;
    rows[1].bytes = &edition;
    rows[1].length = 1;
    answer = rollmap_assemble(codes, 2, rows, 2, sheet, sizeof sheet);
    printf("edition %u: %u %u", edition, answer.number, answer.value);
    if (answer.number != ROLLMAP_SUCCESS) {
        printf("\n");
        return;
    }
    memset(out, 0xee, sizeof out);
    answer = rollmap_schedule(sheet, sizeof sheet, work, sizeof work, out, sizeof out - 2);
    printf(", in a short buffer %u %u", answer.number, answer.value);
    answer = rollmap_schedule(sheet, sizeof sheet, work, sizeof work, out, sizeof out);
    extent = rollmap_part(out, answer.value, ROLLMAP_CODE_EDITION);
    printf(", scheduled %u %u, then %02x, part 4 at %u: %u", answer.number, answer.value,
           out[answer.value], extent.offset, out[extent.offset]);
    extent = rollmap_part(out, answer.value, ROLLMAP_CODE_SCHEDULE);
    printf(", 1 by %u, 2 by %u\n",
           (unsigned)number_at(out + extent.offset + 1 * ROLLMAP_RECORD_BYTES, 2),
           (unsigned)number_at(out + extent.offset + 2 * ROLLMAP_RECORD_BYTES, 2));
}

/* A fifth mark comes with a popup, and goes. */
static void print_popup_changes(const uint8_t *sheet, size_t length)
{
    uint8_t work[ROLLMAP_WORK_BYTES(N + 1)];
    uint8_t more[ROLLMAP_SCHEDULED_BYTES(N + 1) + ROLLMAP_POPUPS_BYTES(N + 1) + 1];
    uint8_t back[ROLLMAP_SCHEDULED_BYTES(N) + ROLLMAP_POPUPS_BYTES(N) + 1];
    const uint8_t *last = more + sizeof more - 1 - ROLLMAP_POPUP_BYTES;
    struct rollmap_answer answer;

    memset(more, 0xee, sizeof more);
    memset(back, 0xee, sizeof back);
    answer = rollmap_add(sheet, length, 9, 9, 9, 9, 9, 9, ROLLMAP_LARGEST_POPUP + 1, work, sizeof work, more, sizeof more);
    printf("add a popup of 65537: %u %u, then %02x\n", answer.number, answer.value, more[0]);
    answer = rollmap_add(sheet, length, 9, 9, 9, 9, 9, 9, ROLLMAP_LARGEST_POPUP, work, sizeof work, more, sizeof more);
    printf("add a popup of 65536: %u %u, then %02x, part 5 ends in %02x %02x %02x %02x\n", answer.number,
           answer.value, more[answer.value], last[0], last[1], last[2], last[3]);
    answer = rollmap_take_out(more, sizeof more - 1, N, work, sizeof work, back, sizeof back);
    printf("take it out: %u %u, the same %d, then %02x\n", answer.number, answer.value,
           memcmp(back, sheet, length) == 0, back[length]);
}

/* Mark 0 pops up at zoom 10, and until then mark 1 ranks highest. */
static void print_popups(void)
{
    static const uint16_t codes[2] = {ROLLMAP_CODE_MARKS, ROLLMAP_CODE_POPUPS};
    const int32_t far = ROLLMAP_FARTHEST_EDGE;
    uint8_t popups[ROLLMAP_POPUP_BYTES * N] = {640 % 256, 640 / 256};
    uint8_t sheet[ROLLMAP_CONTENTS_BYTES(2) + sizeof marks + sizeof popups];
    uint8_t work[ROLLMAP_WORK_BYTES(N)];
    uint8_t out[ROLLMAP_SCHEDULED_BYTES(N) + ROLLMAP_POPUPS_BYTES(N) + 1];
    const size_t length = sizeof out - 1;
    uint8_t map[2] = {0xee, 0xee};
    struct rollmap_body rows[2];
    struct rollmap_answer answer;
    struct rollmap_extent extent;

    rows[0].bytes = marks;
    rows[0].length = sizeof marks;
    rows[1].bytes = popups;
    rows[1].length = sizeof popups;
    answer = rollmap_assemble(codes, 2, rows, 2, sheet, sizeof sheet);
    printf("popups: %u %u", answer.number, answer.value);
    memset(out, 0xee, sizeof out);
    answer = rollmap_schedule(sheet, sizeof sheet, work, sizeof work, out, length - 1);
    printf(", in a short buffer %u %u", answer.number, answer.value);
    answer = rollmap_schedule(sheet, sizeof sheet, work, sizeof work, out, sizeof out);
    extent = rollmap_part(out, length, ROLLMAP_CODE_POPUPS);
    printf(", scheduled %u %u, then %02x, part 5 at %u, %u bytes\n", answer.number, answer.value,
           out[answer.value], extent.offset, extent.length);
    print_record(out, length, 1);
    print_record(out, length, 2);
    print_view("stop 0", rollmap_view_stop(out, length, -far, far, -far, far, ROLLMAP_NO_TURN, 0, map, 2), map);
    print_view("wheel 10", rollmap_view_wheel(out, length, -far, far, -far, far, ROLLMAP_NO_TURN, 10.0f, map, 2), map);
    print_popup_changes(out, length);
    /* 640 plus 65,536. */
    popups[2] = 1;
    answer = rollmap_assemble(codes, 2, rows, 2, sheet, sizeof sheet);
    printf("a popup of 66176: %u %u\n", answer.number, answer.value);
}

static void print_refusals(const uint8_t *sheet, size_t length)
{
    struct rollmap_answer answer;
    struct rollmap_extent extent;
    uint8_t map[1] = {0xee};

    answer = rollmap_check(sheet, length - 1);
    printf("cut short: %u %u\n", answer.number, answer.value);
    extent = rollmap_part(sheet, length - 1, 1);
    printf("its part 1 at %u, %u bytes\n", extent.offset, extent.length);
    answer = rollmap_view_stop(sheet, length, 1, 0, 0, 0, ROLLMAP_NO_TURN, 0, map, 1);
    printf("crossed edges: %u %u, map %02x\n", answer.number, answer.value, map[0]);
    answer = rollmap_walk(map, 1, 9, 0);
    printf("short map: %u %u\n", answer.number, answer.value);
}

static void print_marks(void)
{
    /* A moisture patch with the house radius. */
    static const uint8_t patch[11] = {0, 0, 0, 0, 0, 0, 1, 0, 100, 7, 0};
    uint8_t out[12];
    struct rollmap_answer answer;

    memset(out, 0xee, sizeof out);
    answer = rollmap_fill(patch, sizeof patch, out, 10);
    printf("short fill: %u %u, then %02x\n", answer.number, answer.value, out[0]);
    answer = rollmap_fill(patch, sizeof patch, out, sizeof out);
    printf("fill: %u %u, radius %u, tag %u, then %02x\n", answer.number, answer.value,
           (unsigned)number_at(out + 4, 2), (unsigned)number_at(out + 9, 2), out[11]);
}

static void print_logs(void)
{
    /* At (-12345, 0). */
    static const uint8_t mark[11] = {0xc7, 0xcf, 0, 0, 1, 0, 1, 0, 100, 7, 0};
    uint8_t log[14], back[12];
    struct rollmap_answer answer;

    memset(log, 0xee, sizeof log);
    memset(back, 0xee, sizeof back);
    answer = rollmap_marks_to_log(mark, sizeof mark, log, sizeof log);
    printf("marks to log: %u %u, x %02x %02x %02x, then %02x\n", answer.number, answer.value,
           log[0], log[1], log[2], log[13]);
    answer = rollmap_log_to_marks(log, ROLLMAP_LOG_RECORD_BYTES, back, sizeof back);
    printf("log to marks: %u %u, the same %d, then %02x\n", answer.number, answer.value,
           memcmp(back, mark, sizeof mark) == 0, back[11]);
    log[5] = 0x0d;
    answer = rollmap_log_to_marks(log, ROLLMAP_LOG_RECORD_BYTES, back, sizeof back);
    printf("minus zero: %u %u\n", answer.number, answer.value);
}

/* Two marks, of which a sheet would have the first refused by 6, and the second by 5. */
static void print_columns(void)
{
    static const uint8_t two[22] = {
        5, 0, 2, 0, 255, 255, 7, 0, 4,   1, 2, /* (5, 2), 65535, 7 */
        3, 0, 2, 1, 10,  0,   8, 0, 250, 3, 4, /* (3, 258), 10, 8 */
    };
    uint8_t columns[23], back[23];
    struct rollmap_answer answer;
    unsigned at;

    memset(columns, 0xee, sizeof columns);
    memset(back, 0xee, sizeof back);
    answer = rollmap_to_columns(two, sizeof two, columns, 21);
    printf("short columns: %u %u, then %02x\n", answer.number, answer.value, columns[0]);
    answer = rollmap_to_columns(two, 21, columns, sizeof columns);
    printf("no whole mark: %u %u, then %02x\n", answer.number, answer.value, columns[0]);
    answer = rollmap_to_columns(two, sizeof two, columns, sizeof columns);
    printf("to columns: %u %u,", answer.number, answer.value);
    for (at = 0; at < sizeof columns; at++)
        printf(" %02x", columns[at]);
    answer = rollmap_from_columns(columns, 22, back, 21);
    printf("\nshort marks: %u %u, then %02x\n", answer.number, answer.value, back[0]);
    answer = rollmap_from_columns(columns, 23, back, sizeof back);
    printf("no whole column: %u %u, then %02x\n", answer.number, answer.value, back[0]);
    answer = rollmap_from_columns(columns, 22, back, sizeof back);
    printf("from columns: %u %u, the same %d, then %02x\n", answer.number, answer.value,
           memcmp(back, two, sizeof two) == 0, back[22]);
}

/* Prints the counts of a kind group, stop by stop. */
static void print_counts(const uint8_t *sheet, size_t length, unsigned group)
{
    struct rollmap_extent counts = rollmap_part(sheet, length, ROLLMAP_CODE_COUNTS);
    unsigned stop;

    for (stop = 0; stop < ROLLMAP_STOPS; stop++)
        printf(" %u", (unsigned)number_at(sheet + counts.offset + 2 * (ROLLMAP_GROUPS * stop + group), 2));
}

/* How many marks there are of other groups than the first, over all stops. */
static unsigned others(const uint8_t *sheet, size_t length)
{
    struct rollmap_extent counts = rollmap_part(sheet, length, ROLLMAP_CODE_COUNTS);
    unsigned at, sum = 0;

    for (at = 0; at < ROLLMAP_STOPS * ROLLMAP_GROUPS; at++)
        sum += at % ROLLMAP_GROUPS == 0 ? 0 : (unsigned)number_at(sheet + counts.offset + 2 * at, 2);
    return sum;
}

/* A break comes to the counted sheet, which mark 0 removes at 64 times zoom 512, and goes. */
static void print_counted_changes(const uint8_t *sheet, size_t length)
{
    uint8_t work[ROLLMAP_WORK_BYTES(N + 1)];
    uint8_t more[ROLLMAP_SCHEDULED_BYTES(N + 1) + ROLLMAP_COUNTED_BYTES + 1];
    uint8_t back[ROLLMAP_SCHEDULED_BYTES(N) + ROLLMAP_COUNTED_BYTES + 1];
    struct rollmap_answer answer;

    memset(more, 0xee, sizeof more);
    memset(back, 0xee, sizeof back);
    answer = rollmap_schedule(sheet, length, work, sizeof work, back, sizeof back);
    printf("schedule: %u %u, the same %d, then %02x\n", answer.number, answer.value,
           memcmp(back, sheet, length) == 0, back[length]);
    answer = rollmap_add(sheet, length, 0, -160, 10, 1, 150, 0, ROLLMAP_NO_POPUP, work, sizeof work, more, sizeof more);
    printf("add a break: %u %u, then %02x, breaks:", answer.number, answer.value, more[answer.value]);
    print_counts(more, answer.value, 4);
    memset(back, 0xee, sizeof back);
    answer = rollmap_take_out(more, sizeof more - 1, N, work, sizeof work, back, sizeof back);
    printf("\ntake it out: %u %u, the same %d, then %02x\n", answer.number, answer.value,
           memcmp(back, sheet, length) == 0, back[length]);
}

/* What is counted without an index, and what is refused. */
static void print_uncounted(const uint8_t *sheet)
{
    static const uint16_t codes[3] = {ROLLMAP_CODE_MARKS, ROLLMAP_CODE_SCHEDULE, ROLLMAP_CODE_COUNTS};
    uint8_t parts[ROLLMAP_CONTENTS_BYTES(2) + (ROLLMAP_MARK_BYTES + ROLLMAP_RECORD_BYTES) * N];
    uint8_t out[sizeof parts + ROLLMAP_COUNTED_BYTES];
    const struct rollmap_extent schedule = rollmap_part(sheet, ROLLMAP_SCHEDULED_BYTES(N), ROLLMAP_CODE_SCHEDULE);
    struct rollmap_body rows[3];
    struct rollmap_answer answer;
    struct rollmap_extent index;

    rows[0].bytes = marks;
    rows[0].length = sizeof marks;
    rows[1].bytes = sheet + schedule.offset;
    rows[1].length = schedule.length;
    answer = rollmap_assemble(codes, 2, rows, 2, parts, sizeof parts);
    answer = rollmap_count(parts, answer.value, out, sizeof out);
    index = rollmap_part(out, answer.value, ROLLMAP_CODE_INDEX);
    printf("count without an index: %u %u, its part 3 at %u, %u bytes\n", answer.number, answer.value,
           index.offset, index.length);
    answer = rollmap_assemble(codes, 1, rows, 1, parts, sizeof parts);
    answer = rollmap_count(parts, answer.value, out, sizeof out);
    printf("count marks alone: %u %u\n", answer.number, answer.value);
}

/* Marks 3, 1 and 2 go before the stops 4, 9 and 10. */
static void print_counted(const uint8_t *sheet, size_t length)
{
    static const uint16_t codes[2] = {ROLLMAP_CODE_MARKS, ROLLMAP_CODE_COUNTS};
    uint8_t out[ROLLMAP_SCHEDULED_BYTES(N) + ROLLMAP_COUNTED_BYTES + 1], again[sizeof out];
    struct rollmap_body rows[2];
    struct rollmap_answer answer;
    struct rollmap_extent counts;

    memset(out, 0xee, sizeof out);
    memset(again, 0xee, sizeof again);
    answer = rollmap_count(sheet, length, out, sizeof out - 2);
    printf("count in a short buffer: %u %u, then %02x\n", answer.number, answer.value, out[0]);
    answer = rollmap_count(sheet, length, out, sizeof out);
    length = answer.value;
    counts = rollmap_part(out, length, ROLLMAP_CODE_COUNTS);
    printf("count: %u %u, then %02x, part 6 at %u, %u bytes\nnotes:", answer.number, answer.value,
           out[length], counts.offset, counts.length);
    print_counts(out, length, 0);
    printf(", others %u\n", others(out, length));
    answer = rollmap_count(out, length, again, sizeof again);
    printf("count again: %u %u, the same %d, then %02x\n", answer.number, answer.value,
           memcmp(again, out, length) == 0, again[length]);
    print_counted_changes(out, length);
    print_uncounted(sheet);
    rows[0].bytes = marks;
    rows[0].length = sizeof marks;
    rows[1].bytes = again + counts.offset;
    rows[1].length = counts.length;
    out[counts.offset]++;
    answer = rollmap_check(out, length);
    printf("another count: check %u %u", answer.number, answer.value);
    answer = rollmap_count(out, length, again, sizeof again);
    printf(", count %u %u\n", answer.number, answer.value);
    answer = rollmap_assemble(codes, 2, rows, 2, out, sizeof out);
    printf("part 6 without part 2: %u %u\n", answer.number, answer.value);
}

/* Two marks that lie 30 apart along x and 40 along y, as disks 50 and as squares 40. */
static const uint8_t pair[2 * ROLLMAP_MARK_BYTES] = {
    0,  0, 0,  0, 10, 0, 9, 0, 0, 0, 0, /* (0, 0), 10, 9 */
    30, 0, 40, 0, 10, 0, 5, 0, 0, 0, 0, /* (30, 40), 10, 5 */
};

/* What part 7 says. */
static unsigned shape_of(const uint8_t *sheet, size_t length)
{
    return sheet[rollmap_part(sheet, length, ROLLMAP_CODE_SHAPE).offset];
}

/* A mark comes and goes, and the sheet is counted: part 7 stays, behind all others. */
static void print_shaped_changes(const uint8_t *sheet, size_t length)
{
    uint8_t work[ROLLMAP_WORK_BYTES(3)];
    uint8_t more[ROLLMAP_SCHEDULED_BYTES(3) + ROLLMAP_SHAPE_BYTES + 1];
    uint8_t back[ROLLMAP_SCHEDULED_BYTES(2) + ROLLMAP_SHAPE_BYTES + 1];
    uint8_t counted[ROLLMAP_SCHEDULED_BYTES(2) + ROLLMAP_SHAPE_BYTES + ROLLMAP_COUNTED_BYTES + 1];
    struct rollmap_answer answer;

    memset(more, 0xee, sizeof more);
    memset(counted, 0xee, sizeof counted);
    answer = rollmap_add(sheet, length, 1, 2, 3, 4, 5, 6, ROLLMAP_NO_POPUP, work, sizeof work, more, sizeof more);
    printf("add: %u %u, then %02x, part 7 at %u: %u", answer.number, answer.value, more[answer.value],
           rollmap_part(more, answer.value, ROLLMAP_CODE_SHAPE).offset, shape_of(more, answer.value));
    answer = rollmap_take_out(more, answer.value, 2, work, sizeof work, back, sizeof back);
    printf(", take it out: %u %u, the same %d\n", answer.number, answer.value,
           memcmp(back, sheet, length) == 0);
    answer = rollmap_count(sheet, length, counted, sizeof counted);
    printf("count: %u %u, then %02x, part 6 at %u, part 7 at %u: %u\n", answer.number, answer.value,
           counted[answer.value], rollmap_part(counted, answer.value, ROLLMAP_CODE_COUNTS).offset,
           rollmap_part(counted, answer.value, ROLLMAP_CODE_SHAPE).offset,
           shape_of(counted, answer.value));
}

/* At zoom 5 both shapes reach 50 along x and along y, but only squares the corner of that.
   Squares take no turn. */
static void print_shape(uint8_t shape)
{
    static const uint16_t codes[2] = {ROLLMAP_CODE_MARKS, ROLLMAP_CODE_SHAPE};
    uint8_t sheet[ROLLMAP_CONTENTS_BYTES(1) + sizeof pair + ROLLMAP_SHAPE_BYTES];
    uint8_t work[ROLLMAP_WORK_BYTES(2)];
    uint8_t out[ROLLMAP_SCHEDULED_BYTES(2) + ROLLMAP_SHAPE_BYTES + 1];
    uint8_t map[2] = {0xee, 0xee};
    struct rollmap_body rows[2];
    struct rollmap_answer answer;
    size_t length;

    memset(out, 0xee, sizeof out);
    rows[0].bytes = pair;
    rows[0].length = sizeof pair;
    rows[1].bytes = &shape;
    rows[1].length = 1;
    answer = rollmap_assemble(codes, 2, rows, 2, sheet, sizeof sheet);
    printf("shape %u: %u %u", shape, answer.number, answer.value);
    if (answer.number != ROLLMAP_SUCCESS) {
        printf("\n");
        return;
    }
    answer = rollmap_schedule(sheet, sizeof sheet, work, sizeof work, out, sizeof out - 2);
    printf(", in a short buffer %u %u", answer.number, answer.value);
    answer = rollmap_schedule(sheet, sizeof sheet, work, sizeof work, out, sizeof out);
    length = answer.value;
    printf(", scheduled %u %u, then %02x, part 7 at %u: %u\n", answer.number, answer.value, out[length],
           rollmap_part(out, length, ROLLMAP_CODE_SHAPE).offset, shape_of(out, length));
    print_record(out, length, 1);
    answer = rollmap_view_wheel(out, length, -99, -50, -99, -50, ROLLMAP_NO_TURN, 5, map, 1);
    print_view("wheel 5, the corner", answer, map);
    answer = rollmap_view_wheel(out, length, -99, 99, -99, 99, 1, 1, map, 1);
    print_view("wheel 1, turn 1", answer, map);
    print_shaped_changes(out, length);
}

int main(void)
{
    uint8_t sheet[ROLLMAP_CONTENTS_BYTES(1) + sizeof marks];
    uint8_t work[ROLLMAP_WORK_BYTES(N)];
    uint8_t out[ROLLMAP_SCHEDULED_BYTES(N) + 1];
    const uint16_t code = ROLLMAP_CODE_MARKS;
    const struct rollmap_body row = {marks, sizeof marks};
    struct rollmap_answer answer;

    memset(out, 0xee, sizeof out);
    answer = rollmap_assemble(&code, 1, &row, 1, sheet, sizeof sheet);
    printf("assemble: %u %u\n", answer.number, answer.value);
    answer = rollmap_schedule(sheet, sizeof sheet, work, sizeof work - 1, out, sizeof out);
    printf("short work: %u %u, then %02x\n", answer.number, answer.value, out[0]);
    answer = rollmap_schedule(sheet, sizeof sheet, work, sizeof work, out, sizeof out);
    printf("schedule: %u %u, then %02x\n", answer.number, answer.value, out[answer.value]);
    answer = rollmap_check(out, sizeof out - 1);
    printf("check: %u %u\n", answer.number, answer.value);
    print_schedule(out, sizeof out - 1);
    print_views(out, sizeof out - 1);
    print_turned_views(out, sizeof out - 1);
    print_refusals(out, sizeof out - 1);
    print_changes(out, sizeof out - 1);
    print_judgements(out, sizeof out - 1);
    print_rows(out);
    print_edition(ROLLMAP_EDITION_FIRST);
    print_edition(ROLLMAP_EDITION_SECOND);
    print_edition(3);
    print_popups();
    print_marks();
    print_logs();
    print_columns();
    print_counted(out, sizeof out - 1);
    print_shape(ROLLMAP_SHAPE_DISK);
    print_shape(ROLLMAP_SHAPE_SQUARE);
    print_shape(3);
    return 0;
}
