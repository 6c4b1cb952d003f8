/* Prints how many bytes of stack each call takes on 4,096 marks of the second edition, which pop
   up all over, which are counted once there is a schedule, and of which the shape is what its
   input says: it runs on a stack of which every byte has a known value beforehand. */
#define _POSIX_C_SOURCE 200809L
#include <pthread.h>
#include <stdio.h>
#include <stdlib.h>

#include "rollmap.h"

#define N ROLLMAP_MOST_MARKS
#define PAINT 0xa5
#define STACK_BYTES ((size_t)256 * 1024)
#define OWN_BYTES 256 /* what the painting function itself has below its last local */

/* Bytes of parts 4, 5 and 7 of n marks; of their scheduled sheet with these; and with part 6. */
#define KEPT_BYTES(n) (ROLLMAP_EDITION_BYTES + ROLLMAP_POPUPS_BYTES(n) + ROLLMAP_SHAPE_BYTES)
#define WHOLE_BYTES(n) (ROLLMAP_SCHEDULED_BYTES(n) + KEPT_BYTES(n))
#define COUNTED_BYTES(n) (WHOLE_BYTES(n) + ROLLMAP_COUNTED_BYTES)

static uint8_t marks[N * ROLLMAP_MARK_BYTES];
static uint8_t popups[N * ROLLMAP_POPUP_BYTES];
static uint8_t shape[1];
static uint8_t sheet[ROLLMAP_CONTENTS_BYTES(1) + sizeof marks + KEPT_BYTES(N)];
static uint8_t work[ROLLMAP_WORK_BYTES(N)];
static uint8_t whole[WHOLE_BYTES(N)];
static uint8_t out[COUNTED_BYTES(N)], again[COUNTED_BYTES(N)];
static uint8_t fewer[COUNTED_BYTES(N - 1)];
static uint8_t map[ROLLMAP_MAP_BYTES(N)];
static uint8_t filled[sizeof marks];
static uint8_t winder_log[N * ROLLMAP_LOG_RECORD_BYTES];
static uint8_t columns[sizeof marks];

static uint32_t assemble(void)
{
    static const uint16_t codes[4] = {ROLLMAP_CODE_MARKS, ROLLMAP_CODE_EDITION, ROLLMAP_CODE_POPUPS,
                                      ROLLMAP_CODE_SHAPE};
    static const uint8_t edition[1] = {ROLLMAP_EDITION_SECOND};
    const struct rollmap_body bodies[4] = {{marks, sizeof marks}, {edition, sizeof edition},
                                           {popups, sizeof popups}, {shape, sizeof shape}};

    return rollmap_assemble(codes, 4, bodies, 4, sheet, sizeof sheet).number;
}

/* A turn that is taken. */
static uint8_t turn(void)
{
    return shape[0] == ROLLMAP_SHAPE_DISK ? 3 : ROLLMAP_NO_TURN;
}

static uint32_t schedule(void)
{
    return rollmap_schedule(sheet, sizeof sheet, work, sizeof work, whole, sizeof whole).number;
}

static uint32_t count(void)
{
    return rollmap_count(whole, sizeof whole, out, sizeof out).number;
}

static uint32_t schedule_counted(void)
{
    return rollmap_schedule(out, sizeof out, work, sizeof work, again, sizeof again).number;
}

static uint32_t take_out(void)
{
    return rollmap_take_out(out, sizeof out, 0, work, sizeof work, fewer, sizeof fewer).number;
}

static uint32_t add(void)
{
    return rollmap_add(fewer, sizeof fewer, 1, 2, 3, 4, 5, 6, 7, work, sizeof work, out, sizeof out).number;
}

static uint32_t check(void)
{
    return rollmap_check(out, sizeof out).number;
}

static uint32_t judge(void)
{
    return rollmap_judge(out, sizeof out).number;
}

static uint32_t view_stop(void)
{
    return rollmap_view_stop(out, sizeof out, -32768, 32768, -32768, 32768, turn(), 0, map, sizeof map).number;
}

static uint32_t view_wheel(void)
{
    return rollmap_view_wheel(out, sizeof out, -32768, 32768, -32768, 32768, turn(), 1, map, sizeof map).number;
}

static uint32_t walk(void)
{
    return rollmap_walk(map, sizeof map, N, 0).number;
}

static uint32_t is_shown(void)
{
    return rollmap_is_shown(map, sizeof map, N, 0).number;
}

static uint32_t part(void)
{
    return rollmap_part(out, sizeof out, 1).length != sizeof marks;
}

static uint32_t fill(void)
{
    return rollmap_fill(marks, sizeof marks, filled, sizeof filled).number;
}

static uint32_t marks_to_log(void)
{
    return rollmap_marks_to_log(marks, sizeof marks, winder_log, sizeof winder_log).number;
}

static uint32_t log_to_marks(void)
{
    return rollmap_log_to_marks(winder_log, sizeof winder_log, filled, sizeof filled).number;
}

static uint32_t to_columns(void)
{
    return rollmap_to_columns(marks, sizeof marks, columns, sizeof columns).number;
}

static uint32_t from_columns(void)
{
    return rollmap_from_columns(columns, sizeof columns, filled, sizeof filled).number;
}

/* In an order in which each finds what it works on. */
static const struct call {
    const char *name;
    uint32_t (*make)(void);
} calls[] = {
    {"assemble", assemble},     {"schedule", schedule}, {"count", count},
    {"schedule_counted", schedule_counted},             {"take_out", take_out}, {"add", add},
    {"check", check},           {"judge", judge},       {"view_stop", view_stop}, {"view_wheel", view_wheel},
    {"walk", walk},             {"is_shown", is_shown}, {"part", part},         {"fill", fill},
    {"marks_to_log", marks_to_log}, {"log_to_marks", log_to_marks},
    {"to_columns", to_columns}, {"from_columns", from_columns},
};

static uint8_t *stack;

/* Paints the stack from its far end up to this function, makes the call, and looks how far
   the paint is gone. */
static void *measure(void *argument)
{
    const struct call *call = (const struct call *)argument;
    volatile uint8_t here = 0;
    uint8_t *near = (uint8_t *)&here - OWN_BYTES;
    uint8_t *at;

    for (at = stack; at < near; at++)
        *(volatile uint8_t *)at = PAINT;
    if (call->make() != ROLLMAP_SUCCESS)
        return NULL;
    for (at = stack; at < near && *(volatile uint8_t *)at == PAINT; at++)
        ;
    printf("%s: %lu\n", call->name, (unsigned long)((uint8_t *)&here - at));
    return argument;
}

static uint8_t some_byte(void)
{
    static uint64_t state = 1;

    state ^= state << 13;
    state ^= state >> 7;
    state ^= state << 17;
    return (uint8_t)(state >> 40) % 200;
}

/* Marks all over the place, with radii below 256 and popups below 65,536. */
static void fill_marks(void)
{
    size_t at;

    for (at = 0; at < sizeof marks; at++)
        marks[at] = at % ROLLMAP_MARK_BYTES == 5 ? 0 : some_byte();
    for (at = 0; at < sizeof popups; at++)
        popups[at] = at % ROLLMAP_POPUP_BYTES < 2 ? some_byte() : 0;
}

int main(void)
{
    pthread_attr_t attributes;
    pthread_t thread;
    void *space, *done;
    size_t i;

    fill_marks();
    if (fread(shape, 1, sizeof shape, stdin) != sizeof shape)
        return 1;
    if (posix_memalign(&space, 4096, STACK_BYTES) != 0 || pthread_attr_init(&attributes) != 0
        || pthread_attr_setstack(&attributes, space, STACK_BYTES) != 0)
        return 1;
    stack = (uint8_t *)space;
    for (i = 0; i < sizeof calls / sizeof calls[0]; i++) {
        if (pthread_create(&thread, &attributes, measure, (void *)&calls[i]) != 0
            || pthread_join(thread, &done) != 0 || done == NULL)
            return 1;
    }
    return 0;
}
