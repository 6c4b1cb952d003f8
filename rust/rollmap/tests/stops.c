/* Reads views on standard input and answers each at every stop. A view is the lengths of the
   sheet and of the map, the edges and the turn, 4 bytes each, and the sheet, all in this
   machine's byte order. Prints a line a stop from 0 to 17: number, count, and the map with a byte
   behind it. Ends with 1 where the wheel value of the same zoom gives anything else, or a
   stop above 17 anything else than 17. */
#include <stdio.h>
#include <string.h>

#include "rollmap.h"

#define SHEET_BYTES 4096
#define MAP_BYTES 16

struct view {
    uint32_t sheet_length, map_length;
    int32_t x0, x1, y0, y1;
    uint32_t turn;
};

struct result {
    struct rollmap_answer answer;
    uint8_t map[MAP_BYTES];
};

static uint8_t sheet[SHEET_BYTES];

static struct result at_stop(const struct view *v, uint8_t stop)
{
    struct result r;

    memset(&r, 0xee, sizeof r);
    r.answer = rollmap_view_stop(sheet, v->sheet_length, v->x0, v->x1, v->y0, v->y1,
                                 (uint8_t)v->turn, stop, r.map, v->map_length);
    return r;
}

static struct result at_wheel(const struct view *v, float wheel)
{
    struct result r;

    memset(&r, 0xee, sizeof r);
    r.answer = rollmap_view_wheel(sheet, v->sheet_length, v->x0, v->x1, v->y0, v->y1,
                                  (uint8_t)v->turn, wheel, r.map, v->map_length);
    return r;
}

static int differ(const struct result *a, const struct result *b)
{
    return a->answer.number != b->answer.number || a->answer.value != b->answer.value
           || memcmp(a->map, b->map, MAP_BYTES) != 0;
}

static void print(const struct view *v, const struct result *r)
{
    uint32_t i;

    printf("%u %u ", (unsigned)r->answer.number, (unsigned)r->answer.value);
    for (i = 0; i <= v->map_length; i++)
        printf("%02x", r->map[i]);
    printf("\n");
}

int main(void)
{
    struct view v;
    struct result by_stop, other;
    unsigned stop;
    float wheel;

    while (fread(&v, sizeof v, 1, stdin) == 1) {
        if (v.sheet_length > SHEET_BYTES || v.map_length >= MAP_BYTES || v.turn > UINT8_MAX
            || fread(sheet, 1, v.sheet_length, stdin) != v.sheet_length)
            return 2;
        for (stop = 0, wheel = 1 / 64.0f; stop <= 16; stop++, wheel *= 2) {
            by_stop = at_stop(&v, (uint8_t)stop);
            other = at_wheel(&v, wheel);
            print(&v, &by_stop);
            if (differ(&by_stop, &other))
                return 1;
        }
        by_stop = at_stop(&v, 17);
        print(&v, &by_stop);
        for (stop = 18; stop <= 255; stop++) {
            other = at_stop(&v, (uint8_t)stop);
            if (differ(&by_stop, &other))
                return 1;
        }
    }
    return 0;
}
