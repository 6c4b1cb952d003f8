/* Reads cases on standard input, all in this machine's byte order, and makes a call for each.
   A case begins with 4 bytes:
     0  putting together: the numbers of codes and of bodies and the length of the written
        buffer, 4 bytes each; the codes, 2 bytes each; and for each body its length, 4 bytes,
        and its bytes. Prints number, value, and the buffer with a byte behind it.
     1  reading a part: the length of the sheet and the code, 4 bytes each, and the sheet.
        Prints offset and length. */
#include <stdio.h>
#include <string.h>

#include "rollmap.h"

#define MOST 16
#define BODY_BYTES 4096

static uint16_t codes[MOST];
static struct rollmap_body rows[MOST];
static uint8_t bodies[MOST][BODY_BYTES], out[BODY_BYTES];

static int read_bytes(void *to, size_t length)
{
    return fread(to, 1, length, stdin) == length;
}

static int assemble(void)
{
    struct rollmap_answer answer;
    uint32_t numbers[3], length, i;

    if (!read_bytes(numbers, sizeof numbers) || numbers[0] > MOST || numbers[1] > MOST
        || numbers[2] >= BODY_BYTES || !read_bytes(codes, 2 * numbers[0]))
        return 0;
    for (i = 0; i < numbers[1]; i++) {
        if (!read_bytes(&length, sizeof length) || length > BODY_BYTES
            || !read_bytes(bodies[i], length))
            return 0;
        rows[i].bytes = bodies[i];
        rows[i].length = length;
    }
    memset(out, 0xee, sizeof out);
    answer = rollmap_assemble(codes, numbers[0], rows, numbers[1], out, numbers[2]);
    printf("%u %u ", (unsigned)answer.number, (unsigned)answer.value);
    for (i = 0; i <= numbers[2]; i++)
        printf("%02x", out[i]);
    printf("\n");
    return 1;
}

static int part(void)
{
    struct rollmap_extent extent;
    uint32_t numbers[2];

    if (!read_bytes(numbers, sizeof numbers) || numbers[0] > BODY_BYTES
        || !read_bytes(bodies[0], numbers[0]))
        return 0;
    extent = rollmap_part(bodies[0], numbers[0], numbers[1]);
    printf("%u %u\n", (unsigned)extent.offset, (unsigned)extent.length);
    return 1;
}

int main(void)
{
    uint32_t call;

    while (read_bytes(&call, sizeof call)) {
        if (!(call == 0 ? assemble() : part()))
            return 2;
    }
    return 0;
}
