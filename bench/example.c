/* Replays a short day: a buy that uses the whole quota, one that finds nothing left, a trade below the limit, which
 * gives the difference back, and a sell for an account. Prints the day's answers. */
#include <stdint.h>
#include <stdio.h>
#include <stdlib.h>

#include "northbound.h"

/* A line's letter and its numbers. */
struct line {
    char letter;
    size_t count;
    unsigned long long numbers[5];
};

static const struct line day[] = {
    {'D', 3, {1, 20190215, 100000}},
    {'S', 4, {600000, 1, 1000, 10}},
    {'P', 3, {101, 600000, 500}},
    {'A', 3, {80000001, 600000, 300}},
    {'G', 2, {80000001, 102}},
    {'E', 4, {1, 1, 1, 1}},
    {'B', 5, {101, 0, 600000, 1000, 100}},
    {'B', 5, {102, 0, 600000, 900, 100}},
    {'T', 3, {1, 50, 900}},
    {'B', 5, {102, 0, 600000, 900, 100}},
    {'L', 5, {102, 80000001, 600000, 1000, 300}},
    {'T', 3, {3, 300, 1000}},
};

/* Writes a line in its columns, and answers how many bytes it has. */
static size_t write_line(char *text, size_t room, const struct line *line)
{
    size_t length = (size_t)snprintf(text, room, "%c", line->letter);

    for (size_t i = 0; i < line->count; i++) {
        length += (size_t)snprintf(text + length, room - length, "%16llu", line->numbers[i]);
    }
    length += (size_t)snprintf(text + length, room - length, "\n");
    return length;
}

int main(void)
{
    char input[2048];
    char text[2048];
    size_t input_length = 0;
    size_t length = 0;

    for (size_t i = 0; i < sizeof day / sizeof day[0]; i++) {
        input_length += write_line(input + input_length, sizeof input - input_length, &day[i]);
    }
    uint32_t status = northbound_replay((const uint8_t *)input, input_length, 256, 512,
                                        (uint8_t *)text, sizeof text, &length);
    if (status != NORTHBOUND_ANSWERED) {
        fprintf(stderr, "northbound_replay answers %u, and a length of %zu\n", (unsigned)status, length);
        return EXIT_FAILURE;
    }
    if (fwrite(text, 1, length, stdout) != length) {
        return EXIT_FAILURE;
    }
    return EXIT_SUCCESS;
}
