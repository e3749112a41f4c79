/* The gate as a static library: one trading day of northbound business, replayed from its input.
 *
 * The input is a day part and the events of the day, line by line; the answer has a line for each event, and a last
 * one for a fault if there is one. Both are bytes, without a zero at their end.
 *
 * C11 and C++. The library calls malloc and free of the program that it is linked to, and nothing else of it. It keeps
 * nothing from one call to the next, so that several threads may call it at once, each on its own buffers.
 */
#ifndef NORTHBOUND_H
#define NORTHBOUND_H

#include <stddef.h>
#include <stdint.h>

#ifdef __cplusplus
extern "C" {
#endif

/* What northbound_replay answers. */
enum {
    /* The input is answered. */
    NORTHBOUND_ANSWERED = 0,
    /* The answer is longer than the text that was given for it. */
    NORTHBOUND_TEXT_TOO_SHORT = 1,
    /* malloc had no memory for the tables or the book. */
    NORTHBOUND_MEMORY = 2,
    /* More rows than northbound_most_rows or more orders than northbound_most_orders were asked for. */
    NORTHBOUND_TOO_LARGE = 3
};

/* The most rows that each table may have: 16,384. */
uint64_t northbound_most_rows(void);

/* The most rows that the book may have: 50,000. */
uint64_t northbound_most_orders(void);

/* Answers a whole input.
 *
 *   input, input_length   the input, of any length
 *   rows                  the rows of each of the four tables, northbound_most_rows() at the most
 *   orders                the rows of the book, northbound_most_orders() at the most
 *   text, text_length     where the answer goes, and how many bytes there are for it
 *   length                where its length goes
 *
 * The tables and the book are allocated by the call and freed before it ends; the answer is written straight into text.
 * What is answered, and what then is in *length and in text:
 *
 *   NORTHBOUND_ANSWERED        the answer's length; the answer in the first *length bytes of text, and the bytes after
 *                              them as they were
 *   NORTHBOUND_TEXT_TOO_SHORT  the answer's length, which is above text_length; the answer's beginning in all of text
 *   NORTHBOUND_MEMORY          0; text as it was
 *   NORTHBOUND_TOO_LARGE       0; text as it was
 *
 * An input with a fault is answered too: the fault's line is the last one of the answer.
 *
 * No pointer may be null, also where its length is 0. Input and text have to be of their lengths, and length of one
 * size_t. The three must not overlap. None needs an alignment.
 */
uint32_t northbound_replay(const uint8_t *input, size_t input_length,
                           uint64_t rows, uint64_t orders,
                           uint8_t *text, size_t text_length,
                           size_t *length);

#ifdef __cplusplus
}
#endif

#endif
