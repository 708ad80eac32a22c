#ifndef DOHVALIN_H
#define DOHVALIN_H

#include <stddef.h>
#include <stdint.h>

// Plays the schedule in `input` and prints into `output`. The answer is the number of bytes written times 16, plus 10
// where the next line does not fit. Only whole lines are written; the bytes behind the last one are unchanged.
uint64_t dohvalin_run(const uint8_t *input, size_t input_length, uint8_t *output, size_t output_length);

#endif
