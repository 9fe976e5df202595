/* What the host entry must answer, by a model of SPEC.md of its own. */
#ifndef MODEL_H
#define MODEL_H

#include <stddef.h>
#include <stdint.h>

#define MOST_BYTES 8192u

/* A refusal other than 24, or 0 and the printed text. */
struct expected {
    uint32_t refusal;
    size_t length;
    uint8_t printed[MOST_BYTES];
};

void expect(const uint8_t *text, size_t length, struct expected *expected);

#endif
