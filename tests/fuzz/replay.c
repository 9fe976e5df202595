/*
 * Runs kept inputs, in hex, one a line, through the harness: replay FILE. Fails where an answer that the host entry can give never
 * occurred. With TRACED it says how much of the traced archive's code was run.
 */
#include "model.h"

#include <stdio.h>
#include <stdlib.h>

#define MOST_INPUT 16384u
#define ANSWERS 25

int LLVMFuzzerTestOneInput(const uint8_t *data, size_t size);

static uint8_t *input;
static size_t seen[ANSWERS];

static void fail(const char *why, size_t line)
{
    fprintf(stderr, "replay: line %zu: %s\n", line, why);
    exit(1);
}

/* The next digit's value, which no line lacks. */
static unsigned read_digit(int next, size_t line)
{
    if (next >= '0' && next <= '9')
        return (unsigned)(next - '0');
    if (next < 'a' || next > 'f')
        fail("not an input in hex", line);
    return (unsigned)(next - 'a') + 10;
}

/* The next line's bytes, and how many; MOST_INPUT + 1 at the end of the file. */
static size_t read_input(FILE *file, size_t line)
{
    size_t length = 0;
    int next;
    while ((next = getc(file)) != '\n') {
        unsigned high;
        if (next == EOF && length == 0)
            return MOST_INPUT + 1;
        if (length == MOST_INPUT)
            fail("an input that is too long", line);
        high = read_digit(next, line);
        input[length++] = (uint8_t)(16 * high + read_digit(getc(file), line));
    }
    return length;
}

static void count_answers(const uint8_t *text, size_t length)
{
    static struct expected expected;
    expect(text, length, &expected);
    seen[expected.refusal]++;
    if (expected.refusal == 0)
        seen[24]++;
}

/* The answers are 0 for a printed text, 2 to 16, 23, and 24, which the harness asks for after each printed text. */
static void show_answers(size_t inputs)
{
    size_t i;
    printf("replay: %zu inputs answered as the model has it: %zu printed", inputs, seen[0]);
    for (i = 2; i < ANSWERS; i++)
        if (seen[i] > 0)
            printf(", %zu with %zu", seen[i], i);
    printf("\n");
    for (i = 0; i < ANSWERS; i++)
        if (seen[i] == 0 && i != 1 && (i < 17 || i > 22)) {
            fprintf(stderr, "replay: never occurred: %zu\n", i);
            exit(1);
        }
}

#ifdef TRACED
static uint8_t *counters, *reached;
static size_t places;

void __sanitizer_cov_8bit_counters_init(uint8_t *start, uint8_t *stop);
void __sanitizer_cov_pcs_init(const uintptr_t *start, const uintptr_t *stop);
void __sanitizer_cov_trace_cmp1(uint8_t a, uint8_t b);
void __sanitizer_cov_trace_cmp2(uint16_t a, uint16_t b);
void __sanitizer_cov_trace_cmp4(uint32_t a, uint32_t b);
void __sanitizer_cov_trace_cmp8(uint64_t a, uint64_t b);
void __sanitizer_cov_trace_const_cmp1(uint8_t a, uint8_t b);
void __sanitizer_cov_trace_const_cmp2(uint16_t a, uint16_t b);
void __sanitizer_cov_trace_const_cmp4(uint32_t a, uint32_t b);
void __sanitizer_cov_trace_const_cmp8(uint64_t a, uint64_t b);
void __sanitizer_cov_trace_switch(uint64_t value, uint64_t *cases);

void __sanitizer_cov_8bit_counters_init(uint8_t *start, uint8_t *stop)
{
    counters = start;
    places = (size_t)(stop - start);
    reached = calloc(places, 1);
}

/* The traced archive calls these, and only the fuzzer makes something of them. */
void __sanitizer_cov_pcs_init(const uintptr_t *start, const uintptr_t *stop) { (void)start, (void)stop; }
void __sanitizer_cov_trace_cmp1(uint8_t a, uint8_t b) { (void)a, (void)b; }
void __sanitizer_cov_trace_cmp2(uint16_t a, uint16_t b) { (void)a, (void)b; }
void __sanitizer_cov_trace_cmp4(uint32_t a, uint32_t b) { (void)a, (void)b; }
void __sanitizer_cov_trace_cmp8(uint64_t a, uint64_t b) { (void)a, (void)b; }
void __sanitizer_cov_trace_const_cmp1(uint8_t a, uint8_t b) { (void)a, (void)b; }
void __sanitizer_cov_trace_const_cmp2(uint16_t a, uint16_t b) { (void)a, (void)b; }
void __sanitizer_cov_trace_const_cmp4(uint32_t a, uint32_t b) { (void)a, (void)b; }
void __sanitizer_cov_trace_const_cmp8(uint64_t a, uint64_t b) { (void)a, (void)b; }
void __sanitizer_cov_trace_switch(uint64_t value, uint64_t *cases) { (void)value, (void)cases; }

/* After each input, for a counter goes back to 0 after 255. */
static void note_coverage(void)
{
    size_t i;
    for (i = 0; i < places; i++) {
        reached[i] |= counters[i] != 0;
        counters[i] = 0;
    }
}

static void show_coverage(void)
{
    size_t i, sum = 0;
    for (i = 0; i < places; i++)
        sum += reached[i];
    printf("replay: %zu of the %zu counted places in the archive's code were reached\n", sum, places);
}
#else
static void note_coverage(void) {}
static void show_coverage(void) {}
#endif

int main(int count, char **arguments)
{
    FILE *file = count == 2 ? fopen(arguments[1], "r") : NULL;
    size_t inputs = 0, length;
    input = malloc(MOST_INPUT);
    if (!file || !input) {
        fprintf(stderr, "usage: replay FILE\n");
        return 2;
    }
    while ((length = read_input(file, inputs + 1)) <= MOST_INPUT) {
        uint8_t *exact = malloc(length > 0 ? length : 1);
        size_t i;
        for (i = 0; i < length; i++)
            exact[i] = input[i];
        if (length >= 2)
            count_answers(exact + 2, length - 2);
        LLVMFuzzerTestOneInput(exact, length);
        note_coverage();
        free(exact);
        inputs++;
    }
    fclose(file);
    free(input);
    show_answers(inputs);
    show_coverage();
    return 0;
}
