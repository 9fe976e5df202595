/*
 * Hilladok for C and C++: read a certification expression, print its canonical text.
 * The function is in target/libhilladok.a, which ./archive makes, for x86-64 Linux. C99 or later, or C++.
 */
#ifndef HILLADOK_H
#define HILLADOK_H

#include <stddef.h>
#include <stdint.h>

#ifdef __cplusplus
extern "C" {
#endif

/* An answer below this is the printed length. Any other is this plus the number of a refusal. */
#define HILLADOK_REFUSED 65536u

/* The longest text that is read and the longest that is printed: an output of this length is always long enough. */
#define HILLADOK_MOST_BYTES 8192u

/* The most stack that one call uses, in bytes; tests/host/run measures it. */
#define HILLADOK_STACK_BYTES 32768u

/* Why a text is refused. The numbers left out are never given by this function. */
enum hilladok_refusal {
    /* The text is longer than 8,192 bytes. */
    HILLADOK_TEXT_TOO_LONG = 2,
    /* The text has a byte of 128 or more. */
    HILLADOK_NOT_ASCII = 3,
    /* The text is not an expression: a byte stands where it must not, or the text ends too early. */
    HILLADOK_SYNTAX = 4,
    /* More than 32 objects, functions and arrays are open inside one another. */
    HILLADOK_TOO_DEEP = 5,
    /* The text has more than 256 values. */
    HILLADOK_TOO_MANY_NODES = 6,
    /* A value is of the wrong kind: an object, a function, an array or a string was expected. */
    HILLADOK_UNEXPECTED_NODE_TYPE = 7,
    /* A function or an object has another name than expected. */
    HILLADOK_UNEXPECTED_NODE_NAME = 8,
    /* default_certification has no argument. */
    HILLADOK_MISSING_FUNCTION_PARAMETER = 9,
    /* An object lacks a property that it must have. */
    HILLADOK_MISSING_OBJECT_PROPERTY = 10,
    /* ValidationArgs has both no_certification and certification. */
    HILLADOK_EXTRANEOUS_VALIDATION_ARGS_PROPERTY = 11,
    /* ValidationArgs has neither no_certification nor certification. */
    HILLADOK_MISSING_VALIDATION_ARGS_PROPERTY = 12,
    /* Certification has both no_request_certification and request_certification. */
    HILLADOK_EXTRANEOUS_REQUEST_CERTIFICATION_PROPERTY = 13,
    /* Certification has neither no_request_certification nor request_certification. */
    HILLADOK_MISSING_REQUEST_CERTIFICATION_PROPERTY = 14,
    /* ResponseCertification has the headers of both certified_response_headers and response_header_exclusions. */
    HILLADOK_EXTRANEOUS_RESPONSE_CERTIFICATION_PROPERTY = 15,
    /* ResponseCertification has the headers of neither certified_response_headers nor response_header_exclusions. */
    HILLADOK_MISSING_RESPONSE_CERTIFICATION_PROPERTY = 16,
    /* The canonical text would be longer than 8,192 bytes. */
    HILLADOK_PRINTED_TOO_LONG = 23,
    /* The output is shorter than the canonical text. */
    HILLADOK_OUTPUT_TOO_SHORT = 24
};

/*
 * Reads the text and writes its canonical text to the front of out.
 * Answers the printed length, or HILLADOK_REFUSED plus one of the numbers above.
 *
 * - After a refusal every byte of out is as it was; otherwise every byte past the printed text is. No 0 is put at the end.
 * - Nothing outside text[0 .. text_length) is read, nothing outside out[0 .. out_length) is written, and the text is not changed.
 * - text and out must not overlap. A pointer may be NULL where its length is 0.
 * - The text may be any bytes at all. Every call returns.
 * - No globals, no heap, no locks, no system calls: it is reentrant, and any number of threads may call it at once, also over
 *   one text, each with an output of its own.
 */
uint32_t hilladok_canonicalise(const uint8_t *text, size_t text_length, uint8_t *out, size_t out_length);

#ifdef __cplusplus
}
#endif

#endif
