/* Prints the canonical text of the expression that is its argument, or the number of its refusal. */
#include "hilladok.h"
#include <stdio.h>
#include <string.h>

int main(int count, char **words) {
    uint8_t out[HILLADOK_MOST_BYTES];
    const char *text = count > 1 ? words[1] : "";
    uint32_t answer = hilladok_canonicalise((const uint8_t *)text, strlen(text), out, sizeof out);
    if (answer >= HILLADOK_REFUSED) {
        return printf("refused: %u\n", (unsigned)(answer - HILLADOK_REFUSED)) < 0;
    }
    return printf("%.*s\n", (int)answer, (const char *)out) < 0;
}
