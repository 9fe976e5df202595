/* In place of the archive: the model's own answers, with the fault that FAULT names. */
#include "hilladok.h"
#include "model.h"

#include <string.h>

enum { NONE, NUMBER, BYTE, AFTER_TEXT, REFUSED_WRITES, PAST_OUTPUT, BEFORE_OUTPUT, PAST_TEXT, BEFORE_TEXT, CHANGED_TEXT };

static volatile uint8_t read_byte;

static uint32_t answer(const struct expected *expected, size_t room)
{
    if (expected->refusal != 0)
        return HILLADOK_REFUSED + expected->refusal;
    return expected->length > room ? HILLADOK_REFUSED + 24 : (uint32_t)expected->length;
}

static void touch_text(const uint8_t *text, size_t length)
{
    if (FAULT == PAST_TEXT)
        read_byte = text[length];
    if (FAULT == BEFORE_TEXT)
        read_byte = text[-1];
    if (FAULT == CHANGED_TEXT && length > 0)
        ((uint8_t *)text)[length / 2] ^= 1;
}

uint32_t hilladok_canonicalise(const uint8_t *text, size_t length, uint8_t *out, size_t room)
{
    static struct expected expected;
    uint32_t number;
    expect(text, length, &expected);
    number = answer(&expected, room);
    if (number < HILLADOK_REFUSED)
        memcpy(out, expected.printed, number);
    if (FAULT == BYTE && number < HILLADOK_REFUSED)
        out[number / 2] ^= 1;
    if (FAULT == AFTER_TEXT && number < room)
        out[room - 1] ^= 1;
    if (FAULT == REFUSED_WRITES && number > HILLADOK_REFUSED && room > 0)
        out[0] = 0;
    if (FAULT == PAST_OUTPUT)
        out[room] = 0;
    if (FAULT == BEFORE_OUTPUT)
        out[-1] = 0;
    touch_text(text, length);
    return FAULT == NUMBER ? number + 1 : number;
}
