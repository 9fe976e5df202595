/*
 * One input for the host entry: two bytes that choose the output's length, then the text. The answer and every byte of the output
 * are held to the model, with text and output lent so that a page that cannot be touched follows their last byte, then so that
 * one precedes their first byte. With TRACED a second archive is called too, the same code compiled to count what it runs.
 */
#define _DEFAULT_SOURCE

#include "hilladok.h"
#include "model.h"

#include <stdio.h>
#include <stdlib.h>
#include <string.h>
#include <sys/mman.h>

#define PAGE 4096u
#define ROOM (3 * PAGE)
#define FILLED 0xa5
#define AROUND 0x5a

typedef uint32_t entry(const uint8_t *text, size_t text_length, uint8_t *out, size_t out_length);

entry hilladok_traced;
int LLVMFuzzerTestOneInput(const uint8_t *data, size_t size);

/* ROOM bytes between two pages that cannot be touched. */
static uint8_t *make_area(void)
{
    uint8_t *area = mmap(NULL, ROOM + 2 * PAGE, PROT_NONE, MAP_PRIVATE | MAP_ANONYMOUS, -1, 0);
    if (area == MAP_FAILED || mprotect(area + PAGE, ROOM, PROT_READ | PROT_WRITE) != 0) {
        perror("fuzz: cannot get memory");
        exit(2);
    }
    return area + PAGE;
}

static void different(const char *what, uint32_t answer, uint32_t right, size_t room)
{
    fprintf(stderr, "fuzz: %s: the answer is %u, the model's %u, the output has %zu bytes\n", what, answer, right, room);
    abort();
}

static int all_are(const uint8_t *bytes, size_t length, uint8_t value)
{
    return length == 0 || (bytes[0] == value && memcmp(bytes, bytes + 1, length - 1) == 0);
}

/* Lends length bytes of an area, at its end or at its start, the rest of it marked. */
static uint8_t *lend(uint8_t *area, size_t length, int at_end)
{
    memset(area, AROUND, ROOM);
    return at_end ? area + ROOM - length : area;
}

/* Whether what surrounds the lent bytes is as it was. */
static int kept(const uint8_t *area, const uint8_t *lent, size_t length)
{
    size_t before = (size_t)(lent - area);
    return all_are(area, before, AROUND) && all_are(lent + length, ROOM - before - length, AROUND);
}

static void check_call(entry *called, const uint8_t *data, size_t length, size_t room, const struct expected *expected, int at_end)
{
    static uint8_t *texts, *outputs;
    uint8_t *text, *out;
    size_t written = expected->refusal || expected->length > room ? 0 : expected->length;
    uint32_t right = written ? (uint32_t)written : HILLADOK_REFUSED + (expected->refusal ? expected->refusal : 24), answer;
    if (!texts) {
        texts = make_area();
        outputs = make_area();
    }
    text = lend(texts, length, at_end);
    if (length > 0)
        memcpy(text, data, length);
    out = lend(outputs, room, at_end);
    memset(out, FILLED, room);
    answer = called(text, length, out, room);
    if (answer != right)
        different("another answer", answer, right, room);
    if (memcmp(out, expected->printed, written) != 0 || !all_are(out + written, room - written, FILLED))
        different("other bytes in the output", answer, right, room);
    if ((length > 0 && memcmp(text, data, length) != 0) || !kept(texts, text, length) || !kept(outputs, out, room))
        different("the text, or bytes that were not lent, have changed", answer, right, room);
}

int LLVMFuzzerTestOneInput(const uint8_t *data, size_t size)
{
    static struct expected expected;
    size_t rooms[3], count = 1, i;
    if (size < 2 || size - 2 > ROOM)
        return 0;
    expect(data + 2, size - 2, &expected);
    rooms[0] = (data[0] + 256u * data[1]) % (ROOM + 1);
    if (expected.refusal == 0) {
        rooms[count++] = expected.length;
        rooms[count++] = expected.length - 1;
    }
    for (i = 0; i < count; i++) {
        check_call(hilladok_canonicalise, data + 2, size - 2, rooms[i], &expected, 1);
        check_call(hilladok_canonicalise, data + 2, size - 2, rooms[i], &expected, 0);
#ifdef TRACED
        check_call(hilladok_traced, data + 2, size - 2, rooms[i], &expected, 1);
#endif
    }
    return 0;
}
