/*
 * Links the archive and holds hilladok_canonicalise to its header: the answer, every byte of the output, and the memory
 * around text and output. Usage: host FOLDER, where FOLDER has the fixed list (the files stdin and stdout).
 */
#define _DEFAULT_SOURCE

#include "hilladok.h"

#include <pthread.h>
#include <signal.h>
#include <stdarg.h>
#include <stdio.h>
#include <stdlib.h>
#include <string.h>
#include <sys/mman.h>
#include <unistd.h>

#define PAGE 4096u
#define ROOM (3 * PAGE)
#define FIXTURES 11
#define THREADS 4
#define ROUNDS 3
#define SHOWN 20
#define STACK (1u << 20)
#define LENGTH(array) (sizeof(array) / sizeof((array)[0]))

/* A text and what must come of it: a refusal, or 0 and the printed text. */
struct expected {
    const uint8_t *text;
    size_t length;
    uint32_t refusal;
    const uint8_t *printed;
    size_t needed;
};

/* ---- Results ---- */

static size_t checks, failures;

/* What is being checked; the handler of a forbidden access says it too. */
static char subject[160];

static void about(const char *format, ...)
{
    va_list arguments;
    size_t i;
    va_start(arguments, format);
    vsnprintf(subject, sizeof subject, format, arguments);
    va_end(arguments);
    for (i = 0; subject[i] != 0; i++)
        if (subject[i] < ' ' || subject[i] > '~')
            subject[i] = '?';
}

static void failed(const char *format, ...)
{
    va_list arguments;
    if (++failures > SHOWN)
        return;
    fprintf(stderr, "host: %s: ", subject);
    va_start(arguments, format);
    vfprintf(stderr, format, arguments);
    va_end(arguments);
    fputc('\n', stderr);
}

static void bad_use(const char *format, ...)
{
    va_list arguments;
    fputs("host: ", stderr);
    va_start(arguments, format);
    vfprintf(stderr, format, arguments);
    va_end(arguments);
    fputc('\n', stderr);
    exit(2);
}

static void forbidden_access(int number)
{
    static const char line[] = ": memory was touched that was not lent, or the text was written\n";
    ssize_t written = write(STDERR_FILENO, "host: ", 6);
    written += write(STDERR_FILENO, subject, strlen(subject));
    written += write(STDERR_FILENO, line, sizeof line - 1);
    _exit(written > 0 ? 1 : number);
}

/* ---- Memory to lend: pages with an unreadable one on each side ---- */

struct room {
    uint8_t *start;
    size_t size;
};

enum side { START, MIDDLE, END };

static struct room make_room(size_t size)
{
    struct room room = {NULL, size};
    uint8_t *pages = mmap(NULL, size + 2 * PAGE, PROT_NONE, MAP_PRIVATE | MAP_ANONYMOUS, -1, 0);
    if (pages == MAP_FAILED || mprotect(pages + PAGE, size, PROT_READ | PROT_WRITE) != 0)
        bad_use("no memory for the tests");
    room.start = pages + PAGE;
    return room;
}

static uint8_t *lend(struct room room, enum side side, size_t length)
{
    size_t spare = room.size - length;
    return room.start + (side == START ? 0 : side == END ? spare : spare / 2);
}

static void protect(struct room room, int how)
{
    if (mprotect(room.start, room.size, how) != 0)
        bad_use("mprotect fails");
}

/* No canary is ASCII, so no byte that belongs in an output looks like one. */
static uint8_t canaries[ROOM];

static void make_canaries(void)
{
    size_t i;
    for (i = 0; i < ROOM; i++)
        canaries[i] = (uint8_t)(0x80 | (i * 37 + i / 128));
}

/* ---- One call, and all that it may and may not do ---- */

static uint32_t wanted_answer(const struct expected *e, size_t room)
{
    if (e->refusal != 0)
        return HILLADOK_REFUSED + e->refusal;
    return e->needed <= room ? (uint32_t)e->needed : HILLADOK_REFUSED + HILLADOK_OUTPUT_TOO_SHORT;
}

/* Says which byte is the first that is not as wanted; places are counted from the output's start. */
static void report_output(struct room room, size_t before, const struct expected *e, size_t printed)
{
    size_t i;
    for (i = 0; i < room.size; i++) {
        int inside = i >= before && i - before < printed;
        uint8_t wanted = inside ? e->printed[i - before] : canaries[i];
        if (room.start[i] != wanted) {
            failed("byte %ld of the output is %d, wanted %d", (long)i - (long)before, room.start[i], wanted);
            return;
        }
    }
}

static int output_is_right(struct room room, size_t before, const struct expected *e, size_t printed)
{
    size_t after = before + printed;
    return memcmp(room.start, canaries, before) == 0 &&
           (printed == 0 || memcmp(room.start + before, e->printed, printed) == 0) &&
           memcmp(room.start + after, canaries + after, room.size - after) == 0;
}

/* How often each refusal came where it was wanted. */
static size_t seen[HILLADOK_OUTPUT_TOO_SHORT + 1];

static void check_call(struct room texts, struct room outs, enum side side, const struct expected *e, size_t out_length)
{
    uint8_t *text = lend(texts, side, e->length);
    uint8_t *out = lend(outs, side, out_length);
    size_t before = (size_t)(out - outs.start);
    uint32_t wanted = wanted_answer(e, out_length);
    uint32_t answer;

    if (e->length > 0)
        memcpy(text, e->text, e->length);
    memcpy(outs.start, canaries, outs.size);
    protect(texts, PROT_READ);
    answer = hilladok_canonicalise(text, e->length, out, out_length);
    protect(texts, PROT_READ | PROT_WRITE);

    checks++;
    if (answer != wanted)
        failed("output of %zu bytes: answer %u, wanted %u", out_length, answer, wanted);
    else if (!output_is_right(outs, before, e, wanted < HILLADOK_REFUSED ? wanted : 0))
        report_output(outs, before, e, wanted < HILLADOK_REFUSED ? wanted : 0);
    else if (answer >= HILLADOK_REFUSED)
        seen[answer - HILLADOK_REFUSED]++;
}

static struct room text_room, out_room;

/* Text and output begin where an unreadable page ends, then stand among canaries, then end where an unreadable page begins. */
static void check(const struct expected *e, size_t out_length)
{
    check_call(text_room, out_room, START, e, out_length);
    check_call(text_room, out_room, MIDDLE, e, out_length);
    check_call(text_room, out_room, END, e, out_length);
}

/* ---- The fixed list ---- */

static struct expected *list;
static size_t list_length;

static const struct {
    const char *name;
    uint32_t refusal;
} variants[] = {
    {"ok", 0},
    {"CelSyntaxException", HILLADOK_SYNTAX},
    {"UnexpectedNodeType", HILLADOK_UNEXPECTED_NODE_TYPE},
    {"UnexpectedNodeName", HILLADOK_UNEXPECTED_NODE_NAME},
    {"MissingFunctionParameter", HILLADOK_MISSING_FUNCTION_PARAMETER},
    {"MissingObjectProperty", HILLADOK_MISSING_OBJECT_PROPERTY},
    {"ExtraneousValidationArgsProperty", HILLADOK_EXTRANEOUS_VALIDATION_ARGS_PROPERTY},
    {"MissingValidationArgsProperty", HILLADOK_MISSING_VALIDATION_ARGS_PROPERTY},
    {"ExtraneousRequestCertificationProperty", HILLADOK_EXTRANEOUS_REQUEST_CERTIFICATION_PROPERTY},
    {"MissingRequestCertificationProperty", HILLADOK_MISSING_REQUEST_CERTIFICATION_PROPERTY},
    {"ExtraneousResponseCertificationProperty", HILLADOK_EXTRANEOUS_RESPONSE_CERTIFICATION_PROPERTY},
    {"MissingResponseCertificationProperty", HILLADOK_MISSING_RESPONSE_CERTIFICATION_PROPERTY},
};

/* The whole file with a 0 after it, and the number of its lines. It is kept to the end. */
static char *contents(const char *folder, const char *name, size_t *lines)
{
    char path[4096];
    char *bytes = NULL;
    long size = 0, i;
    FILE *file;

    if (snprintf(path, sizeof path, "%s/%s", folder, name) >= (int)sizeof path || (file = fopen(path, "rb")) == NULL)
        bad_use("cannot read %s of the folder %s", name, folder);
    if (fseek(file, 0, SEEK_END) != 0 || (size = ftell(file)) < 0 || fseek(file, 0, SEEK_SET) != 0 ||
        (bytes = malloc((size_t)size + 1)) == NULL || fread(bytes, 1, (size_t)size, file) != (size_t)size)
        bad_use("cannot read %s", path);
    fclose(file);
    bytes[size] = 0;
    *lines = 0;
    for (i = 0; i < size; i++)
        *lines += bytes[i] == '\n';
    if (size == 0 || bytes[size - 1] != '\n' || strlen(bytes) != (size_t)size)
        bad_use("%s is not made of lines", path);
    return bytes;
}

/* The next line, ended by a 0; moves the place to the line after it. */
static char *next_line(char **place)
{
    char *line = *place, *end = strchr(line, '\n');
    *end = 0;
    *place = end + 1;
    return line;
}

static unsigned digit(char c)
{
    if (c >= '0' && c <= '9')
        return (unsigned)(c - '0');
    if (c >= 'a' && c <= 'f')
        return (unsigned)(c - 'a') + 10;
    bad_use("the fixed list has a text that is not in hex");
    return 0;
}

/* The bytes take the place of the digits. */
static void read_text(char *line, struct expected *e)
{
    size_t digits = strlen(line), i;
    uint8_t *bytes = (uint8_t *)line;
    if (digits % 2 != 0 || digits / 2 > HILLADOK_MOST_BYTES)
        bad_use("the fixed list has a text of %zu digits", digits);
    for (i = 0; i < digits / 2; i++)
        bytes[i] = (uint8_t)(digit(line[2 * i]) << 4 | digit(line[2 * i + 1]));
    e->text = bytes;
    e->length = digits / 2;
}

static void read_answer(char *line, struct expected *e)
{
    size_t variant = strcspn(line, "\t"), i;
    char *last = strrchr(line, '\t');
    for (i = 0; i < LENGTH(variants); i++)
        if (strlen(variants[i].name) == variant && memcmp(variants[i].name, line, variant) == 0)
            break;
    if (i == LENGTH(variants) || (i == 0 && last == NULL))
        bad_use("the fixed list has an answer that no refusal stands for: %s", line);
    e->refusal = variants[i].refusal;
    if (e->refusal == 0) {
        e->printed = (const uint8_t *)last + 1;
        e->needed = strlen(last + 1);
        if (e->needed == 0 || e->needed > HILLADOK_MOST_BYTES)
            bad_use("the fixed list has a printed text of %zu bytes", e->needed);
    }
}

static void read_list(const char *folder)
{
    size_t answers_length, i;
    char *texts = contents(folder, "stdin", &list_length);
    char *answers = contents(folder, "stdout", &answers_length);
    if (list_length != answers_length)
        bad_use("the fixed list has %zu texts and %zu answers", list_length, answers_length);
    list = calloc(list_length, sizeof *list);
    if (list == NULL)
        bad_use("no memory for the fixed list");
    for (i = 0; i < list_length; i++) {
        read_text(next_line(&texts), &list[i]);
        read_answer(next_line(&answers), &list[i]);
    }
}

/* A printed text must print to itself. */
static void check_list(void)
{
    size_t i;
    for (i = 0; i < list_length; i++) {
        struct expected again = list[i];
        about("line %zu of the fixed list", i + 1);
        check(&list[i], HILLADOK_MOST_BYTES);
        if (list[i].refusal != 0)
            continue;
        check(&list[i], list[i].needed);
        check(&list[i], list[i].needed - 1);
        about("the printed text of line %zu of the fixed list", i + 1);
        again.text = again.printed;
        again.length = again.needed;
        check(&again, HILLADOK_MOST_BYTES);
    }
}

/* ---- The fixtures: the first texts of the list that are laid out over lines ---- */

static const struct expected *find_fixtures(void)
{
    static const char opening[] = "default_certification(\n";
    size_t i, found = 0;
    for (i = 0; i < list_length && found < FIXTURES; i++) {
        int starts = list[i].length >= sizeof opening - 1 && memcmp(list[i].text, opening, sizeof opening - 1) == 0;
        found = starts && list[i].refusal == 0 ? found + 1 : 0;
    }
    if (found < FIXTURES)
        bad_use("the fixed list has no %d fixtures in a row", FIXTURES);
    return list + (i - FIXTURES);
}

static size_t without_blanks(const struct expected *e, uint8_t *text)
{
    size_t i, length = 0;
    for (i = 0; i < e->length; i++)
        if (strchr(" \t\n\r", e->text[i]) == NULL)
            text[length++] = e->text[i];
    return length;
}

/* Each output length from none to more than needed. */
static void check_lengths(const struct expected *e)
{
    size_t length;
    for (length = 0; length <= e->needed + 16; length++)
        check(e, length);
    check(e, ROOM);
}

static void check_fixtures(void)
{
    const struct expected *fixtures = find_fixtures();
    static uint8_t text[HILLADOK_MOST_BYTES];
    size_t i;
    for (i = 0; i < FIXTURES; i++) {
        struct expected bare = fixtures[i];
        about("fixture %zu", i + 1);
        check_lengths(&fixtures[i]);
        about("fixture %zu without blanks", i + 1);
        bare.text = text;
        bare.length = without_blanks(&fixtures[i], text);
        check_lengths(&bare);
    }
}

/* ---- Texts made here ---- */

struct text {
    uint8_t bytes[ROOM];
    size_t length;
};

static void add(struct text *text, const char *piece)
{
    size_t length = strlen(piece);
    if (length > ROOM - text->length)
        bad_use("a text made here is too long");
    memcpy(text->bytes + text->length, piece, length);
    text->length += length;
}

static void add_times(struct text *text, const char *piece, size_t times)
{
    while (times-- > 0)
        add(text, piece);
}

#define ARGS(inside) "default_certification(ValidationArgs{" inside "})"
#define CERTIFICATION(inside) ARGS("certification:Certification{" inside "}")
#define RESPONSE(inside) CERTIFICATION("no_request_certification:\"\",response_certification:ResponseCertification{" inside "}")
#define SKIP ARGS("no_certification:Empty{}")

static struct expected refused(const struct text *text, uint32_t refusal)
{
    struct expected e = {text->bytes, text->length, refusal, NULL, 0};
    return e;
}

static void check_refused(const struct text *text, uint32_t refusal)
{
    struct expected e = refused(text, refusal);
    check(&e, 0);
    check(&e, 1);
    check(&e, sizeof SKIP - 1);
    check(&e, HILLADOK_MOST_BYTES);
    check(&e, ROOM);
}

static const struct {
    uint32_t refusal;
    const char *text;
} short_texts[] = {
    {HILLADOK_NOT_ASCII, "\x80"},
    {HILLADOK_NOT_ASCII, "]\xff"},
    {HILLADOK_NOT_ASCII, SKIP "\xc3\xa9"},
    {HILLADOK_SYNTAX, ""},
    {HILLADOK_SYNTAX, "a"},
    {HILLADOK_SYNTAX, "\x7f"},
    {HILLADOK_SYNTAX, "[\"a\",]"},
    {HILLADOK_SYNTAX, "[\"\",\" x\"]"},
    {HILLADOK_SYNTAX, "[\"_\"]"},
    {HILLADOK_SYNTAX, "default_certification(ValidationArgs{no_certification:Empty{}}"},
    {HILLADOK_UNEXPECTED_NODE_TYPE, "{}"},
    {HILLADOK_UNEXPECTED_NODE_TYPE, "\"default-certification\""},
    {HILLADOK_UNEXPECTED_NODE_TYPE, "default_certification(\"\")"},
    {HILLADOK_UNEXPECTED_NODE_TYPE, ARGS("certification:\"\"")},
    {HILLADOK_UNEXPECTED_NODE_TYPE, RESPONSE("certified_response_headers:ResponseHeaderList{headers:[[]]}")},
    {HILLADOK_UNEXPECTED_NODE_NAME, "f()"},
    {HILLADOK_UNEXPECTED_NODE_NAME, "default_certification(Validation{})"},
    {HILLADOK_MISSING_FUNCTION_PARAMETER, "default_certification()"},
    {HILLADOK_MISSING_OBJECT_PROPERTY, CERTIFICATION("no_request_certification:\"\"")},
    {HILLADOK_MISSING_OBJECT_PROPERTY, CERTIFICATION("request_certification:RequestCertification{}")},
    {HILLADOK_EXTRANEOUS_VALIDATION_ARGS_PROPERTY, ARGS("no_certification:\"\",certification:\"\"")},
    {HILLADOK_MISSING_VALIDATION_ARGS_PROPERTY, ARGS("")},
    {HILLADOK_EXTRANEOUS_REQUEST_CERTIFICATION_PROPERTY,
     CERTIFICATION("no_request_certification:\"\",request_certification:\"\"")},
    {HILLADOK_MISSING_REQUEST_CERTIFICATION_PROPERTY, CERTIFICATION("")},
    {HILLADOK_EXTRANEOUS_RESPONSE_CERTIFICATION_PROPERTY,
     RESPONSE("certified_response_headers:ResponseHeaderList{headers:[]},"
              "response_header_exclusions:ResponseHeaderList{headers:[]}")},
    {HILLADOK_MISSING_RESPONSE_CERTIFICATION_PROPERTY, RESPONSE("")},
    {HILLADOK_MISSING_RESPONSE_CERTIFICATION_PROPERTY, RESPONSE("certified_response_headers:ResponseHeaderList{}")},
};

static void check_short_texts(void)
{
    size_t i;
    for (i = 0; i < LENGTH(short_texts); i++) {
        struct text text = {{0}, 0};
        about("the text '%s'", short_texts[i].text);
        add(&text, short_texts[i].text);
        check_refused(&text, short_texts[i].refusal);
    }
}

/* A zero byte does not end a text: it is a byte that no expression has. */
static void check_zero_bytes(void)
{
    struct text text = {{0}, 0};
    struct expected skip = {text.bytes, sizeof SKIP + 2, 0, (const uint8_t *)SKIP, sizeof SKIP - 1};
    about("zero bytes after the expression");
    add(&text, SKIP);
    check(&skip, sizeof SKIP - 1);
    about("a zero byte before the expression");
    memmove(text.bytes + 1, text.bytes, text.length++);
    text.bytes[0] = 0;
    check_refused(&text, HILLADOK_SYNTAX);
}

/* ---- The limits ---- */

static void check_text_limit(void)
{
    struct text text = {{0}, 0};
    about("a text of 8,192 blanks");
    add_times(&text, " ", HILLADOK_MOST_BYTES);
    check_refused(&text, HILLADOK_SYNTAX);
    about("a text of 8,193 bytes");
    add(&text, " ");
    check_refused(&text, HILLADOK_TEXT_TOO_LONG);
    about("a text of 8,193 bytes that is not ASCII");
    text.bytes[0] = 0x80;
    check_refused(&text, HILLADOK_TEXT_TOO_LONG);
    about("a text of 12,288 bytes");
    add_times(&text, "\"", ROOM - text.length);
    check_refused(&text, HILLADOK_TEXT_TOO_LONG);
}

static void check_depth_limit(void)
{
    struct text text = {{0}, 0};
    about("32 open arrays");
    add_times(&text, "[", 32);
    check_refused(&text, HILLADOK_SYNTAX);
    about("32 closed arrays");
    add_times(&text, "]", 32);
    check_refused(&text, HILLADOK_UNEXPECTED_NODE_TYPE);
    about("33 open arrays");
    memset(text.bytes, '[', 33);
    text.length = 33;
    check_refused(&text, HILLADOK_TOO_DEEP);
    about("an array that is both the 33rd level and the 257th value");
    text.length = 32;
    add_times(&text, "\"\",", 256 - 32);
    add(&text, "[");
    check_refused(&text, HILLADOK_TOO_DEEP);
}

static void check_node_limit(void)
{
    struct text text = {{0}, 0};
    about("257 values");
    add(&text, "[\"\"");
    add_times(&text, ",\"\"", 255);
    add(&text, "]");
    check_refused(&text, HILLADOK_TOO_MANY_NODES);
    about("256 values");
    text.length = 0;
    add(&text, "[\"\"");
    add_times(&text, ",\"\"", 254);
    add(&text, "]");
    check_refused(&text, HILLADOK_UNEXPECTED_NODE_TYPE);
}

/* ResponseOnly with one string of so many bytes; the request's value is ignored, so it may be shorter than it prints. */
static struct text one_string(const char *request, size_t length)
{
    struct text text = {{0}, 0};
    add(&text, "default_certification(ValidationArgs{certification:Certification{no_request_certification:");
    add(&text, request);
    add(&text, ",response_certification:ResponseCertification{certified_response_headers:ResponseHeaderList{headers:[\"");
    add_times(&text, "x", length);
    add(&text, "\"]}}}})");
    return text;
}

/* Text and output that fill their pages have an unreadable page right before and right after them, both at once. */
static void check_printed_limit(void)
{
    static struct text longest, shorter, over, most_over;
    struct room tight_text = make_room(HILLADOK_MOST_BYTES), tight_out = make_room(HILLADOK_MOST_BYTES);
    struct expected e;

    longest = one_string("Empty{}", 7986);
    e = refused(&longest, 0);
    e.printed = longest.bytes;
    e.needed = longest.length;
    about("the longest text that prints to itself");
    check_call(tight_text, tight_out, START, &e, HILLADOK_MOST_BYTES);
    check_lengths(&e);

    shorter = one_string("\"\"", 7986);
    e.text = shorter.bytes;
    e.length = shorter.length;
    about("a text that prints to 8,192 bytes");
    check(&e, HILLADOK_MOST_BYTES);
    check(&e, HILLADOK_MOST_BYTES - 1);

    about("a text that would print to 8,193 bytes");
    over = one_string("\"\"", 7987);
    check_refused(&over, HILLADOK_PRINTED_TOO_LONG);
    about("a text of 8,192 bytes that would print to more");
    most_over = one_string("\"\"", 7991);
    e = refused(&most_over, HILLADOK_PRINTED_TOO_LONG);
    check_call(tight_text, tight_out, START, &e, HILLADOK_MOST_BYTES);
    check_refused(&most_over, HILLADOK_PRINTED_TOO_LONG);
}

/* ---- NULL ---- */

static void check_answer(uint32_t answer, uint32_t wanted)
{
    checks++;
    if (answer != wanted)
        failed("answer %u, wanted %u", answer, wanted);
}

static void check_null(void)
{
    const uint8_t *skip = (const uint8_t *)SKIP;
    uint8_t out[8] = {1, 2, 3, 4, 5, 6, 7, 8};
    static const uint8_t lent[8] = {1, 2, 3, 4, 5, 6, 7, 8};

    about("NULL for an empty text");
    check_answer(hilladok_canonicalise(NULL, 0, out, sizeof out), HILLADOK_REFUSED + HILLADOK_SYNTAX);
    check_answer(memcmp(out, lent, sizeof out) != 0, 0);
    about("NULL for an empty output");
    check_answer(hilladok_canonicalise(skip, sizeof SKIP - 1, NULL, 0), HILLADOK_REFUSED + HILLADOK_OUTPUT_TOO_SHORT);
    check_answer(hilladok_canonicalise(skip, 1, NULL, 0), HILLADOK_REFUSED + HILLADOK_SYNTAX);
    about("NULL for an empty text and an empty output");
    check_answer(hilladok_canonicalise(NULL, 0, NULL, 0), HILLADOK_REFUSED + HILLADOK_SYNTAX);
}

/* ---- Each number ---- */

static void check_every_number_came(void)
{
    uint32_t number;
    for (number = HILLADOK_TEXT_TOO_LONG; number <= HILLADOK_OUTPUT_TOO_SHORT; number++) {
        if (number > HILLADOK_MISSING_RESPONSE_CERTIFICATION_PROPERTY && number < HILLADOK_PRINTED_TOO_LONG)
            continue;
        about("refusal %u", number);
        checks++;
        if (seen[number] == 0)
            failed("never came");
    }
}

/* ---- Threads ---- */

static pthread_barrier_t together;

struct worker {
    pthread_t thread;
    size_t first, wrong, wrong_line;
};

static int is_right(const struct expected *e)
{
    uint8_t out[HILLADOK_MOST_BYTES];
    size_t printed = e->refusal == 0 ? e->needed : 0;
    memcpy(out, canaries, sizeof out);
    return hilladok_canonicalise(e->text, e->length, out, sizeof out) == wanted_answer(e, sizeof out) &&
           (printed == 0 || memcmp(out, e->printed, printed) == 0) &&
           memcmp(out + printed, canaries + printed, sizeof out - printed) == 0;
}

/* All threads share the texts; each starts at another one. */
static void *work(void *argument)
{
    struct worker *worker = argument;
    size_t i;
    pthread_barrier_wait(&together);
    for (i = 0; i < ROUNDS * list_length; i++) {
        size_t line = (worker->first + i) % list_length;
        if (!is_right(&list[line])) {
            worker->wrong++;
            worker->wrong_line = line + 1;
        }
    }
    return NULL;
}

static void check_threads(void)
{
    struct worker workers[THREADS];
    size_t i;
    about("%d threads at once", THREADS);
    if (pthread_barrier_init(&together, NULL, THREADS) != 0)
        bad_use("no barrier for the threads");
    for (i = 0; i < THREADS; i++) {
        workers[i].first = i * list_length / THREADS;
        workers[i].wrong = 0;
        if (pthread_create(&workers[i].thread, NULL, work, &workers[i]) != 0)
            bad_use("no thread for the tests");
    }
    for (i = 0; i < THREADS; i++) {
        pthread_join(workers[i].thread, NULL);
        checks += ROUNDS * list_length;
        if (workers[i].wrong > 0)
            failed("thread %zu: %zu wrong, one is line %zu of the fixed list", i + 1, workers[i].wrong, workers[i].wrong_line);
    }
}

/* ---- Stack ---- */

#define PAINT 0xa5

static struct room stack;
static struct text deep_texts[3];

static void call(const uint8_t *text, size_t length)
{
    static uint8_t out[HILLADOK_MOST_BYTES];
    hilladok_canonicalise(text, length, out, sizeof out);
}

/* Every text on a painted stack; answers how far below this frame the paint is gone. */
static void *use_stack(void *answer)
{
    uint8_t *untouched = stack.start;
    size_t i;
    for (i = 0; i < list_length; i++)
        call(list[i].text, list[i].length);
    for (i = 0; i < LENGTH(deep_texts); i++)
        call(deep_texts[i].bytes, deep_texts[i].length);
    while (*untouched == PAINT)
        untouched++;
    *(size_t *)answer = (size_t)((uintptr_t)&untouched - (uintptr_t)untouched);
    return NULL;
}

static size_t stack_used(void)
{
    pthread_attr_t attributes;
    pthread_t thread;
    size_t used = 0;
    memset(stack.start, PAINT, stack.size);
    if (pthread_attr_init(&attributes) != 0 || pthread_attr_setstack(&attributes, stack.start, stack.size) != 0 ||
        pthread_create(&thread, &attributes, use_stack, &used) != 0)
        bad_use("no thread with a stack of its own");
    pthread_join(thread, NULL);
    pthread_attr_destroy(&attributes);
    return used;
}

/* The first run also resolves the symbols, on its stack; the second does not. */
static void check_stack(void)
{
    static const char *const openers[] = {"[", "f(", "o{k:"};
    size_t i, used;
    for (i = 0; i < LENGTH(openers); i++)
        add_times(&deep_texts[i], openers[i], 32);
    stack = make_room(STACK);
    stack_used();
    used = stack_used();
    about("the stack");
    checks++;
    if (used > HILLADOK_STACK_BYTES)
        failed("%zu bytes used, the header says %u", used, HILLADOK_STACK_BYTES);
    printf("host: a call used %zu bytes of stack at most\n", used);
}

int main(int count, char **arguments)
{
    if (count != 2)
        bad_use("usage: host FOLDER");
    if (sysconf(_SC_PAGESIZE) != (long)PAGE)
        bad_use("pages are not of %u bytes", PAGE);
    signal(SIGSEGV, forbidden_access);
    signal(SIGBUS, forbidden_access);
    make_canaries();
    text_room = make_room(ROOM);
    out_room = make_room(ROOM);
    read_list(arguments[1]);

    check_short_texts();
    check_zero_bytes();
    check_text_limit();
    check_depth_limit();
    check_node_limit();
    check_printed_limit();
    check_null();
    check_fixtures();
    check_list();
    check_every_number_came();
    check_threads();
    check_stack();

    if (failures > 0) {
        fprintf(stderr, "host: %zu of %zu checks failed\n", failures, checks);
        return 1;
    }
    printf("host: %zu texts in the list, %zu checks passed\n", list_length, checks);
    return 0;
}
