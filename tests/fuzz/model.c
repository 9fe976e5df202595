/*
 * SPEC.md once more, in C and for the host entry alone: read the text by recursive descent, map the tree, print the policy.
 * Places are kept only as far as the mapping needs them, for the entry does not give any.
 */
#include "model.h"

#include <string.h>

#define MOST_DEPTH 32u
#define MOST_NODES 256u
#define NONE 256u

enum kind { STRING = 1, ARRAY, OBJECT, FUNCTION };

struct span {
    size_t start, end;
};

/* Names and strings are spans of the text; `after` is the first node behind the subtree. */
struct node {
    enum kind kind;
    struct span name, key;
    size_t children, after;
};

struct tree {
    const uint8_t *text;
    size_t length, place, count;
    uint32_t refusal;
    struct node nodes[MOST_NODES];
};

/* Each list is the node of its array, whose strings are the nodes that follow it, or NONE. */
struct policy {
    int certified, inclusions;
    size_t request, query, response;
};

/* ---- Bytes ---- */

static int is_blank(int byte)
{
    return byte == ' ' || byte == '\t' || byte == '\n' || byte == '\r';
}

static int is_alphanumeric(int byte)
{
    return (byte >= 'a' && byte <= 'z') || (byte >= 'A' && byte <= 'Z') || (byte >= '0' && byte <= '9');
}

/* The byte at the reader's place; -1 at the end of the text. */
static int here(const struct tree *tree)
{
    return tree->place < tree->length ? tree->text[tree->place] : -1;
}

static void skip_blanks(struct tree *tree)
{
    while (is_blank(here(tree)))
        tree->place++;
}

/* Letters, digits and one more byte. */
static struct span read_run(struct tree *tree, int also)
{
    struct span run;
    run.start = tree->place;
    while (is_alphanumeric(here(tree)) || here(tree) == also)
        tree->place++;
    run.end = tree->place;
    return run;
}

static int refuse(struct tree *tree, uint32_t refusal)
{
    tree->refusal = refusal;
    return 0;
}

static int take(struct tree *tree, int byte)
{
    if (here(tree) != byte)
        return refuse(tree, 4);
    tree->place++;
    return 1;
}

/* ---- Reading; every function gives 0 where it refuses ---- */

static struct span read_identifier(struct tree *tree)
{
    struct span name;
    skip_blanks(tree);
    name = read_run(tree, '_');
    skip_blanks(tree);
    return name;
}

static enum kind kind_of(int opener)
{
    switch (opener) {
    case '"':
        return STRING;
    case '[':
        return ARRAY;
    case '{':
        return OBJECT;
    default:
        return FUNCTION;
    }
}

static int may_open(int byte, struct span name)
{
    if (byte == '{' || byte == '(')
        return 1;
    return (byte == '[' || byte == '"') && name.start == name.end;
}

static int read_value(struct tree *tree, size_t around, struct span key);

static int read_member(struct tree *tree, enum kind kind, size_t around)
{
    struct span key = {0, 0};
    if (kind == OBJECT) {
        key = read_identifier(tree);
        if (!take(tree, ':'))
            return 0;
    }
    return read_value(tree, around, key);
}

static int read_members(struct tree *tree, size_t number, size_t around, int closer)
{
    skip_blanks(tree);
    if (here(tree) == closer)
        return take(tree, closer);
    for (;;) {
        if (!read_member(tree, tree->nodes[number].kind, around))
            return 0;
        tree->nodes[number].children++;
        skip_blanks(tree);
        if (here(tree) == closer)
            return take(tree, closer);
        if (!take(tree, ','))
            return 0;
    }
}

static int read_string(struct tree *tree, struct node *node)
{
    node->name = read_run(tree, '-');
    skip_blanks(tree);
    return take(tree, '"');
}

static int read_value(struct tree *tree, size_t around, struct span key)
{
    struct span name = read_identifier(tree);
    size_t number = tree->count;
    struct node *node;
    int done, opener = here(tree);
    if (!may_open(opener, name))
        return refuse(tree, 4);
    if (opener != '"' && around == MOST_DEPTH)
        return refuse(tree, 5);
    if (number == MOST_NODES)
        return refuse(tree, 6);
    tree->place++;
    tree->count++;
    node = &tree->nodes[number];
    memset(node, 0, sizeof *node);
    node->kind = kind_of(opener);
    node->name = name;
    node->key = key;
    if (opener == '"')
        done = read_string(tree, node);
    else
        done = read_members(tree, number, around + 1, opener == '(' ? ')' : opener == '[' ? ']' : '}');
    node->after = tree->count;
    return done;
}

static int read_tree(struct tree *tree)
{
    struct span no_key = {0, 0};
    size_t i;
    if (tree->length > MOST_BYTES)
        return refuse(tree, 2);
    for (i = 0; i < tree->length; i++)
        if (tree->text[i] >= 128)
            return refuse(tree, 3);
    return read_value(tree, 0, no_key);
}

/* ---- Mapping ---- */

static int is(const struct tree *tree, struct span span, const char *name)
{
    size_t length = span.end - span.start;
    return length == strlen(name) && memcmp(tree->text + span.start, name, length) == 0;
}

/* The last entry with this key, or NONE. */
static size_t lookup(const struct tree *tree, size_t object, const char *key)
{
    size_t child, found = NONE;
    for (child = object + 1; child < tree->nodes[object].after; child = tree->nodes[child].after)
        if (is(tree, tree->nodes[child].key, key))
            found = child;
    return found;
}

static int check_type(struct tree *tree, size_t number, enum kind kind, const char *name)
{
    if (tree->nodes[number].kind != kind)
        return refuse(tree, 7);
    return is(tree, tree->nodes[number].name, name) || refuse(tree, 8);
}

static int check_strings(struct tree *tree, size_t array)
{
    size_t child;
    if (tree->nodes[array].kind != ARRAY)
        return refuse(tree, 7);
    for (child = array + 1; child < tree->nodes[array].after; child = tree->nodes[child].after)
        if (tree->nodes[child].kind != STRING)
            return refuse(tree, 7);
    return 1;
}

/* Exactly one of two is there; both are refused with a number, neither with the next. */
static int check_one(struct tree *tree, size_t first, size_t second, uint32_t both)
{
    if ((first == NONE) != (second == NONE))
        return 1;
    return refuse(tree, first == NONE ? both + 1 : both);
}

static int map_strings(struct tree *tree, size_t object, const char *key, size_t *list)
{
    *list = lookup(tree, object, key);
    return *list == NONE ? refuse(tree, 10) : check_strings(tree, *list);
}

static int map_request(struct tree *tree, size_t object, struct policy *policy)
{
    return check_type(tree, object, OBJECT, "RequestCertification") &&
           map_strings(tree, object, "certified_request_headers", &policy->request) &&
           map_strings(tree, object, "certified_query_parameters", &policy->query);
}

/* A list object's array; NONE where the key is absent, or the object has no `headers`. */
static int map_headers(struct tree *tree, size_t object, const char *key, size_t *list)
{
    size_t found = lookup(tree, object, key);
    *list = NONE;
    if (found == NONE)
        return 1;
    if (!check_type(tree, found, OBJECT, "ResponseHeaderList"))
        return 0;
    *list = lookup(tree, found, "headers");
    return *list == NONE || check_strings(tree, *list);
}

static int map_response(struct tree *tree, size_t object, struct policy *policy)
{
    size_t inclusions, exclusions;
    if (!check_type(tree, object, OBJECT, "ResponseCertification") ||
        !map_headers(tree, object, "certified_response_headers", &inclusions) ||
        !map_headers(tree, object, "response_header_exclusions", &exclusions) || !check_one(tree, inclusions, exclusions, 15))
        return 0;
    policy->inclusions = inclusions != NONE;
    policy->response = policy->inclusions ? inclusions : exclusions;
    return 1;
}

static int map_certification(struct tree *tree, size_t object, struct policy *policy)
{
    size_t nothing, request, response;
    if (!check_type(tree, object, OBJECT, "Certification"))
        return 0;
    nothing = lookup(tree, object, "no_request_certification");
    request = lookup(tree, object, "request_certification");
    if (!check_one(tree, nothing, request, 13) || (request != NONE && !map_request(tree, request, policy)))
        return 0;
    response = lookup(tree, object, "response_certification");
    return response == NONE ? refuse(tree, 10) : map_response(tree, response, policy);
}

static int map_tree(struct tree *tree, struct policy *policy)
{
    size_t skip, certification;
    if (!check_type(tree, 0, FUNCTION, "default_certification"))
        return 0;
    if (tree->nodes[0].children == 0)
        return refuse(tree, 9);
    if (!check_type(tree, 1, OBJECT, "ValidationArgs"))
        return 0;
    skip = lookup(tree, 1, "no_certification");
    certification = lookup(tree, 1, "certification");
    if (!check_one(tree, skip, certification, 11))
        return 0;
    policy->certified = certification != NONE;
    return !policy->certified || map_certification(tree, certification, policy);
}

/* ---- Printing; the length counts on where the room ends ---- */

static void put(struct expected *expected, const void *bytes, size_t length)
{
    if (expected->length + length <= MOST_BYTES && length > 0)
        memcpy(expected->printed + expected->length, bytes, length);
    expected->length += length;
}

static void put_text(struct expected *expected, const char *text)
{
    put(expected, text, strlen(text));
}

static void put_list(struct expected *expected, const struct tree *tree, size_t array)
{
    size_t i;
    put_text(expected, "[");
    for (i = 1; i <= tree->nodes[array].children; i++) {
        struct span string = tree->nodes[array + i].name;
        put_text(expected, i > 1 ? ",\"" : "\"");
        put(expected, tree->text + string.start, string.end - string.start);
        put_text(expected, "\"");
    }
    put_text(expected, "]");
}

static void put_request(struct expected *expected, const struct tree *tree, const struct policy *policy)
{
    if (policy->request == NONE) {
        put_text(expected, "no_request_certification:Empty{},");
        return;
    }
    put_text(expected, "request_certification:RequestCertification{certified_request_headers:");
    put_list(expected, tree, policy->request);
    put_text(expected, ",certified_query_parameters:");
    put_list(expected, tree, policy->query);
    put_text(expected, "},");
}

static void put_policy(struct expected *expected, const struct tree *tree, const struct policy *policy)
{
    put_text(expected, "default_certification(ValidationArgs{");
    if (!policy->certified) {
        put_text(expected, "no_certification:Empty{}})");
        return;
    }
    put_text(expected, "certification:Certification{");
    put_request(expected, tree, policy);
    put_text(expected, "response_certification:ResponseCertification{");
    put_text(expected, policy->inclusions ? "certified_response_headers" : "response_header_exclusions");
    put_text(expected, ":ResponseHeaderList{headers:");
    put_list(expected, tree, policy->response);
    put_text(expected, "}}}})");
}

void expect(const uint8_t *text, size_t length, struct expected *expected)
{
    static struct tree tree;
    struct policy policy = {0, 0, NONE, NONE, NONE};
    tree.text = text;
    tree.length = length;
    tree.place = tree.count = 0;
    expected->length = 0;
    expected->refusal = 0;
    if (!read_tree(&tree) || !map_tree(&tree, &policy)) {
        expected->refusal = tree.refusal;
        return;
    }
    put_policy(expected, &tree, &policy);
    if (expected->length > MOST_BYTES)
        expected->refusal = 23;
}
