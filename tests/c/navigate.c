/* Calls the C boundary as a host does, and prints what it answers. */
#include "quarto_yaml.h"

#include <stdio.h>

/* The compiler refuses a layout that is not the library's. */
_Static_assert(sizeof(qy_answer) == 72, "qy_answer");
_Static_assert(offsetof(qy_answer, detail) == 24, "qy_answer.detail");
_Static_assert(offsetof(qy_answer, value) == 56, "qy_answer.value");
_Static_assert(sizeof(qy_span) == 16, "qy_span");

#define WORDS(table) (sizeof(table) / sizeof((table)[0]))

/* [{a: null, "é": 7, a: true}]: text 3 has the bytes of text 0, text 2 runs to the pool's end. */
static const uint8_t pool[] = {'a', 0xC3, 0xA9, 'a'};
static const uint32_t texts[] = {0, 1, 1, 2, 1, 3, 3, 1};
static const uint32_t nodes[] = {
    QY_NODE_STRING,  0, 0, 0, /* 0: the key a */
    QY_NODE_NULL,    0, 0, 0, /* 1 */
    QY_NODE_STRING,  1, 0, 0, /* 2: the key é */
    QY_NODE_INTEGER, 0, 0, 0, /* 3: 7 */
    QY_NODE_STRING,  3, 0, 0, /* 4: the later key a */
    QY_NODE_BOOLEAN, 1, 0, 0, /* 5 */
    QY_NODE_OBJECT,  0, 3, 0, /* 6 */
    QY_NODE_ARRAY,   6, 1, 0, /* 7 */
};
static const uint32_t links[] = {0, 1, 2, 3, 4, 5, 6};
static const uint64_t numbers[] = {7};
static const uint32_t none[1];

static qy_answer navigate(const uint32_t *n, size_t node_words, uint32_t node,
                          const uint32_t *path, size_t path_words, bool key_wanted)
{
    return qy_navigate(pool, sizeof pool, texts, WORDS(texts), n, node_words, none, 0, none, 0,
                       none, 0, none, 0, links, WORDS(links), numbers, WORDS(numbers),
                       node, path, path_words, key_wanted);
}

/* A word as it is printed: - for QY_NONE. */
static void word(const char *name, uint32_t w)
{
    if (w == QY_NONE)
        printf(" %s -", name);
    else
        printf(" %s %u", name, (unsigned)w);
}

static void show(const char *what, qy_answer r)
{
    printf("%s:", what);
    word("number", r.number);
    word("table", r.table);
    word("record", r.record);
    word("node", r.node);
    word("schema", r.schema);
    word("hint", r.hint);
    word("detail", r.detail);
    word("a", r.a);
    word("b", r.b);
    word("steps", r.instance_steps);
    word("kinds", r.schema_steps);
    word("notes", r.used_notes);
    word("schemas", r.used_schemas);
    word("links", r.used_links);
    printf(" value %g bound %g\n", r.value, r.bound);
}

static void text(uint32_t n)
{
    qy_span s = qy_text(pool, sizeof pool, texts, WORDS(texts), n);
    printf("text %u: start %zu length %zu\n", (unsigned)n, s.start, s.length);
}

int main(void)
{
    static const uint32_t to_a[] = {QY_STEP_INDEX, 0, QY_STEP_KEY, 0};
    static const uint32_t to_e[] = {QY_STEP_INDEX, 0, QY_STEP_KEY, 1};
    static const uint32_t past[] = {QY_STEP_INDEX, 1};
    static const uint32_t wrong_kind[] = {QY_STEP_KEY, 0};
    static const uint32_t bad_tag[] = {QY_STEP_INDEX, 0, 2, 0};
    static const uint32_t bad_text[] = {QY_STEP_KEY, 4};
    static const uint32_t bad_nodes[] = {QY_NODE_NULL, 0, 0, 0, QY_NODE_BOOLEAN, 2, 0, 0};

    show("empty path", navigate(nodes, WORDS(nodes), 7, none, 0, false));
    show("last entry", navigate(nodes, WORDS(nodes), 7, to_a, 4, false));
    show("its key", navigate(nodes, WORDS(nodes), 7, to_a, 4, true));
    show("other key", navigate(nodes, WORDS(nodes), 7, to_e, 4, false));
    show("item, key wanted", navigate(nodes, WORDS(nodes), 7, to_a, 2, true));
    show("past the end", navigate(nodes, WORDS(nodes), 7, past, 2, false));
    show("key of an array", navigate(nodes, WORDS(nodes), 7, wrong_kind, 2, false));
    show("no such node", navigate(nodes, WORDS(nodes), 8, to_a, 4, false));
    show("ragged path", navigate(nodes, WORDS(nodes), 8, to_a, 3, false));
    show("bad tag", navigate(nodes, WORDS(nodes), 8, bad_tag, 4, false));
    show("bad text", navigate(nodes, WORDS(nodes), 8, bad_text, 2, false));
    show("bad node", navigate(bad_nodes, WORDS(bad_nodes), 8, to_a, 3, false));
    show("ragged nodes", navigate(nodes, WORDS(nodes) - 1, 7, to_a, 4, false));
    text(0);
    text(1);
    text(2);
    text(4);
    return 0;
}
