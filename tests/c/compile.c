/* A schema whose one base allows a step limit up to 127, itself closed and with no property of its own: uncompiled it knows no step limit,
 * compiled it refuses 200 and accepts 127. Then what is refused: a schema that is not used, a count above what is lent, and no room. */
#include <inttypes.h>
#include <stdio.h>
#include <string.h>

#include "quarto_yaml.h"

enum { TOO_FAR = 0, FAR_ENOUGH = 1, LIMIT = 2 };
enum { NOTES = 2, SCHEMAS = 6, LINKS = 12 };             /* records lent */
enum { USED_NOTES = 0, USED_SCHEMAS = 3, USED_LINKS = 5 }; /* and used at first */
enum { BASE = 1, DERIVED = 2 };

static const uint32_t UNWRITTEN = 0xAAAAAAAA;
static const uint32_t none[1];

static const uint8_t pool[] = "wheelstep";
static const uint32_t texts[] = { 0, 5, 5, 4 };
static const uint64_t numbers[] = { 200, 127, 0x405FC00000000000u /* 127.0 */ };
/* the key, the value, the object */
static uint32_t nodes[] = {
    QY_NODE_STRING, 1, 0, 0,
    QY_NODE_INTEGER, TOO_FAR, 0, 0,
    QY_NODE_OBJECT, 0, 1, 0,
};
/* the entry; the base's property; the derived schema's base */
static const uint32_t first_links[USED_LINKS] = { 0, 1, 1, 0, BASE };
/* a number up to 127; an object with that property; a closed object over that base */
static const uint32_t first_schemas[USED_SCHEMAS * QY_SCHEMA_WORDS] = {
    QY_SCHEMA_NUMBER, QY_NONE, QY_NONE, LIMIT, QY_NONE, QY_NONE, QY_NONE, 0, 0, 0, 0, 0, 0, 0, 0, 0,
    QY_SCHEMA_OBJECT, QY_NONE, 2, 1, 4, 0, QY_NONE, 4, 0, QY_NONE, QY_NONE, 0, QY_NONE, QY_NONE, QY_NONE, 0,
    QY_SCHEMA_OBJECT, QY_NONE, 4, 0, 4, 0, QY_NONE, 4, 0, QY_NONE, QY_NONE, 1, QY_NONE, QY_NONE, 4, 1,
};

static uint32_t notes[NOTES * QY_NOTE_WORDS], schemas[SCHEMAS * QY_SCHEMA_WORDS], links[LINKS];

#define WORDS(x) (sizeof(x) / sizeof((x)[0]))

/* How many of the words from `from` on are another word. */
static size_t other(const uint32_t *words, size_t from, size_t count, uint32_t word)
{
    size_t n = 0;
    for (size_t i = from; i < count; i++)
        n += words[i] != word;
    return n;
}

static void begin(void)
{
    for (size_t i = 0; i < WORDS(notes); i++)
        notes[i] = UNWRITTEN;
    for (size_t i = 0; i < WORDS(schemas); i++)
        schemas[i] = UNWRITTEN;
    for (size_t i = 0; i < WORDS(links); i++)
        links[i] = UNWRITTEN;
    memcpy(schemas, first_schemas, sizeof first_schemas);
    memcpy(links, first_links, sizeof first_links);
}

/* Compiles with so many schema records lent and used, and prints the answer, whether what was used before is as it was, and what room
 * is not zero and what is not untouched behind the records that are used then. */
static qy_answer compile(const char *name, uint32_t schema, size_t lent, uint32_t used)
{
    begin();
    qy_answer r = qy_compile(pool, sizeof pool - 1, texts, WORDS(texts), nodes, WORDS(nodes), notes, WORDS(notes), USED_NOTES,
        schemas, lent * QY_SCHEMA_WORDS, used, none, 0, none, 0, links, WORDS(links), USED_LINKS,
        numbers, WORDS(numbers), schema);
    printf("%s: %" PRIu32 " table %" PRIu32 " record %" PRIu32 " used %" PRIu32 " %" PRIu32 " %" PRIu32 "\n",
        name, r.number, r.table, r.record, r.used_notes, r.used_schemas, r.used_links);
    size_t n = r.used_notes * QY_NOTE_WORDS, s = r.used_schemas * QY_SCHEMA_WORDS, l = r.used_links, end = lent * QY_SCHEMA_WORDS;
    printf("  before: %s; room not zero: %zu %zu %zu, not untouched: %zu %zu %zu\n",
        memcmp(schemas, first_schemas, sizeof first_schemas) == 0 && memcmp(links, first_links, sizeof first_links) == 0 ? "kept" : "changed",
        other(notes, n, WORDS(notes), 0), other(schemas, s, end, 0), other(links, l, WORDS(links), 0),
        other(notes, n, WORDS(notes), UNWRITTEN), other(schemas, s, end, UNWRITTEN), other(links, l, WORDS(links), UNWRITTEN));
    return r;
}

/* Checks the object against a schema, with the used records lent. */
static void validate(const char *name, uint32_t value, uint32_t schema, qy_answer used)
{
    uint32_t instance[QY_INSTANCE_PATH_WORDS], steps[QY_SCHEMA_PATH_WORDS];
    nodes[5] = value;
    qy_answer r = qy_validate(pool, sizeof pool - 1, texts, WORDS(texts), nodes, WORDS(nodes), notes, used.used_notes * QY_NOTE_WORDS,
        schemas, used.used_schemas * QY_SCHEMA_WORDS, none, 0, none, 0, links, used.used_links, numbers, WORDS(numbers),
        2, schema, instance, WORDS(instance), steps, WORDS(steps));
    printf("%s: %" PRIu32 " node %" PRIu32 " schema %" PRIu32 " value %g bound %g\n", name, r.number, r.node, r.schema, r.value, r.bound);
}

static void print(const char *name, const uint32_t *words, size_t count)
{
    printf("  %s", name);
    for (size_t i = 0; i < count; i++) {
        if (words[i] == QY_NONE)
            printf(" -");
        else
            printf(" %" PRIu32, words[i]);
    }
    printf("\n");
}

int main(void)
{
    qy_answer r = compile("derived", DERIVED, SCHEMAS, USED_SCHEMAS);
    print("note", notes, QY_NOTE_WORDS);
    print("base", schemas + 3 * QY_SCHEMA_WORDS, QY_SCHEMA_WORDS);
    print("object", schemas + 4 * QY_SCHEMA_WORDS, QY_SCHEMA_WORDS);
    print("links", links + USED_LINKS, LINKS - USED_LINKS);
    validate("uncompiled, step 127", FAR_ENOUGH, DERIVED, r);
    validate("compiled, step 200", TOO_FAR, r.record, r);
    validate("compiled, step 127", FAR_ENOUGH, r.record, r);
    compile("a number", 0, SCHEMAS, USED_SCHEMAS);
    compile("no such schema", 3, SCHEMAS, USED_SCHEMAS);
    compile("more used than lent", DERIVED, SCHEMAS, SCHEMAS + 1);
    compile("no room", DERIVED, USED_SCHEMAS + 1, USED_SCHEMAS);
    return 0;
}
