/* Measures how much stack each call takes at the tables that need most of it.
 *
 * Values nest as deep as there are nodes, schemas 64 visits deep by each kind in
 * turn, over an enum that compares two values of the greatest depth. A call runs
 * on a stack of its own that is filled with a pattern before. */
#define _GNU_SOURCE
#include <stdio.h>
#include <stdlib.h>
#include <string.h>
#include <sys/mman.h>
#include <ucontext.h>

#include "quarto_yaml.h"

enum { STACK = 64 << 20, PATTERN = 0xA5, VISITS = 64 };

static uint8_t pool[VISITS];
static uint32_t texts[2 * VISITS]; /* each one letter, all different */
static uint32_t nodes[4 * QY_MOST_NODES], notes[9 * QY_MOST_NOTES], schemas[16 * QY_MOST_SCHEMAS], links[QY_MOST_LINKS];
static uint32_t registry[2 * QY_MOST_ENTRIES], path[2 * QY_MOST_NODES];
static const uint64_t numbers[1];
static uint32_t node_count, schema_count, link_count, entry_count, path_steps;
static uint32_t instance[QY_INSTANCE_PATH_WORDS], steps[QY_SCHEMA_PATH_WORDS];
static qy_answer answer;

#define TABLES pool, VISITS, texts, 2 * VISITS, nodes, 4 * node_count, notes, 0, schemas, 16 * schema_count, registry, 2 * entry_count, \
    texts, 0, links, link_count, numbers, 0

static uint32_t add_node(uint32_t kind, uint32_t a, uint32_t b)
{
    uint32_t *record = nodes + 4 * node_count;
    record[0] = kind;
    record[1] = a;
    record[2] = b;
    record[3] = 0;
    return node_count++;
}

static uint32_t link_one(uint32_t link)
{
    links[link_count] = link;
    return link_count++;
}

static uint32_t *add_schema(uint32_t kind)
{
    uint32_t *record = schemas + 16 * schema_count++;
    memset(record, 0, 64);
    record[0] = kind;
    record[1] = QY_NONE;
    return record;
}

static void clear(void) { node_count = schema_count = link_count = entry_count = path_steps = 0; }

/* a value as deep as the table of nodes allows: arrays, or objects with one key */
static void deep_value(bool object)
{
    clear();
    add_node(QY_NODE_STRING, 0, 0);
    add_node(QY_NODE_NULL, 0, 0);
    while (node_count < QY_MOST_NODES) {
        uint32_t first = object ? link_one(0) : link_count;
        link_one(node_count - 1);
        add_node(object ? QY_NODE_OBJECT : QY_NODE_ARRAY, first, 1);
        path[2 * path_steps] = object ? QY_STEP_KEY : QY_STEP_INDEX;
        path[2 * path_steps++ + 1] = 0;
    }
}

static void object_words(uint32_t *record)
{
    record[2] = record[4] = record[7] = link_count;
    record[6] = record[9] = record[10] = record[12] = record[13] = record[14] = QY_NONE;
}

enum { ANY_OF, ALL_OF, ARRAY, ADDITIONAL, PROPERTY, REF, BASE, WAYS };
static const char *const way_name[WAYS] = { "anyOf", "allOf", "array", "additional", "property", "ref", "base" };

/* the schema over the last one, by one way of nesting */
static void nest(int way, bool eager)
{
    uint32_t below = schema_count - 1, first = link_count;
    uint32_t *record;
    if (way == PROPERTY)
        link_one(0);
    if (way != ARRAY && way != ADDITIONAL && way != REF)
        link_one(below);
    switch (way) {
    case ANY_OF:
    case ALL_OF:
        record = add_schema(way == ANY_OF ? QY_SCHEMA_ANY_OF : QY_SCHEMA_ALL_OF);
        record[2] = first;
        record[3] = 1;
        break;
    case ARRAY:
        record = add_schema(QY_SCHEMA_ARRAY);
        record[2] = below;
        record[3] = record[4] = QY_NONE;
        record[5] = 1;
        break;
    case REF:
        registry[2 * entry_count] = entry_count;
        registry[2 * entry_count + 1] = below;
        record = add_schema(QY_SCHEMA_REF);
        record[2] = entry_count++;
        record[3] = eager;
        break;
    default:
        record = add_schema(QY_SCHEMA_OBJECT);
        object_words(record);
        if (way == ADDITIONAL)
            record[6] = below;
        if (way == PROPERTY) {
            record[2] = first;
            record[3] = 1;
        }
        if (way == BASE) {
            record[14] = first;
            record[15] = 1;
        }
    }
}

/* what a call took of a stack full of the pattern */
static size_t taken(void (*call)(void))
{
    static uint8_t *stack;
    static ucontext_t here, there;
    if (stack == NULL)
        stack = mmap(NULL, STACK, PROT_READ | PROT_WRITE, MAP_PRIVATE | MAP_ANONYMOUS, -1, 0);
    if (stack == MAP_FAILED)
        exit(2);
    memset(stack, PATTERN, STACK);
    getcontext(&there);
    there.uc_stack.ss_sp = stack;
    there.uc_stack.ss_size = STACK;
    there.uc_link = &here;
    makecontext(&there, call, 0);
    swapcontext(&here, &there);
    size_t free_bytes = 0;
    while (free_bytes < STACK && stack[free_bytes] == PATTERN)
        free_bytes++;
    return STACK - free_bytes;
}

static void nothing(void) {}
static void call_source(void)
{
    answer = qy_validate_source(TABLES, node_count - 1, schema_count - 1, instance, QY_INSTANCE_PATH_WORDS, steps, QY_SCHEMA_PATH_WORDS);
}
static void call_standard(void)
{
    answer = qy_validate_standard(TABLES, node_count - 1, schema_count - 1, instance, QY_INSTANCE_PATH_WORDS, steps, QY_SCHEMA_PATH_WORDS);
}
static void call_navigate(void) { answer = qy_navigate(TABLES, node_count - 1, path, 2 * path_steps, true); }
static void call_text(void) { answer.number = (uint32_t)qy_text(pool, VISITS, texts, 2 * VISITS, 0).start; }
#ifdef HAVE_COMPILE
static void call_compile(void)
{
    answer = qy_compile(pool, VISITS, texts, 2 * VISITS, nodes, 4 * node_count, notes, 9 * QY_MOST_NOTES, 0, schemas, 16 * QY_MOST_SCHEMAS, schema_count,
        registry, 2 * entry_count, texts, 0, links, QY_MOST_LINKS, link_count, numbers, 0, schema_count - 1);
}
#endif

static size_t most;
static char where[80];

static void measure(void (*call)(void), uint32_t expected, const char *name)
{
    size_t bytes = taken(call);
    if (answer.number != expected) {
        printf("stack: %s answers %u, not %u\n", name, answer.number, expected);
        exit(1);
    }
    if (bytes > most) {
        most = bytes;
        snprintf(where, sizeof where, "%s", name);
    }
}

static void line(const char *call, size_t base)
{
    printf("%-22s %8zu bytes, at %s\n", call, most - base, where);
    most = 0;
}

int main(void)
{
    size_t base = taken(nothing);
    for (uint32_t i = 0; i < VISITS; i++) {
        pool[i] = (uint8_t)(' ' + i);
        texts[2 * i] = i;
        texts[2 * i + 1] = 1;
    }
    void (*validations[2])(void) = { call_source, call_standard };
    const char *const names[2] = { "qy_validate_source", "qy_validate_standard" };
    char name[80];
    for (int mode = 0; mode < 2; mode++) {
        for (int way = 0; way < REF + 1; way++) {
            for (int object = 0; object < 2; object++) {
                bool descends = way == ARRAY || way == ADDITIONAL || way == PROPERTY;
                if (descends && (way == ARRAY) == (object == 1))
                    continue;
                deep_value(object == 1);
                uint32_t *record = add_schema(QY_SCHEMA_ENUM);
                /* one level less than the value has: they differ at the very bottom */
                record[2] = link_one(node_count - 2 - (descends ? VISITS - 1 : 0));
                record[3] = 1;
                for (int level = 1; level < VISITS; level++)
                    nest(way, false);
                snprintf(name, sizeof name, "%s over %s", way_name[way], object == 1 ? "objects" : "arrays");
                measure(validations[mode], QY_NOT_IN_ENUM, name);
            }
        }
        /* two items of the greatest depth that differ at the very bottom */
        deep_value(false);
        uint32_t *last = nodes + 4 * (node_count - 1);
        last[1] = link_one(node_count - 2);
        last[2] = 1 + (link_one(node_count - 3) > 0);
        uint32_t *unique = add_schema(QY_SCHEMA_ARRAY);
        unique[2] = unique[3] = unique[4] = QY_NONE;
        unique[5] = 1;
        for (int level = 1; level < VISITS; level++)
            nest(ANY_OF, false);
        measure(validations[mode], QY_OK, "anyOf over unique items");
        line(names[mode], base);
    }
    for (int object = 0; object < 2; object++) {
        deep_value(object == 1);
        measure(call_navigate, QY_OK, object == 1 ? "objects" : "arrays");
    }
    line("qy_navigate", base);
    measure(call_text, QY_OK, "any text");
    line("qy_text", base);
#ifdef HAVE_COMPILE
    for (int way = 0; way < WAYS; way++) {
        clear();
        object_words(add_schema(QY_SCHEMA_OBJECT));
        for (int level = 1; level < VISITS; level++)
            nest(way, true);
        measure(call_compile, QY_OK, way_name[way]);
    }
    line("qy_compile", base);
#endif
    return 0;
}
