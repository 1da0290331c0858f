/* A wheel whose step limit is 200 against a schema that allows 127: refused with the value, the bound and both paths. Then 127, which is
 * accepted, and a buffer that is one word short. */
#include <inttypes.h>
#include <stdio.h>
#include <string.h>

#include "quarto_yaml.h"

enum { TOO_FAR = 0, FAR_ENOUGH = 1, LIMIT = 2 };

static const uint8_t pool[] = "step";
static const uint32_t texts[] = { 0, 4 };
static const uint64_t numbers[] = { 200, 127, 0x405FC00000000000u /* 127.0 */ };
/* the key, the value, the object */
static uint32_t nodes[] = {
    QY_NODE_STRING, 0, 0, 0,
    QY_NODE_INTEGER, TOO_FAR, 0, 0,
    QY_NODE_OBJECT, 0, 1, 0,
};
/* the entry; the property's pair */
static const uint32_t links[] = { 0, 1, 0, 0 };
static const uint32_t notes[] = { QY_NONE, QY_NONE, QY_NONE, 77, QY_NONE, QY_NONE, QY_NONE, QY_NONE, 0 };
/* a number up to 127 with a note; an object with that property, closed */
static const uint32_t schemas[] = {
    QY_SCHEMA_NUMBER, 0, QY_NONE, LIMIT, QY_NONE, QY_NONE, QY_NONE, 0, 0, 0, 0, 0, 0, 0, 0, 0,
    QY_SCHEMA_OBJECT, QY_NONE, 2, 1, 4, 0, QY_NONE, 4, 0, QY_NONE, QY_NONE, 1, QY_NONE, QY_NONE, QY_NONE, 0,
};

#define WORDS(x) (sizeof(x) / sizeof((x)[0]))

static void check(const char *name, size_t instance_words)
{
    uint32_t instance[QY_INSTANCE_PATH_WORDS], steps[QY_SCHEMA_PATH_WORDS];
    memset(instance, 0xAA, sizeof instance);
    memset(steps, 0xAA, sizeof steps);
    qy_answer r = qy_validate(pool, 4, texts, WORDS(texts), nodes, WORDS(nodes), notes, WORDS(notes), schemas, WORDS(schemas),
        NULL, 0, NULL, 0, links, WORDS(links), numbers, WORDS(numbers),
        2, 1, instance, instance_words, steps, QY_SCHEMA_PATH_WORDS);
    printf("%s: %" PRIu32 " node %" PRIu32 " schema %" PRIu32 " hint %" PRIu32 " detail %" PRIu32 " value %g bound %g\n",
        name, r.number, r.node, r.schema, r.hint, r.detail, r.value, r.bound);
    printf("  %" PRIu32 " steps: %" PRIu32 " %" PRIu32 ", then %" PRIu32 "; %" PRIu32 " kinds: %" PRIu32 " %" PRIu32 ", then %" PRIu32 "\n",
        r.instance_steps, instance[0], instance[1], instance[2], r.schema_steps, steps[0], steps[1], steps[2]);
}

int main(void)
{
    check("step 200", QY_INSTANCE_PATH_WORDS);
    nodes[5] = FAR_ENOUGH;
    check("step 127", QY_INSTANCE_PATH_WORDS);
    check("short buffer", QY_INSTANCE_PATH_WORDS - 1);
    return 0;
}
