/* Answers calls over a pipe with the proved library.
 *
 * The archive is for x86-64; this program stands between it and a harness that
 * may run on another processor, where it runs under an emulator. All is 32-bit
 * words, low byte first, as in REPLAY.md: each request is a call's number, the
 * nine lengths, the nine slices in full, and the arguments; each reply is the
 * answer's 18 words, then every word of what was lent to be written. A first
 * word is sent unasked: which calls there are, 1 navigate, 2 validate, 4 compile.
 */
#include <stdbool.h>
#include <stdint.h>
#include <stdio.h>
#include <stdlib.h>
#include <string.h>

#if __has_include("quarto_yaml.h")
#include "quarto_yaml.h"
#else
typedef struct {
    uint32_t number, table, record, node, schema, hint;
    uint32_t detail;
    uint32_t a, b;
    uint32_t instance_steps, schema_steps;
    uint32_t used_notes, used_schemas, used_links;
    double value, bound;
} qy_answer;
#define TABLES const uint8_t *, size_t, const uint32_t *, size_t, const uint32_t *, size_t, \
    const uint32_t *, size_t, const uint32_t *, size_t, const uint32_t *, size_t, \
    const uint32_t *, size_t, const uint32_t *, size_t, const uint64_t *, size_t
#define PATHS uint32_t, uint32_t, uint32_t *, size_t, uint32_t *, size_t
qy_answer qy_navigate(TABLES, uint32_t, const uint32_t *, size_t, bool);
qy_answer qy_validate(TABLES, PATHS);
qy_answer qy_validate_source(TABLES, PATHS);
qy_answer qy_validate_standard(TABLES, PATHS);
qy_answer qy_compile(const uint8_t *, size_t, const uint32_t *, size_t, const uint32_t *, size_t,
    uint32_t *, size_t, uint32_t, uint32_t *, size_t, uint32_t, const uint32_t *, size_t,
    const uint32_t *, size_t, uint32_t *, size_t, uint32_t, const uint64_t *, size_t, uint32_t);
#endif

#define TABLES_SENT pool, size[0], words[0], size[1], words[1], size[2], words[2], size[3], words[3], \
    size[4], words[4], size[5], words[5], size[6], words[6], size[7], numbers, size[8]

enum { NAVIGATE, VALIDATE, COMPILE, SLICES = 9 };

static size_t size[SLICES];   /* bytes of the pool, words of tables 1 to 7, numbers */
static uint8_t *pool;
static uint32_t *words[7];    /* tables 1 to 7 */
static uint64_t *numbers;

static void read_into(void *to, size_t bytes)
{
    if (bytes > 0 && fread(to, 1, bytes, stdin) != bytes)
        exit(1);
}

static uint32_t read_word(void)
{
    uint32_t word;
    read_into(&word, sizeof word);
    return word;
}

/* A part of exactly this size, so that a tool can see what is read past its end. */
static void *read_part(size_t bytes)
{
    void *part = malloc(bytes > 0 ? bytes : 1);
    if (part == NULL)
        exit(1);
    read_into(part, bytes);
    return part;
}

static void write_words(const uint32_t *from, size_t count)
{
    if (count > 0 && fwrite(from, sizeof *from, count, stdout) != count)
        exit(1);
}

static void write_answer(qy_answer answer)
{
    uint32_t out[18] = { answer.number, answer.table, answer.record, answer.node, answer.schema,
        answer.hint, answer.detail, answer.a, answer.b, answer.instance_steps,
        answer.schema_steps, answer.used_notes, answer.used_schemas, answer.used_links };
    memcpy(out + 14, &answer.value, 8);
    memcpy(out + 16, &answer.bound, 8);
    write_words(out, 18);
}

static void navigate(void)
{
    uint32_t node = read_word(), wanted = read_word(), count = read_word();
    uint32_t *path = read_part(4 * (size_t)count);
    write_answer(qy_navigate(TABLES_SENT, node, path, count, wanted == 1));
    free(path);
}

#ifdef HAVE_VALIDATE
static void validate(void)
{
    uint32_t mode = read_word(), node = read_word(), schema = read_word();
    uint32_t instance_words = read_word(), schema_words = read_word();
    uint32_t *instance = read_part(4 * (size_t)instance_words);
    uint32_t *steps = read_part(4 * (size_t)schema_words);
    qy_answer answer;
    if (mode == 0)
        answer = qy_validate(TABLES_SENT, node, schema, instance, instance_words, steps, schema_words);
    else if (mode == 1)
        answer = qy_validate_source(TABLES_SENT, node, schema, instance, instance_words, steps, schema_words);
    else
        answer = qy_validate_standard(TABLES_SENT, node, schema, instance, instance_words, steps, schema_words);
    write_answer(answer);
    write_words(instance, instance_words);
    write_words(steps, schema_words);
    free(instance);
    free(steps);
}
#endif

#ifdef HAVE_COMPILE
static void compile(void)
{
    uint32_t notes = read_word(), schemas = read_word(), links = read_word(), schema = read_word();
    write_answer(qy_compile(pool, size[0], words[0], size[1], words[1], size[2], words[2], size[3],
        notes, words[3], size[4], schemas, words[4], size[5], words[5], size[6], words[6], size[7],
        links, numbers, size[8], schema));
    write_words(words[2], size[3]);
    write_words(words[3], size[4]);
    write_words(words[6], size[7]);
}
#endif

int main(void)
{
    uint32_t calls = 1, call;
#ifdef HAVE_VALIDATE
    calls |= 2;
#endif
#ifdef HAVE_COMPILE
    calls |= 4;
#endif
    write_words(&calls, 1);
    fflush(stdout);
    while (fread(&call, 1, sizeof call, stdin) == sizeof call) {
        for (int i = 0; i < SLICES; i++)
            size[i] = read_word();
        pool = read_part(size[0]);
        for (int i = 0; i < 7; i++)
            words[i] = read_part(4 * size[i + 1]);
        numbers = read_part(8 * size[8]);
        switch (call) {
        case NAVIGATE: navigate(); break;
#ifdef HAVE_VALIDATE
        case VALIDATE: validate(); break;
#endif
#ifdef HAVE_COMPILE
        case COMPILE: compile(); break;
#endif
        default: return 1;
        }
        fflush(stdout);
        free(pool);
        free(numbers);
        for (int i = 0; i < 7; i++)
            free(words[i]);
    }
    return 0;
}
