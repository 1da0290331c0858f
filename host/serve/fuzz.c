/* Runs the calls on arbitrary tables for a time: fuzz SECONDS [SEED].
 *
 * Each slice lies between two guard regions, so that one byte too far ends the
 * program with the case's seed; what is lent to be read is mapped read-only.
 * Three cases in four are built as tables, some with words pushed elsewhere, so
 * that the calls get past the check of the tables; the others are any bytes.
 * What a call leaves is held to what every answer promises.
 */
#define _GNU_SOURCE
#include <setjmp.h>
#include <signal.h>
#include <stdio.h>
#include <stdlib.h>
#include <string.h>
#include <sys/mman.h>
#include <sys/time.h>
#include <time.h>
#include <unistd.h>

#include "quarto_yaml.h"

enum { POOL, TEXTS, NODES, NOTES, SCHEMAS, REGISTRY, PATTERNS, LINKS, NUMBERS, PATH, INSTANCE, STEPS, SLICES };
enum { GUARD = 65536, ROOM = 1 << 20, LONGEST = 5, ANSWERS = 64 };

static const size_t element[SLICES] = { 1, 4, 4, 4, 4, 4, 4, 4, 8, 4, 4, 4 };
static const size_t width[SLICES] = { 1, 2, 4, 9, 16, 2, 3, 1, 1, 2, 1, 1 };
static const size_t most[SLICES] = { 65536, 4096, 4096, 1024, 4096, 256, 4096, 16384, 4096, 64, 64, 64 };

/* a slice: its memory seen twice, and the part that is lent */
static struct {
    uint8_t *writable, *readable;
    size_t count, offset;
} slice[SLICES];

static uint64_t state, seed, calls, skipped, by_answer[ANSWERS];
static const char *call = "none";
static sigjmp_buf too_long;

static uint64_t next(void)
{
    state ^= state >> 12;
    state ^= state << 25;
    state ^= state >> 27;
    return state * 0x2545F4914F6CDD1Dull;
}

static uint32_t below(uint32_t bound) { return bound == 0 ? 0 : (uint32_t)(next() >> 33) % bound; }

static void failed(const char *what)
{
    printf("fuzz: FAILED: %s in %s, seed %llu\n", what, call, (unsigned long long)seed);
    fflush(stdout);
    _exit(1);
}

static void on_fault(int signal)
{
    (void)signal;
    failed("memory outside what was lent, or a trap,");
}

static void on_alarm(int signal)
{
    (void)signal;
    siglongjmp(too_long, 1);
}

/* memory with guards on both sides of each view */
static void map(int at)
{
    int file = memfd_create("slice", 0);
    uint8_t *around[2];
    if (file < 0 || ftruncate(file, ROOM) != 0)
        exit(2);
    for (int view = 0; view < 2; view++) {
        around[view] = mmap(NULL, ROOM + 3 * GUARD, PROT_NONE, MAP_PRIVATE | MAP_ANONYMOUS, -1, 0);
        if (around[view] == MAP_FAILED)
            exit(2);
        around[view] += GUARD + (GUARD - (uintptr_t)around[view] % GUARD) % GUARD;
        if (mmap(around[view], ROOM, view == 0 ? PROT_READ | PROT_WRITE : PROT_READ, MAP_SHARED | MAP_FIXED, file, 0) == MAP_FAILED)
            exit(2);
    }
    slice[at].writable = around[0];
    slice[at].readable = around[1];
    close(file);
}

/* so many elements, against the guard before or the guard behind */
static void size(int at, size_t count)
{
    slice[at].count = count;
    slice[at].offset = below(2) == 0 ? 0 : ROOM - count * element[at];
}

static uint32_t *words(int at) { return (uint32_t *)(slice[at].writable + slice[at].offset); }
static const uint32_t *lent(int at) { return (const uint32_t *)(slice[at].readable + slice[at].offset); }

static size_t records(int at) { return slice[at].count / width[at]; }

/* a record's number, or none at all */
static uint32_t some(size_t count) { return count == 0 ? QY_NONE : below((uint32_t)count); }
static uint32_t maybe(size_t count) { return below(3) == 0 ? QY_NONE : some(count); }

static size_t used_links;

/* a list of records below a number */
static void list(uint32_t *record, uint32_t at_most, size_t count, uint32_t links_each)
{
    uint32_t entries = count == 0 ? 0 : below(at_most + 1);
    if (used_links + entries * links_each > slice[LINKS].count)
        entries = 0;
    record[0] = (uint32_t)used_links;
    record[1] = entries;
    for (uint32_t i = 0; i < entries * links_each; i++)
        words(LINKS)[used_links++] = below((uint32_t)count);
}

/* pairs of a text and a schema; the texts in order, so that they mostly differ */
static void keyed(uint32_t *record, size_t schemas)
{
    list(record, 3, schemas, 2);
    for (uint32_t i = 0; i < record[1]; i++)
        words(LINKS)[record[0] + 2 * i] = i < records(TEXTS) ? i : some(records(TEXTS));
}

static void fill_node(uint32_t *record, size_t before)
{
    record[0] = below(3) == 0 ? QY_NODE_STRING : below(9);
    switch (record[0]) {
    case QY_NODE_BOOLEAN: record[1] = below(2); break;
    case QY_NODE_INTEGER: record[1] = some(slice[NUMBERS].count); break;
    case QY_NODE_REAL: record[1] = maybe(slice[NUMBERS].count); record[2] = maybe(slice[NUMBERS].count); break;
    case QY_NODE_STRING: record[1] = some(records(TEXTS)); break;
    case QY_NODE_ARRAY: list(record + 1, 4, before, 1); break;
    case QY_NODE_OBJECT: list(record + 1, 3, before, 2); break;
    }
}

static void fill_schema(uint32_t *record, size_t before)
{
    uint32_t *word = record + 2;
    record[0] = below(12);
    record[1] = record[0] == QY_SCHEMA_TRUE ? QY_NONE : maybe(records(NOTES));
    switch (record[0]) {
    case QY_SCHEMA_NUMBER:
        for (int i = 0; i < 5; i++)
            word[i] = maybe(slice[NUMBERS].count);
        break;
    case QY_SCHEMA_STRING:
        word[0] = maybe(4);
        word[1] = maybe(40);
        word[2] = maybe(records(TEXTS));
        break;
    case QY_SCHEMA_ENUM: list(word, 3, records(NODES), 1); break;
    case QY_SCHEMA_ANY_OF:
    case QY_SCHEMA_ALL_OF: list(word, 3, before, 1); break;
    case QY_SCHEMA_ARRAY:
        word[0] = maybe(before);
        word[1] = maybe(3);
        word[2] = maybe(9);
        word[3] = maybe(2);
        break;
    case QY_SCHEMA_OBJECT:
        keyed(word, before);
        keyed(word + 2, before);
        word[4] = maybe(before);
        list(word + 5, 2, records(TEXTS), 1);
        word[7] = maybe(3);
        word[8] = maybe(9);
        word[9] = below(2);
        word[10] = maybe(before);
        word[11] = maybe(9);
        if (below(2) == 0)
            list(word + 12, 3, before, 1);
        else
            word[12] = QY_NONE;
        break;
    case QY_SCHEMA_REF: word[0] = some(records(TEXTS)); word[1] = below(2); break;
    }
}

static void fill_well(void)
{
    static const uint64_t numbers[] = { 0, 1, 7, UINT64_MAX, 0x8000000000000000u, 0x3FF0000000000000u, 0x4010000000000000u,
        0x7FF0000000000000u, 0x7FF8000000000000u, 0xFFF0000000000000u, 1ull << 53, (1ull << 53) + 1 };
    uint64_t *number;
    size(POOL, below(40));
    for (size_t i = 0; i < slice[POOL].count; i++)
        (slice[POOL].writable + slice[POOL].offset)[i] = (uint8_t)('a' + below(3));
    size(TEXTS, 2 * below(8));
    for (size_t i = 0; i < records(TEXTS); i++) {
        uint32_t start = below((uint32_t)slice[POOL].count + 1);
        words(TEXTS)[2 * i] = start;
        words(TEXTS)[2 * i + 1] = below(4) < 3 ? below((uint32_t)slice[POOL].count - start + 1) % 4 : 0;
        if (words(TEXTS)[2 * i + 1] > slice[POOL].count - start)
            words(TEXTS)[2 * i + 1] = 0;
    }
    size(NUMBERS, below(12));
    number = (uint64_t *)words(NUMBERS);
    for (size_t i = 0; i < slice[NUMBERS].count; i++)
        number[i] = below(4) == 0 ? next() : numbers[below(sizeof numbers / sizeof numbers[0])];
    size(LINKS, 256);
    used_links = 0;
    size(NODES, 4 * below(24));
    memset(words(NODES), 0, 4 * slice[NODES].count);
    for (size_t i = 0; i < records(NODES); i++)
        fill_node(words(NODES) + 4 * i, i);
    size(NOTES, 9 * below(4));
    for (size_t i = 0; i < slice[NOTES].count; i++)
        words(NOTES)[i] = i % 9 == 8 ? below(2) : i % 9 == 7 ? below(5) : maybe(9);
    size(SCHEMAS, 16 * below(16));
    memset(words(SCHEMAS), 0, 4 * slice[SCHEMAS].count);
    for (size_t i = 0; i < records(SCHEMAS); i++)
        fill_schema(words(SCHEMAS) + 16 * i, i);
    size(REGISTRY, records(TEXTS) == 0 || records(SCHEMAS) == 0 ? 0 : 2 * below(5));
    for (size_t i = 0; i < slice[REGISTRY].count; i++)
        words(REGISTRY)[i] = i % 2 == 0 ? some(records(TEXTS)) : some(records(SCHEMAS));
    size(PATTERNS, records(TEXTS) == 0 ? 0 : 3 * below(30));
    for (size_t i = 0; i < slice[PATTERNS].count; i++)
        words(PATTERNS)[i] = i % 3 == 2 ? below(3) : some(records(TEXTS));
    size(PATH, records(TEXTS) == 0 ? 0 : 2 * below(4));
    for (size_t i = 0; i < slice[PATH].count; i++)
        words(PATH)[i] = i % 2 == 0 ? below(2) : below(4);
}

/* pushes some words elsewhere */
static void damage(void)
{
    for (uint32_t times = below(4); times > 0; times--) {
        int at = 1 + (int)below(PATH);
        const uint32_t values[] = { 0, 1, 2, 12, QY_NONE, QY_NONE - 1, 1u << 31, (uint32_t)records(at), (uint32_t)next() };
        size_t count = slice[at].count * element[at] / 4;
        if (count > 0)
            words(at)[below((uint32_t)count)] = values[below(sizeof values / sizeof values[0])];
    }
    if (below(8) == 0) {
        int at = (int)below(PATH + 1);
        size_t more = slice[at].count + 1 + below(3);
        size(at, below(2) == 0 && slice[at].count > 0 ? slice[at].count - 1 : more);
    }
}

/* any bytes: mostly small ones, for large words are refused early */
static void fill_badly(void)
{
    for (int at = 0; at < INSTANCE; at++) {
        size_t limit = most[at] * width[at];
        size_t count = below(64) == 0 ? limit - 2 + below(5) : below(4) == 0 ? below((uint32_t)limit) : below(40) * width[at];
        uint32_t top = below(3) == 0 ? 0 : below(16) + 1;
        size(at, count);
        if (at == POOL) {
            for (size_t i = 0; i < count; i++)
                (slice[POOL].writable + slice[POOL].offset)[i] = (uint8_t)(top == 0 ? next() : 'a' + below(26));
            continue;
        }
        for (size_t i = 0; i < count * element[at] / 4; i++)
            words(at)[i] = top == 0 ? (uint32_t)next() : below(top);
    }
}

#define CONST_TABLES slice[POOL].readable + slice[POOL].offset, slice[POOL].count, lent(TEXTS), slice[TEXTS].count, \
    lent(NODES), slice[NODES].count, lent(NOTES), slice[NOTES].count, lent(SCHEMAS), slice[SCHEMAS].count, \
    lent(REGISTRY), slice[REGISTRY].count, lent(PATTERNS), slice[PATTERNS].count, lent(LINKS), slice[LINKS].count, \
    (const uint64_t *)lent(NUMBERS), slice[NUMBERS].count

static void count_answer(qy_answer answer)
{
    calls++;
    by_answer[answer.number < ANSWERS ? answer.number : ANSWERS - 1]++;
}

static void check_paths(qy_answer answer)
{
    bool refused = answer.number >= 1 && answer.number <= 14;
    if (!refused && (answer.instance_steps != 0 || answer.schema_steps != 0 || answer.node != QY_NONE || answer.hint != QY_NONE))
        failed("a field that this answer does not have");
    if (answer.instance_steps > 64 || answer.schema_steps > 64)
        failed("a path that is too long");
    for (size_t i = 2 * answer.instance_steps; i < slice[INSTANCE].count; i++)
        if (words(INSTANCE)[i] != 0)
            failed("an instance path buffer that is not 0 behind its path");
    for (size_t i = answer.schema_steps; i < slice[STEPS].count; i++)
        if (words(STEPS)[i] != 0)
            failed("a schema path buffer that is not 0 behind its path");
    if (answer.number >= 1 && answer.number <= 13 && (answer.node >= records(NODES) || answer.schema >= records(SCHEMAS)))
        failed("a node or schema that is not there");
}

static void validate(uint32_t mode)
{
    qy_answer (*calls_by_mode[])(const uint8_t *, size_t, const uint32_t *, size_t, const uint32_t *, size_t, const uint32_t *, size_t,
        const uint32_t *, size_t, const uint32_t *, size_t, const uint32_t *, size_t, const uint32_t *, size_t, const uint64_t *, size_t,
        uint32_t, uint32_t, uint32_t *, size_t, uint32_t *, size_t) = { qy_validate, qy_validate_source, qy_validate_standard };
    uint32_t node = below((uint32_t)records(NODES) + 1), schema = below((uint32_t)records(SCHEMAS) + 1);
    size(INSTANCE, below(20) == 0 ? below(128) : QY_INSTANCE_PATH_WORDS + below(3));
    size(STEPS, below(20) == 0 ? below(64) : QY_SCHEMA_PATH_WORDS + below(3));
    qy_answer answer[2];
    for (int round = 0; round < 2; round++) {
        memset(words(INSTANCE), round == 0 ? 0xAA : 0x55, 4 * slice[INSTANCE].count);
        memset(words(STEPS), round == 0 ? 0xAA : 0x55, 4 * slice[STEPS].count);
        memset(&answer[round], 0, sizeof answer[round]);
        answer[round] = calls_by_mode[mode](CONST_TABLES, node, schema, words(INSTANCE), slice[INSTANCE].count, words(STEPS), slice[STEPS].count);
        check_paths(answer[round]);
        count_answer(answer[round]);
    }
    if (answer[0].number != answer[1].number || answer[0].node != answer[1].node || answer[0].a != answer[1].a)
        failed("two answers to one question");
}

static void navigate(void)
{
    uint32_t node = below((uint32_t)records(NODES) + 1);
    qy_answer answer = qy_navigate(CONST_TABLES, node, lent(PATH), slice[PATH].count, below(2) == 0);
    if (answer.number == 0 && answer.record >= records(NODES))
        failed("a node that is not there");
    count_answer(answer);
}

static void text(void)
{
    uint32_t number = below(4) == 0 ? (uint32_t)next() : below((uint32_t)records(TEXTS) + 1);
    qy_span span = qy_text(slice[POOL].readable + slice[POOL].offset, slice[POOL].count, lent(TEXTS), slice[TEXTS].count, number);
    if (span.start > slice[POOL].count || span.length > slice[POOL].count - span.start)
        failed("a part that is not of the pool");
    calls++;
}

#ifdef HAVE_COMPILE
/* the used counts stand before some room full of garbage */
static void compile(void)
{
    static const int grown[3] = { NOTES, SCHEMAS, LINKS };
    static uint8_t before[3][ROOM];
    uint32_t used[3];
    for (int i = 0; i < 3; i++) {
        int at = grown[i];
        size_t count = slice[at].count, room = below(5) == 0 ? 0 : below(200) * width[at] + below(2);
        size_t kept = at == LINKS && count == 256 ? used_links : count;
        used[i] = (uint32_t)(kept / width[at]) + (below(20) == 0 ? below(3) : 0);
        if ((kept + room) * element[at] > ROOM)
            room = 0;
        memcpy(before[i], words(at), 4 * kept);
        size(at, kept + room);
        memcpy(words(at), before[i], 4 * kept);
        memset(words(at) + kept, 0xAA, 4 * room);
        memcpy(before[i], words(at), 4 * (kept + room));
    }
    uint32_t schema = below(used[1] + 1);
    qy_answer answer = qy_compile(slice[POOL].readable + slice[POOL].offset, slice[POOL].count, lent(TEXTS), slice[TEXTS].count,
        lent(NODES), slice[NODES].count, words(NOTES), slice[NOTES].count, used[0], words(SCHEMAS), slice[SCHEMAS].count, used[1],
        lent(REGISTRY), slice[REGISTRY].count, lent(PATTERNS), slice[PATTERNS].count, words(LINKS), slice[LINKS].count, used[2],
        (const uint64_t *)lent(NUMBERS), slice[NUMBERS].count, schema);
    uint32_t after[3] = { answer.used_notes, answer.used_schemas, answer.used_links };
    bool nothing = answer.number == QY_BAD_TABLE || answer.number == QY_OUT_OF_RANGE;
    for (int i = 0; i < 3; i++) {
        int at = grown[i];
        size_t held = nothing ? slice[at].count : used[i] * width[at];
        if (answer.number != 0 && after[i] != used[i])
            failed("a used count that a refusal changed");
        if (memcmp(words(at), before[i], 4 * held) != 0)
            failed("a record that was there before");
        for (size_t word = after[i] * width[at]; !nothing && word < slice[at].count; word++)
            if (words(at)[word] != 0)
                failed("room that is not 0");
    }
    if (answer.number == 0 && answer.record >= answer.used_schemas)
        failed("a schema that is not there");
    count_answer(answer);
}
#endif

static void one_case(void)
{
    if (below(4) != 0) {
        fill_well();
        if (below(2) == 0)
            damage();
    } else {
        fill_badly();
    }
    for (int i = 0; i < 3; i++) {
        call = "qy_validate";
        validate((uint32_t)i);
    }
    call = "qy_navigate";
    navigate();
    call = "qy_text";
    text();
#ifdef HAVE_COMPILE
    call = "qy_compile";
    compile();
#endif
}

int main(int arguments, char **argument)
{
    long seconds = arguments > 1 ? strtol(argument[1], NULL, 10) : 0;
    uint64_t first = arguments > 2 ? strtoull(argument[2], NULL, 10) : 1;
    time_t end = time(NULL) + seconds;
    struct itimerval limit = { { 0, 0 }, { LONGEST, 0 } };
    if (seconds <= 0) {
        fprintf(stderr, "fuzz SECONDS [SEED]\n");
        return 2;
    }
    for (int at = 0; at < SLICES; at++)
        map(at);
    signal(SIGSEGV, on_fault);
    signal(SIGBUS, on_fault);
    signal(SIGILL, on_fault);
    signal(SIGFPE, on_fault);
    signal(SIGTRAP, on_fault);
    signal(SIGABRT, on_fault);
    signal(SIGALRM, on_alarm);
    for (seed = first; time(NULL) < end; seed++) {
        state = seed * 0x9E3779B97F4A7C15ull + 1;
        for (int i = 0; i < 4; i++)
            next();
        setitimer(ITIMER_REAL, &limit, NULL);
        if (sigsetjmp(too_long, 1) == 0)
            one_case();
        else
            skipped++;
    }
    printf("fuzz: answers:");
    for (int i = 0; i < ANSWERS; i++)
        if (by_answer[i] != 0)
            printf(" %d:%llu", i, (unsigned long long)by_answer[i]);
    printf("\nfuzz: %llu cases, %llu calls, %llu cases left after %d seconds, nothing found\n",
        (unsigned long long)(seed - first), (unsigned long long)calls, (unsigned long long)skipped, LONGEST);
    return 0;
}
