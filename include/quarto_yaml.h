/* quarto_yaml.h: check and navigate wheel files that stand in tables, and compile their schemas.
 *
 * Link with libchecker.a, which host/archive makes.
 *
 * Tables. A file, its schemas and all their texts are lent as eight tables of
 * words and one pool of bytes. The library reads them where they lie: it
 * allocates nothing, copies nothing and keeps no pointer. A table is a pointer
 * to its first word and a count of its words (bytes for the pool). Pointers are
 * aligned for their type; a table of no words still takes a pointer that is not
 * null. Every content of the tables is allowed: what breaks a rule is answered
 * by QY_BAD_TABLE, never by undefined behaviour.
 *
 *   table        words per record, and what they are
 *   1 texts      2  start, length, in bytes of the pool; UTF-8
 *   2 nodes      4  kind (QY_NODE_..), a, b, c
 *   3 notes      9  id, description, documentation, error message, hidden,
 *                   completions, additional completions, tags, case-detection
 *   4 schemas    16 kind (QY_SCHEMA_..), note or QY_NONE, then by kind
 *   5 registry   2  text, schema
 *   6 patterns   3  pattern text, subject text, QY_PATTERN_..
 *   7 links      1  members of lists: a list is a first place and a count
 *   8 numbers    1  64-bit: two's complement integers, patterns of doubles
 *
 * Nodes and schemas stand after their children. Words that a kind does not use
 * are 0; an optional word that is absent is QY_NONE.
 */
#ifndef QUARTO_YAML_H
#define QUARTO_YAML_H

#include <stdbool.h>
#include <stddef.h>
#include <stdint.h>

#ifdef __cplusplus
extern "C" {
#endif

/* An optional word that is absent. */
#define QY_NONE 4294967295u

/* Words per record. */
#define QY_TEXT_WORDS 2
#define QY_NODE_WORDS 4
#define QY_NOTE_WORDS 9
#define QY_SCHEMA_WORDS 16
#define QY_REGISTRY_WORDS 2
#define QY_PATTERN_WORDS 3

/* Most bytes of the pool, most records of each table. */
#define QY_MOST_BYTES 65536
#define QY_MOST_TEXTS 4096
#define QY_MOST_NODES 4096
#define QY_MOST_NOTES 1024
#define QY_MOST_SCHEMAS 4096
#define QY_MOST_ENTRIES 256
#define QY_MOST_PATTERNS 4096
#define QY_MOST_LINKS 16384
#define QY_MOST_NUMBERS 4096

/* Words per step of a path; the least words of a buffer for an instance path and for a schema path. */
#define QY_STEP_WORDS 2
#define QY_INSTANCE_PATH_WORDS 128
#define QY_SCHEMA_PATH_WORDS 64

/* Tables by number, as qy_answer.table has them. */
enum {
    QY_TABLE_TEXTS = 1,
    QY_TABLE_NODES = 2,
    QY_TABLE_NOTES = 3,
    QY_TABLE_SCHEMAS = 4,
    QY_TABLE_REGISTRY = 5,
    QY_TABLE_PATTERNS = 6,
    QY_TABLE_LINKS = 7,
    QY_TABLE_NUMBERS = 8,
    QY_TABLE_PATH = 9 /* the path that qy_navigate is given */
};

/* A node's kind, and what its words a and b are. */
enum {
    QY_NODE_NULL = 0,
    QY_NODE_BOOLEAN = 1, /* a: 0 or 1 */
    QY_NODE_INTEGER = 2, /* a: its place in the numbers */
    QY_NODE_REAL = 3,    /* a, b: places of two patterns, or QY_NONE */
    QY_NODE_STRING = 4,  /* a: its text */
    QY_NODE_ARRAY = 5,   /* a, b: first link and count of its items */
    QY_NODE_OBJECT = 6,  /* a, b: first link and count of its entries, two links each: key, value */
    QY_NODE_ALIAS = 7,
    QY_NODE_BAD_VALUE = 8
};

/* A schema's kind. */
enum {
    QY_SCHEMA_TRUE = 0,
    QY_SCHEMA_BOOLEAN = 1,
    QY_SCHEMA_NUMBER = 2,
    QY_SCHEMA_STRING = 3,
    QY_SCHEMA_NULL = 4,
    QY_SCHEMA_ENUM = 5,
    QY_SCHEMA_ANY = 6,
    QY_SCHEMA_ANY_OF = 7,
    QY_SCHEMA_ALL_OF = 8,
    QY_SCHEMA_ARRAY = 9,
    QY_SCHEMA_OBJECT = 10,
    QY_SCHEMA_REF = 11
};

/* What a pattern answers to a subject, in table 6. */
enum {
    QY_PATTERN_NO = 0,
    QY_PATTERN_MATCH = 1,
    QY_PATTERN_INVALID = 2
};

/* A path's steps are pairs of words: a tag, and a text or an index. */
enum {
    QY_STEP_KEY = 0,  /* with the number of the key's text */
    QY_STEP_INDEX = 1 /* with the index of an item, from 0 */
};

/* qy_answer.number. */
enum {
    QY_OK = 0, /* accepted, compiled or found */
    /* a value is refused */
    QY_TYPE_MISMATCH = 1,
    QY_REQUIRED_PROPERTY_MISSING = 2,
    QY_UNKNOWN_PROPERTY = 3,
    QY_NOT_IN_ENUM = 4,
    QY_NUMBER_OUT_OF_RANGE = 5,
    QY_NOT_A_MULTIPLE = 6,
    QY_STRING_LENGTH = 7,
    QY_PATTERN_MISMATCH = 8,
    QY_ARRAY_LENGTH = 9,
    QY_ITEMS_NOT_UNIQUE = 10,
    QY_PROPERTY_COUNT = 11,
    QY_UNRESOLVED_REFERENCE = 12,
    QY_DUPLICATE_KEY = 13,
    QY_INVALID_PATTERN = 14,
    /* the call cannot be made */
    QY_BAD_TABLE = 20,       /* table: its number; record: its first bad record, QY_NONE for its size */
    QY_OUT_OF_RANGE = 21,    /* no such node or schema */
    QY_PATH_BUFFER_SHORT = 22,
    QY_TOO_DEEP = 23,        /* a 65th nested visit */
    QY_PATTERN_UNANSWERED = 24,
    QY_NO_ALTERNATIVE = 25,  /* an anyOf that neither accepts nor leaves an error */
    /* a schema is not compiled */
    QY_NO_BASES = 30,
    QY_BASE_NOT_AN_OBJECT = 31,
    QY_UNKNOWN_REFERENCE = 32,
    QY_NO_ROOM = 33,
    /* navigation */
    QY_NOT_FOUND = 40
};

/* qy_answer.detail, and what a and b, or value and bound, then are. */
enum {
    QY_DETAIL_EMPTY = 0,
    QY_DETAIL_TYPE = 1,      /* a: schema kind expected; b: node kind found */
    QY_DETAIL_PROPERTY = 2,  /* a: its text; b: its schema or QY_NONE */
    QY_DETAIL_KEY = 3,       /* a: its text */
    QY_DETAIL_COUNT = 4,     /* a: the count; b: the limit that it breaks */
    QY_DETAIL_MULTIPLE = 5,  /* value; bound: the multiple */
    QY_DETAIL_PATTERN = 6,   /* a: the subject's text; b: the pattern's */
    QY_DETAIL_REFERENCE = 7, /* a: its text */
    QY_DETAIL_BELOW_MINIMUM = 8,                 /* value; bound */
    QY_DETAIL_ABOVE_MAXIMUM = 9,                 /* value; bound */
    QY_DETAIL_AT_OR_BELOW_EXCLUSIVE_MINIMUM = 10, /* value; bound */
    QY_DETAIL_AT_OR_ABOVE_EXCLUSIVE_MAXIMUM = 11  /* value; bound */
};

/* What a call answers. A word that an answer does not have is QY_NONE, a count
 * of steps 0, a double 0.0. */
typedef struct {
    uint32_t number; /* QY_OK, .. */
    uint32_t table;  /* with QY_BAD_TABLE: the table's number */
    uint32_t record; /* with QY_BAD_TABLE: its first bad record; else what is found or made */
    uint32_t node, schema, hint; /* 1 to 13: the node, the schema record, the error message */
    uint32_t detail; /* QY_DETAIL_.. */
    uint32_t a, b;
    uint32_t instance_steps, schema_steps; /* 1 to 14: how long the two paths are, in steps */
    uint32_t used_notes, used_schemas, used_links; /* records in use, after a compile; else QY_NONE */
    double value, bound;
} qy_answer;

/* A part of the pool, in bytes. It lies within the pool. */
typedef struct {
    size_t start, length;
} qy_span;

/* The node at the end of a path that starts at `node`.
 *
 * A key step takes the last entry of an object whose key is a string with those
 * bytes, an index step an item of an array. The empty path finds its start.
 * With key_wanted, a last step that is a key step answers the entry's key node
 * and not its value node.
 *
 * QY_OK with the node in `record`; QY_NOT_FOUND; QY_OUT_OF_RANGE for `node`;
 * QY_BAD_TABLE for the tables, and for the path with table QY_TABLE_PATH: record
 * is the first bad step, QY_NONE where the path has an odd count of words or
 * 4294967295 steps or more. */
qy_answer qy_navigate(const uint8_t *pool, size_t pool_bytes,
                      const uint32_t *texts, size_t text_words,
                      const uint32_t *nodes, size_t node_words,
                      const uint32_t *notes, size_t note_words,
                      const uint32_t *schemas, size_t schema_words,
                      const uint32_t *registry, size_t registry_words,
                      const uint32_t *patterns, size_t pattern_words,
                      const uint32_t *links, size_t link_words,
                      const uint64_t *numbers, size_t number_words,
                      uint32_t node,
                      const uint32_t *path, size_t path_words,
                      bool key_wanted);

/* Checks a node against a schema. QY_OK: accepted. 1 to 14: refused; the two
 * buffers then hold the paths to the value and to the schema, `instance_steps`
 * pairs of words (QY_STEP_..) and `schema_steps` kinds (QY_SCHEMA_..), and 0
 * behind them. After any other answer both buffers are all 0, short ones too.
 * `instance` has at least QY_INSTANCE_PATH_WORDS words, `steps` at least
 * QY_SCHEMA_PATH_WORDS. qy_validate names no mode, which means source mode:
 * lengths are bytes, and an integer never equals a real. In standard mode
 * lengths are code points, and in enum and unique an integer equals a real when
 * its nearest double does, and 0.0 equals -0.0. Bases are not merged. */
qy_answer qy_validate(
    const uint8_t *pool, size_t pool_bytes,
    const uint32_t *texts, size_t text_words,
    const uint32_t *nodes, size_t node_words,
    const uint32_t *notes, size_t note_words,
    const uint32_t *schemas, size_t schema_words,
    const uint32_t *registry, size_t registry_words,
    const uint32_t *patterns, size_t pattern_words,
    const uint32_t *links, size_t link_words,
    const uint64_t *numbers, size_t number_words,
    uint32_t node, uint32_t schema,
    uint32_t *instance, size_t instance_words,
    uint32_t *steps, size_t step_words);

qy_answer qy_validate_source(
    const uint8_t *pool, size_t pool_bytes,
    const uint32_t *texts, size_t text_words,
    const uint32_t *nodes, size_t node_words,
    const uint32_t *notes, size_t note_words,
    const uint32_t *schemas, size_t schema_words,
    const uint32_t *registry, size_t registry_words,
    const uint32_t *patterns, size_t pattern_words,
    const uint32_t *links, size_t link_words,
    const uint64_t *numbers, size_t number_words,
    uint32_t node, uint32_t schema,
    uint32_t *instance, size_t instance_words,
    uint32_t *steps, size_t step_words);

qy_answer qy_validate_standard(
    const uint8_t *pool, size_t pool_bytes,
    const uint32_t *texts, size_t text_words,
    const uint32_t *nodes, size_t node_words,
    const uint32_t *notes, size_t note_words,
    const uint32_t *schemas, size_t schema_words,
    const uint32_t *registry, size_t registry_words,
    const uint32_t *patterns, size_t pattern_words,
    const uint32_t *links, size_t link_words,
    const uint64_t *numbers, size_t number_words,
    uint32_t node, uint32_t schema,
    uint32_t *instance, size_t instance_words,
    uint32_t *steps, size_t step_words);

/* Compiles a schema: eager references are resolved, bases merged. The new
 * records stand behind the first used_notes, used_schemas and used_links ones of
 * their tables, which never change and are all that is checked; `note_words`,
 * `schema_words` and `link_words` count what is lent, room too.
 *
 * QY_OK with the compiled schema in `record`, a record of before where nothing had
 * to be built, and the used counts in `used_notes`, `used_schemas` and
 * `used_links`: lend qy_validate so many records. QY_TOO_DEEP, QY_NO_BASES,
 * QY_BASE_NOT_AN_OBJECT, QY_UNKNOWN_REFERENCE and QY_NO_ROOM keep nothing. After
 * these answers, and after QY_OK, all words behind the used records are 0.
 * QY_BAD_TABLE, which a used count above its limit or the whole records lent is
 * too, and QY_OUT_OF_RANGE for `schema` write nothing. Every answer but QY_OK
 * has the used counts as they were passed. */
qy_answer qy_compile(
    const uint8_t *pool, size_t pool_bytes,
    const uint32_t *texts, size_t text_words,
    const uint32_t *nodes, size_t node_words,
    uint32_t *notes, size_t note_words, uint32_t used_notes,
    uint32_t *schemas, size_t schema_words, uint32_t used_schemas,
    const uint32_t *registry, size_t registry_words,
    const uint32_t *patterns, size_t pattern_words,
    uint32_t *links, size_t link_words, uint32_t used_links,
    const uint64_t *numbers, size_t number_words,
    uint32_t schema);

/* Where a text lies in the pool. A wrong number, or a record that runs off the
 * pool, gives the empty part (0, 0). */
qy_span qy_text(const uint8_t *pool, size_t pool_bytes,
                const uint32_t *texts, size_t text_words,
                uint32_t text);

#ifdef __cplusplus
}
#endif

#endif
