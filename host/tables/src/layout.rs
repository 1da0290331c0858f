//! Widths, limits and kind numbers of the eight tables.

/// The word for "absent".
pub const NONE: u32 = u32::MAX;

/// Most bytes in the pool.
pub const POOL_BYTES: usize = 65_536;

/// Words an instance path buffer needs: 64 steps of two words.
pub const INSTANCE_WORDS: usize = 128;

/// Words a schema path buffer needs: 64 steps.
pub const SCHEMA_WORDS: usize = 64;

/// Most visits that may nest.
pub const LEVELS: u32 = 64;

/// One of the eight tables, by its number, width and limit.
#[derive(Clone, Copy, Debug, PartialEq, Eq)]
pub struct Table {
    /// The number that answer 20 gives.
    pub number: u32,
    /// Words in a record.
    pub words: usize,
    /// Most records.
    pub most: usize,
}

const fn table(number: u32, words: usize, most: usize) -> Table {
    Table {
        number,
        words,
        most,
    }
}

/// Table 1: start and length in the pool.
pub const TEXTS: Table = table(1, 2, 4_096);
/// Table 2: kind, a, b, c.
pub const NODES: Table = table(2, 4, 4_096);
/// Table 3: eight opaque words and whether the tags hold case-detection true.
pub const NOTES: Table = table(3, 9, 1_024);
/// Table 4: kind, note, and what the kind says.
pub const SCHEMAS: Table = table(4, 16, 4_096);
/// Table 5: text and schema.
pub const REGISTRY: Table = table(5, 2, 256);
/// Table 6: pattern text, subject text, answer.
pub const PATTERNS: Table = table(6, 3, 4_096);
/// Table 7: the places that lists point into.
pub const LINKS: Table = table(7, 1, 16_384);
/// Table 8: numbers as 64 bits.
pub const NUMBERS: Table = table(8, 1, 4_096);

/// All eight, in the order of their numbers.
pub const ALL: [Table; 8] = [
    TEXTS, NODES, NOTES, SCHEMAS, REGISTRY, PATTERNS, LINKS, NUMBERS,
];

/// The seven tables of 32-bit words.
pub const WORD_TABLES: [Table; 7] = [TEXTS, NODES, NOTES, SCHEMAS, REGISTRY, PATTERNS, LINKS];

/// The tables that compiling appends to, in the order of the used counts.
pub const GROWING: [Table; 3] = [NOTES, SCHEMAS, LINKS];

/// The number that answer 20 gives for navigation's path.
pub const PATH: u32 = 9;

/// Kinds of nodes.
pub mod node {
    /// The name that each kind answers under.
    pub const TYPE_NAMES: [&str; 9] = [
        "null", "boolean", "integer", "float", "string", "array", "object", "alias", "null",
    ];

    /// The null value.
    pub const NULL: u32 = 0;
    /// A boolean; a is 0 or 1.
    pub const BOOLEAN: u32 = 1;
    /// An integer; a is its number.
    pub const INTEGER: u32 = 2;
    /// A real; a and b are numbers or NONE.
    pub const REAL: u32 = 3;
    /// A string; a is its text.
    pub const STRING: u32 = 4;
    /// An array; a and b are its list.
    pub const ARRAY: u32 = 5;
    /// An object; a is its first place, b its count of entries.
    pub const OBJECT: u32 = 6;
    /// An alias.
    pub const ALIAS: u32 = 7;
    /// A bad value.
    pub const BAD_VALUE: u32 = 8;
}

/// Places of a note's words.
pub mod note {
    /// The `$id`.
    pub const ID: usize = 0;
    /// The description.
    pub const DESCRIPTION: usize = 1;
    /// The error message, which answers give as their hint.
    pub const ERROR_MESSAGE: usize = 3;
    /// The tags.
    pub const TAGS: usize = 7;
    /// 1 where the tags hold case-detection true.
    pub const CASE_DETECTION: usize = 8;
}

/// Kinds of schemas, and the places of their words.
pub mod schema {
    /// The name of each kind.
    pub const TYPE_NAMES: [&str; 12] = [
        "true", "boolean", "number", "string", "null", "enum", "any", "anyOf", "allOf", "array",
        "object", "$ref",
    ];

    /// Accepts everything; has no note.
    pub const TRUE: u32 = 0;
    /// Booleans.
    pub const BOOLEAN: u32 = 1;
    /// Numbers.
    pub const NUMBER: u32 = 2;
    /// Strings.
    pub const STRING: u32 = 3;
    /// The null value.
    pub const NULL: u32 = 4;
    /// Listed values.
    pub const ENUM: u32 = 5;
    /// Accepts everything.
    pub const ANY: u32 = 6;
    /// At least one of its parts.
    pub const ANY_OF: u32 = 7;
    /// All of its parts.
    pub const ALL_OF: u32 = 8;
    /// Arrays.
    pub const ARRAY: u32 = 9;
    /// Objects.
    pub const OBJECT: u32 = 10;
    /// A reference into the registry.
    pub const REF: u32 = 11;

    /// An object's properties: first place; their count follows.
    pub const PROPERTIES: usize = 2;
    /// An object's pattern properties: first place; their count follows.
    pub const PATTERN_PROPERTIES: usize = 4;
    /// An object's schema for additional properties.
    pub const ADDITIONAL: usize = 6;
    /// An object's required texts: first place; their count follows.
    pub const REQUIRED: usize = 7;
    /// An object's least count of entries.
    pub const MINIMUM: usize = 9;
    /// An object's greatest count of entries.
    pub const MAXIMUM: usize = 10;
    /// 1 where an object is closed.
    pub const CLOSED: usize = 11;
    /// An object's schema for names.
    pub const NAMES: usize = 12;
    /// An object's naming convention, opaque.
    pub const NAMING: usize = 13;
    /// An object's bases: first place or NONE; their count follows.
    pub const BASES: usize = 14;
}
