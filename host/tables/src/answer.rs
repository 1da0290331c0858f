//! What a call answers: `qy_answer` of the C header.

use crate::layout::NONE;

/// Numbers of the cases of a detail.
pub mod detail {
    /// Nothing more to say.
    pub const EMPTY: u32 = 0;
    /// a: the schema kind expected, b: the node kind found.
    pub const TYPE: u32 = 1;
    /// a: the property's text, b: its schema or NONE.
    pub const PROPERTY: u32 = 2;
    /// a: the key's text.
    pub const KEY: u32 = 3;
    /// a: the count, b: the limit that it breaks.
    pub const COUNT: u32 = 4;
    /// The value and the multiple.
    pub const MULTIPLE: u32 = 5;
    /// a: the subject's text, b: the pattern's.
    pub const PATTERN: u32 = 6;
    /// a: the reference's text.
    pub const REFERENCE: u32 = 7;
    /// The value and the minimum.
    pub const BELOW_MINIMUM: u32 = 8;
    /// The value and the maximum.
    pub const ABOVE_MAXIMUM: u32 = 9;
    /// The value and the exclusive minimum.
    pub const AT_OR_BELOW: u32 = 10;
    /// The value and the exclusive maximum.
    pub const AT_OR_ABOVE: u32 = 11;
}

/// An answer, laid out as C has it.
#[repr(C)]
#[derive(Clone, Copy, Debug)]
pub struct Answer {
    /// The answer's number.
    pub number: u32,
    /// The bad table with 20, else NONE.
    pub table: u32,
    /// The bad record with 20, what was found or compiled with 0, else NONE.
    pub record: u32,
    /// The node that was refused.
    pub node: u32,
    /// The schema record that refused.
    pub schema: u32,
    /// That record's error message.
    pub hint: u32,
    /// Which case the detail is, see [`detail`].
    pub detail: u32,
    /// The detail's first word.
    pub a: u32,
    /// The detail's second word.
    pub b: u32,
    /// Steps in the instance path buffer, two words each.
    pub instance_steps: u32,
    /// Steps in the schema path buffer.
    pub schema_steps: u32,
    /// Notes in use after a compile; NONE in the other calls.
    pub used_notes: u32,
    /// Schemas in use after a compile; NONE in the other calls.
    pub used_schemas: u32,
    /// Links in use after a compile; NONE in the other calls.
    pub used_links: u32,
    /// The value, in a range or multiple detail.
    pub value: f64,
    /// The bound or multiple.
    pub bound: f64,
}

/// A detail with the values that its case has.
#[derive(Clone, Copy, Debug, PartialEq)]
pub enum Detail {
    /// Nothing more to say.
    Empty,
    /// The schema kind expected and the node kind found.
    Type(u32, u32),
    /// The missing property's text, and its schema or NONE.
    Property(u32, u32),
    /// The key's text.
    Key(u32),
    /// The count and the limit that it breaks.
    Count(u32, u32),
    /// The value and the multiple.
    Multiple(f64, f64),
    /// The subject's text and the pattern's.
    Pattern(u32, u32),
    /// The reference's text.
    Reference(u32),
    /// The value and the minimum it is below.
    BelowMinimum(f64, f64),
    /// The value and the maximum it is above.
    AboveMaximum(f64, f64),
    /// The value and the exclusive minimum it does not pass.
    AtOrBelowExclusiveMinimum(f64, f64),
    /// The value and the exclusive maximum it does not stay under.
    AtOrAboveExclusiveMaximum(f64, f64),
}

impl Answer {
    /// Words that an answer is compared and stored as.
    pub const WORDS: usize = 18;

    /// An answer that has only its number.
    pub fn of(number: u32) -> Self {
        Self {
            number,
            table: NONE,
            record: NONE,
            node: NONE,
            schema: NONE,
            hint: NONE,
            detail: detail::EMPTY,
            a: NONE,
            b: NONE,
            instance_steps: 0,
            schema_steps: 0,
            used_notes: NONE,
            used_schemas: NONE,
            used_links: NONE,
            value: 0.0,
            bound: 0.0,
        }
    }

    /// The used counts of notes, schemas and links.
    pub fn used(&self) -> [u32; 3] {
        [self.used_notes, self.used_schemas, self.used_links]
    }

    /// The answer's words in order, each f64 as its low and then its high half.
    pub fn words(&self) -> [u32; Self::WORDS] {
        let [value, bound] = [self.value.to_bits(), self.bound.to_bits()];
        [
            self.number,
            self.table,
            self.record,
            self.node,
            self.schema,
            self.hint,
            self.detail,
            self.a,
            self.b,
            self.instance_steps,
            self.schema_steps,
            self.used_notes,
            self.used_schemas,
            self.used_links,
            value as u32,
            (value >> 32) as u32,
            bound as u32,
            (bound >> 32) as u32,
        ]
    }

    /// The answer whose words these are.
    pub fn from_words(words: &[u32; Self::WORDS]) -> Self {
        let real = |place: usize| {
            let high = u64::from(words[place + 1]) << 32;
            f64::from_bits(u64::from(words[place]) | high)
        };
        Self {
            number: words[0],
            table: words[1],
            record: words[2],
            node: words[3],
            schema: words[4],
            hint: words[5],
            detail: words[6],
            a: words[7],
            b: words[8],
            instance_steps: words[9],
            schema_steps: words[10],
            used_notes: words[11],
            used_schemas: words[12],
            used_links: words[13],
            value: real(14),
            bound: real(16),
        }
    }

    /// This answer with another detail.
    pub fn with_detail(mut self, detail: Detail) -> Self {
        let (case, a, b, value, bound) = flat(detail);
        (self.detail, self.a, self.b) = (case, a, b);
        (self.value, self.bound) = (value, bound);
        self
    }

    /// The detail, where its case has a known number.
    pub fn detail(&self) -> Option<Detail> {
        let Self {
            a, b, value, bound, ..
        } = *self;
        Some(match self.detail {
            detail::EMPTY => Detail::Empty,
            detail::TYPE => Detail::Type(a, b),
            detail::PROPERTY => Detail::Property(a, b),
            detail::KEY => Detail::Key(a),
            detail::COUNT => Detail::Count(a, b),
            detail::MULTIPLE => Detail::Multiple(value, bound),
            detail::PATTERN => Detail::Pattern(a, b),
            detail::REFERENCE => Detail::Reference(a),
            detail::BELOW_MINIMUM => Detail::BelowMinimum(value, bound),
            detail::ABOVE_MAXIMUM => Detail::AboveMaximum(value, bound),
            detail::AT_OR_BELOW => Detail::AtOrBelowExclusiveMinimum(value, bound),
            detail::AT_OR_ABOVE => Detail::AtOrAboveExclusiveMaximum(value, bound),
            _ => return None,
        })
    }
}

/// A detail's case number, two words, value and bound.
fn flat(detail: Detail) -> (u32, u32, u32, f64, f64) {
    let words = |case, a, b| (case, a, b, 0.0, 0.0);
    let reals = |case, value, bound| (case, NONE, NONE, value, bound);
    match detail {
        Detail::Empty => words(detail::EMPTY, NONE, NONE),
        Detail::Type(expected, found) => words(detail::TYPE, expected, found),
        Detail::Property(text, schema) => words(detail::PROPERTY, text, schema),
        Detail::Key(text) => words(detail::KEY, text, NONE),
        Detail::Count(count, limit) => words(detail::COUNT, count, limit),
        Detail::Multiple(value, multiple) => reals(detail::MULTIPLE, value, multiple),
        Detail::Pattern(subject, pattern) => words(detail::PATTERN, subject, pattern),
        Detail::Reference(text) => words(detail::REFERENCE, text, NONE),
        Detail::BelowMinimum(value, bound) => reals(detail::BELOW_MINIMUM, value, bound),
        Detail::AboveMaximum(value, bound) => reals(detail::ABOVE_MAXIMUM, value, bound),
        Detail::AtOrBelowExclusiveMinimum(value, bound) => reals(detail::AT_OR_BELOW, value, bound),
        Detail::AtOrAboveExclusiveMaximum(value, bound) => reals(detail::AT_OR_ABOVE, value, bound),
    }
}

/// Equal word for word, so that -0.0 and 0.0 differ.
impl PartialEq for Answer {
    fn eq(&self, other: &Self) -> bool {
        self.words() == other.words()
    }
}

impl Eq for Answer {}
