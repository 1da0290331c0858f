//! The form in which answers of the original and of others are compared.

/// The outcome of a validation.
#[derive(Clone, Debug, PartialEq, Eq)]
pub enum Validated {
    /// The value passes.
    Accepted,
    /// The value is refused.
    Refused(Said),
    /// No alternative of an anyOf accepts and none left an error.
    NoErrorLeft,
    /// An answer that the original does not have, by its number.
    Other(u32),
}

/// A refusal: everything that the original says about it.
#[derive(Clone, Debug, PartialEq, Eq)]
pub struct Said {
    /// The answer's number.
    pub number: u32,
    /// The node.
    pub node: Option<u32>,
    /// The error message of the schema that refuses.
    pub hint: Option<u32>,
    /// The detail.
    pub detail: Detail,
    /// The instance path, each step as printed.
    pub instance: Vec<String>,
    /// The schema path by names.
    pub steps: Vec<String>,
}

/// A refusal's detail; reals by their bits.
#[derive(Clone, Debug, PartialEq, Eq)]
pub enum Detail {
    /// None.
    Empty,
    /// Expected name, found name.
    Type(String, String),
    /// The property, the values or the types that it advertises.
    Missing(String, Option<Vec<String>>, Option<String>),
    /// A key or a reference.
    Text(String),
    /// The count; the minimum, the maximum.
    Count(usize, Option<usize>, Option<usize>),
    /// The value; minimum, maximum, exclusive minimum, exclusive maximum.
    Range(u64, [Option<u64>; 4]),
    /// The value, the multiple.
    Multiple(u64, u64),
    /// The subject, the pattern.
    Pattern(String, String),
}

/// The outcome of a compile.
#[derive(Clone, Debug, PartialEq, Eq)]
pub enum Compiled {
    /// The compiled schema, its maps in the order of their keys.
    Tree(String),
    /// The refusal's number.
    Refused(u32),
}
