//! JSON equality, as enum and unique ask for it.

use quarto_yaml_tables::RawTables;
use quarto_yaml_tables::layout::{NONE, node};
use std::collections::BTreeMap;

/// How two numbers are held equal.
#[derive(Clone, Copy, Debug, PartialEq, Eq)]
pub enum Equality {
    /// Source mode's enum: kinds never mix, the zeros are equal.
    Enum,
    /// Source mode's unique: kinds never mix, the zeros differ.
    Unique,
    /// Standard mode: an integer equals a real by its nearest f64.
    Standard,
}

enum Json<'a> {
    Null,
    Boolean(u32),
    Integer(i64),
    Real(f64),
    String(&'a [u8]),
    Array(&'a [u32]),
    /// The last value of each string key.
    Object(BTreeMap<&'a [u8], u32>),
}

fn json(tables: &RawTables, number: u32) -> Json<'_> {
    let [kind, a, b, _] = tables.node(number);
    match kind {
        node::BOOLEAN => Json::Boolean(a),
        node::INTEGER => Json::Integer(tables.numbers[a as usize] as i64),
        node::REAL if b != NONE => {
            let real = f64::from_bits(tables.numbers[b as usize]);
            if real.is_finite() {
                Json::Real(real)
            } else {
                Json::Null
            }
        }
        node::STRING => Json::String(tables.text(a)),
        node::ARRAY => Json::Array(tables.list(a, b)),
        node::OBJECT => Json::Object(
            tables
                .pairs(a, b)
                .filter_map(|(key, value)| {
                    let [kind, text, ..] = tables.node(key);
                    (kind == node::STRING).then(|| (tables.text(text), value))
                })
                .collect(),
        ),
        _ => Json::Null,
    }
}

/// Whether two nodes are equal as JSON.
pub fn equal(tables: &RawTables, equality: Equality, left: u32, right: u32) -> bool {
    let same = |left, right| equal(tables, equality, left, right);
    match (json(tables, left), json(tables, right)) {
        (Json::Null, Json::Null) => true,
        (Json::Boolean(left), Json::Boolean(right)) => left == right,
        (Json::Integer(left), Json::Integer(right)) => left == right,
        (Json::Real(left), Json::Real(right)) => match equality {
            Equality::Unique => left.to_bits() == right.to_bits(),
            _ => left == right,
        },
        (Json::Integer(integer), Json::Real(real)) | (Json::Real(real), Json::Integer(integer)) => {
            equality == Equality::Standard && integer as f64 == real
        }
        (Json::String(left), Json::String(right)) => left == right,
        (Json::Array(left), Json::Array(right)) => {
            left.len() == right.len()
                && left
                    .iter()
                    .zip(right)
                    .all(|(&left, &right)| same(left, right))
        }
        (Json::Object(left), Json::Object(right)) => {
            left.len() == right.len()
                && left
                    .iter()
                    .zip(&right)
                    .all(|((key, &value), (other, &second))| key == other && same(value, second))
        }
        _ => false,
    }
}
