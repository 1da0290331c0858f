//! Nodes as the original's values.

use quarto_source_map::SourceInfo;
use quarto_yaml::{Yaml, YamlHashEntry, YamlWithSourceInfo, yaml::Hash};
use quarto_yaml_tables::RawTables;
use quarto_yaml_tables::layout::{NONE, node};

/// A node and all below it; each carries its number as its offset.
pub fn value(tables: &RawTables, number: u32) -> YamlWithSourceInfo {
    let [kind, a, b, _] = tables.node(number);
    let source = SourceInfo::of_node(number);
    let scalar = match kind {
        node::BOOLEAN => Yaml::Boolean(a == 1),
        node::INTEGER => Yaml::Integer(tables.numbers[a as usize] as i64),
        node::REAL => Yaml::Real(real(tables, a, b)),
        node::STRING => Yaml::String(tables.string(a)),
        node::ARRAY => {
            let items: Vec<_> = tables
                .list(a, b)
                .iter()
                .map(|&item| value(tables, item))
                .collect();
            let plain = items.iter().map(|item| item.yaml.clone()).collect();
            return YamlWithSourceInfo::new_array(Yaml::Array(plain), source, items);
        }
        node::OBJECT => {
            let entries: Vec<_> = tables.pairs(a, b).map(|pair| entry(tables, pair)).collect();
            let mut plain = Hash::new();
            for entry in &entries {
                plain.insert(entry.key.yaml.clone(), entry.value.yaml.clone());
            }
            return YamlWithSourceInfo::new_hash(Yaml::Hash(plain), source, entries);
        }
        node::ALIAS => Yaml::Alias(1),
        node::BAD_VALUE => Yaml::BadValue,
        _ => Yaml::Null,
    };
    YamlWithSourceInfo::new_scalar(scalar, source)
}

fn entry(tables: &RawTables, (key, held): (u32, u32)) -> YamlHashEntry {
    let [key, held] = [value(tables, key), value(tables, held)];
    let [key_span, value_span] = [key.source_info, held.source_info];
    YamlHashEntry::new(key, held, key_span, value_span, key_span)
}

/// A text that is read as the first number and parsed as the second.
fn real(tables: &RawTables, read: u32, parsed: u32) -> String {
    let number = |place: u32| f64::from_bits(tables.numbers[place as usize]);
    match (read, parsed) {
        (NONE, _) => "1.2.3".to_string(),
        (read, NONE) => {
            let value = number(read);
            let text = if value.is_nan() {
                ".nan"
            } else if value > 0.0 {
                ".inf"
            } else {
                "-.inf"
            };
            text.to_string()
        }
        (read, _) => format!("{:?}", number(read)),
    }
}
