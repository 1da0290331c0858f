//! The names that the original gives to kinds.

pub use quarto_yaml_tables::layout::node::TYPE_NAMES as NODE;
pub use quarto_yaml_tables::layout::schema::TYPE_NAMES as SCHEMA;

/// The name at a number, or a mark that no name equals.
pub fn at(names: &[&str], number: u32) -> String {
    let name = names.get(number as usize).copied();
    name.map_or_else(|| format!("?{number}"), str::to_string)
}
