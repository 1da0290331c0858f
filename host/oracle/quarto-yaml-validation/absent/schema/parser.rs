// Stands in for the schema reader, which is not part of the given source and is never called.
use crate::error::{SchemaError, SchemaResult};
use crate::schema::Schema;
use quarto_yaml::YamlWithSourceInfo;

pub(super) fn from_yaml(_: &YamlWithSourceInfo) -> SchemaResult<Schema> {
    Err(SchemaError::InvalidType(String::new()))
}
