// Stands in for the readers of a schema's fields, which are not part of the given source and are never called.
use crate::error::SchemaResult;
use quarto_yaml::YamlWithSourceInfo;
use std::collections::HashMap;

pub(super) fn get_hash_string(_: &YamlWithSourceInfo, _: &str) -> SchemaResult<Option<String>> {
    Ok(None)
}

pub(super) fn get_hash_bool(_: &YamlWithSourceInfo, _: &str) -> SchemaResult<Option<bool>> {
    Ok(None)
}

pub(super) fn get_hash_string_array(
    _: &YamlWithSourceInfo,
    _: &str,
) -> SchemaResult<Option<Vec<String>>> {
    Ok(None)
}

pub(super) fn get_hash_tags(
    _: &YamlWithSourceInfo,
) -> SchemaResult<Option<HashMap<String, serde_json::Value>>> {
    Ok(None)
}
