// Stands in for the YAML reader, which is not part of the given source and is never called.
use crate::{Error, Result, YamlWithSourceInfo};

fn absent() -> Result<YamlWithSourceInfo> {
    Err(Error::UnexpectedEof { location: None })
}

pub fn parse(_content: &str) -> Result<YamlWithSourceInfo> {
    absent()
}

pub fn parse_file(_content: &str, _filename: &str) -> Result<YamlWithSourceInfo> {
    absent()
}

pub fn parse_with_parent(_content: &str, _parent: crate::SourceInfo) -> Result<YamlWithSourceInfo> {
    absent()
}

pub fn file_id_for_filename(_filename: &str) -> quarto_source_map::FileId {
    quarto_source_map::FileId(0)
}
