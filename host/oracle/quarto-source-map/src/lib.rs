//! A stand-in for `quarto-source-map`, which is not part of the given source.
//!
//! A [`SourceInfo`] holds one number: the number of the node it was made for.
//! It travels through the given source as the node's offset, and so an error
//! or a found node says which record of the node table it is. There are no
//! files here, hence no location is ever mapped.

/// Where a value came from: here, the number of its node.
#[derive(Debug, Clone, Copy, Default, PartialEq, Eq)]
pub struct SourceInfo {
    offset: usize,
}

impl SourceInfo {
    /// The source of the node with this number.
    pub fn of_node(node: u32) -> Self {
        Self {
            offset: node as usize,
        }
    }

    /// The node's number.
    pub fn start_offset(&self) -> usize {
        self.offset
    }

    /// No offset maps to a file.
    pub fn map_offset(&self, _offset: usize, _context: &SourceContext) -> Option<MappedLocation> {
        None
    }
}

/// The files a location may lie in: none.
#[derive(Debug, Clone, Default)]
pub struct SourceContext;

impl SourceContext {
    /// No file has this number.
    pub fn get_file(&self, _file: FileId) -> Option<&SourceFile> {
        None
    }
}

/// A file's number.
#[derive(Debug, Clone, Copy, PartialEq, Eq)]
pub struct FileId(pub usize);

/// A file by its path.
#[derive(Debug, Clone)]
pub struct SourceFile {
    /// The path as shown to a reader.
    pub path: String,
}

/// A place in a file.
#[derive(Debug, Clone)]
pub struct MappedLocation {
    /// The file.
    pub file_id: FileId,
    /// Row and column in it.
    pub location: Location,
}

/// A row and a column, both from 0.
#[derive(Debug, Clone)]
pub struct Location {
    /// The row.
    pub row: usize,
    /// The column.
    pub column: usize,
}
