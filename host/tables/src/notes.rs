//! Annotations of schemas: table 3.

use crate::layout::NOTES;
use crate::tables::optional;
use crate::{Note, TableError, Tables};

/// What a note says. The words are the host's own: the checker only carries them.
#[derive(Clone, Copy, Debug, Default, PartialEq, Eq)]
pub struct NoteFields {
    /// The `$id`.
    pub id: Option<u32>,
    /// The description.
    pub description: Option<u32>,
    /// The documentation.
    pub documentation: Option<u32>,
    /// The error message, which an answer gives as its hint.
    pub error_message: Option<u32>,
    /// Whether it is hidden.
    pub hidden: Option<u32>,
    /// The completions.
    pub completions: Option<u32>,
    /// The additional completions.
    pub additional_completions: Option<u32>,
    /// The tags.
    pub tags: Option<u32>,
    /// Whether the tags hold case-detection true.
    pub case_detection: bool,
}

impl Tables {
    /// Adds a note.
    pub fn note(&mut self, fields: &NoteFields) -> Result<Note, TableError> {
        if fields.case_detection && fields.tags.is_none() {
            return Err(TableError::CaseDetectionWithoutTags);
        }
        let words = [
            optional(fields.id)?,
            optional(fields.description)?,
            optional(fields.documentation)?,
            optional(fields.error_message)?,
            optional(fields.hidden)?,
            optional(fields.completions)?,
            optional(fields.additional_completions)?,
            optional(fields.tags)?,
            fields.case_detection.into(),
        ];
        self.append(NOTES, &words).map(Note)
    }
}
