//! The schemas of docs/SCHEMAS.md are read as it says.

use super::{Folder, repository, run_all};
use std::fs;

#[test]
fn every_documented_schema_is_read() {
    let text = fs::read_to_string(repository().join("docs/SCHEMAS.md")).expect("the document");
    let blocks: Vec<&str> = text
        .split("```yaml\n")
        .skip(1)
        .map(|rest| rest.split("```").next().expect("a block"))
        .collect();
    assert!(blocks.len() >= 6);
    let folder = Folder::new("documented");
    let file = folder.file("file.yaml", "[]");
    for block in blocks {
        let schema = folder.file("schema.yaml", block);
        let ran = run_all(&[&file, "--schema", &schema]);
        assert!(ran.status < 2, "{block}\n{}", ran.errors);
        assert_eq!(ran.errors, "", "{block}");
    }
}
