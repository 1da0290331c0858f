//! The command as a user has it, over the second judge and over the proved library.

mod bad_input;
mod documented;
mod examples;
mod messages;
mod options;
mod schemas;

use quarto_yaml_tables::remote::Remote;
use std::fs;
use std::path::{Path, PathBuf};
use std::process::Command;
use std::sync::OnceLock;
use wheelcheck::station::lacking;

/// What a run left.
struct Ran {
    status: i32,
    out: String,
    errors: String,
}

impl Ran {
    /// Whether both outputs together hold all of these.
    fn says(&self, parts: &[&str]) {
        let whole = format!("{}{}", self.out, self.errors);
        for part in parts {
            assert!(whole.contains(part), "no {part:?} in:\n{whole}");
        }
    }
}

fn repository() -> PathBuf {
    Path::new(env!("CARGO_MANIFEST_DIR")).join("../..")
}

/// The proved library, where it stands.
fn library() -> Option<Remote> {
    Remote::built()
}

/// The command over the second judge and, where the library has every call, over the library.
fn commands() -> &'static [PathBuf] {
    static COMMANDS: OnceLock<Vec<PathBuf>> = OnceLock::new();
    COMMANDS.get_or_init(find_commands)
}

fn find_commands() -> Vec<PathBuf> {
    let real = PathBuf::from(env!("CARGO_BIN_EXE_wheelcheck"));
    let folder = real.parent().expect("a folder");
    let mut commands = vec![folder.join("examples/second_judge")];
    if library().is_some_and(|library| lacking(&library).is_none()) {
        commands.push(real);
    }
    commands
}

fn run(command: &Path, words: &[&str]) -> Ran {
    let output = Command::new(command)
        .args(words)
        .current_dir(repository())
        .output()
        .expect("the command runs");
    Ran {
        status: output.status.code().expect("no signal"),
        out: String::from_utf8(output.stdout).expect("UTF-8"),
        errors: String::from_utf8(output.stderr).expect("UTF-8"),
    }
}

/// Runs each command and has them agree.
fn run_all(words: &[&str]) -> Ran {
    let mut runs = commands().iter().map(|command| run(command, words));
    let first = runs.next().expect("a command");
    for other in runs {
        let found = (other.status, &other.out, &other.errors);
        assert_eq!(found, (first.status, &first.out, &first.errors));
    }
    first
}

/// A folder for one test's files, empty at first.
struct Folder(PathBuf);

impl Folder {
    fn new(test: &str) -> Self {
        let name = format!("wheelcheck-{}-{test}", std::process::id());
        let path = std::env::temp_dir().join(name);
        fs::create_dir_all(&path).expect("a folder");
        Self(path)
    }

    /// Writes a file and gives its name.
    fn file(&self, name: &str, text: impl AsRef<[u8]>) -> String {
        let path = self.0.join(name);
        fs::write(&path, text).expect("a file");
        path.to_str().expect("UTF-8").to_string()
    }

    /// Checks a text against a schema's text.
    fn check(&self, schema: &str, text: &str) -> Ran {
        let schema = self.file("schema.yaml", schema);
        let file = self.file("file.yaml", text);
        run_all(&[&file, "--schema", &schema])
    }
}

impl Drop for Folder {
    fn drop(&mut self) {
        let _ = fs::remove_dir_all(&self.0);
    }
}

#[test]
fn a_library_without_a_call_is_no_library() {
    let real = PathBuf::from(env!("CARGO_BIN_EXE_wheelcheck"));
    let words = [
        "examples/wheels/plain.yaml",
        "--schema",
        "examples/wheel.schema.yaml",
    ];
    let ran = run(&real, &words);
    match library().map(|library| lacking(&library)) {
        Some(None) => assert_eq!((ran.status, ran.errors.as_str()), (0, "")),
        Some(Some(call)) => {
            assert_eq!(ran.status, 2);
            ran.says(&["the proved library lacks the call", call]);
        }
        None => {
            assert_eq!(ran.status, 2);
            ran.says(&["the proved library is missing"]);
        }
    }
}
