//! The command's words.

use quarto_yaml_tables::Mode;

/// What `--help` prints.
pub const USAGE: &str = "\
wheelcheck FILE... --schema SCHEMA.yaml [--base BASE.yaml]... [--mode source|standard] [--json] [--quiet]

Checks each file against the schema, which is the last document of SCHEMA.yaml.
  --schema FILE   the schema; docs/SCHEMAS.md lists the forms
  --base FILE     schemas that the schema refers to by their $id; may be repeated
  --mode MODE     source (the default): lengths in bytes, 1 and 1.0 differ;
                  standard: lengths in code points, 1 and 1.0 are equal
  --json          one JSON object a file, each on its own line
  --quiet         print nothing but what keeps a file from being checked
  --help          print this

Exit status: 0 every file is accepted, 1 some are refused, 2 some could not be checked or the command could not run.
";

/// What was asked for.
#[derive(Clone, Debug, PartialEq, Eq)]
pub struct Args {
    /// The files to check.
    pub files: Vec<String>,
    /// The schema's file.
    pub schema: String,
    /// Files of schemas that it refers to.
    pub bases: Vec<String>,
    /// How lengths and numbers are compared.
    pub mode: Mode,
    /// One JSON object a file.
    pub json: bool,
    /// Nothing but trouble.
    pub quiet: bool,
}

/// What the words ask for.
#[derive(Clone, Debug, PartialEq, Eq)]
pub enum Asked {
    /// The help.
    Help,
    /// A check.
    Check(Args),
}

/// Reads the words; says what is wrong with them.
pub fn parse(words: impl IntoIterator<Item = String>) -> Result<Asked, String> {
    let mut words = words.into_iter();
    let mut args = Args {
        files: Vec::new(),
        schema: String::new(),
        bases: Vec::new(),
        mode: Mode::Source,
        json: false,
        quiet: false,
    };
    let mut schema = None;
    while let Some(word) = words.next() {
        let (option, given) = match word.split_once('=') {
            Some((option, value)) if word.starts_with("--") => (option, Some(value.to_string())),
            _ => (word.as_str(), None),
        };
        let mut value = || {
            given
                .clone()
                .or_else(|| words.next())
                .ok_or_else(|| format!("{option} needs a value"))
        };
        match option {
            "--help" | "-h" => return Ok(Asked::Help),
            "--schema" => {
                let name = value()?;
                if schema.replace(name).is_some() {
                    return Err(
                        "--schema is there twice; further schemas are given by --base".into(),
                    );
                }
            }
            "--base" => args.bases.push(value()?),
            "--mode" => {
                args.mode = match value()?.as_str() {
                    "source" => Mode::Source,
                    "standard" => Mode::Standard,
                    other => return Err(format!("--mode is source or standard, not '{other}'")),
                }
            }
            "--json" if given.is_none() => args.json = true,
            "--quiet" | "-q" if given.is_none() => args.quiet = true,
            "--" => args.files.extend(words.by_ref()),
            other if other.starts_with('-') => return Err(format!("unknown option '{word}'")),
            _ => args.files.push(word),
        }
    }
    args.schema = schema.ok_or("--schema SCHEMA.yaml is missing")?;
    if args.files.is_empty() {
        return Err("no file to check".into());
    }
    Ok(Asked::Check(args))
}

#[cfg(test)]
mod tests {
    use super::*;

    fn of(line: &str) -> Result<Asked, String> {
        parse(line.split_whitespace().map(str::to_string))
    }

    #[test]
    fn a_check_is_asked_for() {
        let Ok(Asked::Check(args)) =
            of("a.yaml --schema=s.yaml --base b --mode standard b.yaml --json")
        else {
            panic!("a check");
        };
        assert_eq!(args.files, ["a.yaml", "b.yaml"]);
        assert_eq!(
            (args.schema.as_str(), args.mode),
            ("s.yaml", Mode::Standard)
        );
        assert_eq!((args.bases.len(), args.json, args.quiet), (1, true, false));
        assert_eq!(of("--help"), Ok(Asked::Help));
    }

    #[test]
    fn names_after_two_dashes_are_files() {
        let Ok(Asked::Check(args)) = of("--schema s -- --json") else {
            panic!("a check");
        };
        assert_eq!((args.files[0].as_str(), args.json), ("--json", false));
    }

    #[test]
    fn what_is_wrong_is_said() {
        assert_eq!(of("a"), Err("--schema SCHEMA.yaml is missing".into()));
        assert_eq!(of("--schema s"), Err("no file to check".into()));
        assert_eq!(of("a --schema"), Err("--schema needs a value".into()));
        assert_eq!(of("a --shema s"), Err("unknown option '--shema'".into()));
        assert_eq!(of("a --json=1"), Err("unknown option '--json=1'".into()));
        assert!(of("a --schema s --mode fast").is_err());
        assert!(of("a --schema s --schema t").is_err());
    }
}
