//! The library's process, where it does not answer.

use quarto_yaml_tables::remote::{NO_ANSWER, Remote};
use quarto_yaml_tables::{Call, Checker, RawTables};
use std::fs;
use std::os::unix::fs::PermissionsExt;
use std::time::{Duration, Instant};

#[test]
fn a_call_that_takes_too_long_is_given_up() {
    let name = format!("silent-library-{}", std::process::id());
    let path = std::env::temp_dir().join(name);
    // it has every call, and answers none
    fs::write(
        &path,
        "#!/bin/sh\nprintf '\\007\\000\\000\\000'\nexec sleep 60\n",
    )
    .unwrap();
    fs::set_permissions(&path, fs::Permissions::from_mode(0o755)).unwrap();
    let library = Remote::start(&path).unwrap();
    let library = library.limited(Duration::from_millis(200));
    assert!(library.has(Call::Compile));
    let start = Instant::now();
    for _ in 0..2 {
        let answer = library.navigate(&RawTables::default(), 0, &[], false);
        assert_eq!(answer.number, NO_ANSWER);
    }
    assert!(start.elapsed() < Duration::from_secs(30));
    fs::remove_file(&path).unwrap();
}
