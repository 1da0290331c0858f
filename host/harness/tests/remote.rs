//! The pipe to the proved library carries every argument and every word back.

use quarto_yaml_harness::remote::{NO_ANSWER, Remote};
use quarto_yaml_tables::{Call, Checker, Mode, Paths, Tables, Visit};
use std::path::{Path, PathBuf};
use std::process::Command;

/// A library that answers with what it was passed.
const ECHO: &str = r#"
#include <stdbool.h>
#include <stddef.h>
#include <stdint.h>
#include <stdlib.h>
typedef struct { uint32_t w[14]; double value, bound; } answer;
#define TABLES const uint8_t *p, size_t pl, const uint32_t *t, size_t tl, const uint32_t *n, size_t nl, \
    const uint32_t *o, size_t ol, const uint32_t *s, size_t sl, const uint32_t *r, size_t rl, \
    const uint32_t *a, size_t al, const uint32_t *l, size_t ll, const uint64_t *u, size_t ul
#define PATHS uint32_t node, uint32_t schema, uint32_t *i, size_t il, uint32_t *k, size_t kl
answer qy_navigate(TABLES, uint32_t node, const uint32_t *path, size_t words, bool key) {
    if (node == 99) abort();
    answer x = {{node, pl, tl, nl, ol, sl, rl, al, ll, ul, words, key, path[words - 1], p[1]}, 1.5, (double)u[0]};
    return x;
}
static answer check(uint32_t mode, PATHS) {
    answer x = {{mode, node, schema, il, kl, i[0], k[kl - 1]}, 0, -0.0};
    i[0] = 5; k[kl - 1] = 6;
    return x;
}
answer qy_validate(TABLES, PATHS) { return check(0, node, schema, i, il, k, kl); }
answer qy_validate_source(TABLES, PATHS) { return check(1, node, schema, i, il, k, kl); }
answer qy_validate_standard(TABLES, PATHS) { return check(2, node, schema, i, il, k, kl); }
answer qy_compile(const uint8_t *p, size_t pl, const uint32_t *t, size_t tl, const uint32_t *n, size_t nl,
    uint32_t *o, size_t ol, uint32_t uo, uint32_t *s, size_t sl, uint32_t us, const uint32_t *r, size_t rl,
    const uint32_t *a, size_t al, uint32_t *l, size_t ll, uint32_t ulinks, const uint64_t *u, size_t ul,
    uint32_t schema) {
    answer x = {{schema, uo, us, ulinks, ol, sl, ll, pl, tl, nl, rl, al, ul}, 0, 0};
    o[ol - 1] = 1; s[sl - 1] = 2; l[ll - 1] = 3;
    return x;
}
"#;

fn run(folder: &Path, program: &str, arguments: &[&str]) {
    let status = Command::new(program)
        .args(arguments)
        .current_dir(folder)
        .status();
    assert!(status.is_ok_and(|status| status.success()), "{program}");
}

/// The program built around the echo, for this processor.
fn echo() -> PathBuf {
    let folder = Path::new(env!("CARGO_TARGET_TMPDIR")).join("echo");
    std::fs::create_dir_all(&folder).expect("a folder");
    std::fs::write(folder.join("echo.c"), ECHO).expect("a file");
    let serve = concat!(env!("CARGO_MANIFEST_DIR"), "/../serve/serve.c");
    let every = ["-DHAVE_VALIDATE", "-DHAVE_COMPILE"];
    run(&folder, "cc", &["-c", "-w", "echo.c", "-o", "echo.o"]);
    run(
        &folder,
        "cc",
        &[
            "-std=c99", "-Wall", every[0], every[1], serve, "echo.o", "-o", "serve",
        ],
    );
    folder.join("serve")
}

#[test]
fn every_argument_travels() {
    let remote = Remote::start(&echo()).expect("a program that starts");
    assert!(
        [Call::Navigate, Call::Validate, Call::Compile].map(|call| remote.has(call)) == [true; 3]
    );
    let mut tables = Tables::new();
    let text = tables.text("xyz").expect("room");
    let node = tables.integer(7).expect("room");
    tables.array(&[node]).expect("room");
    let schema = tables.true_schema().expect("room");
    tables.register(text, schema).expect("room");
    let mut raw = tables.into_raw();
    raw.notes = vec![9; 10];

    let answer = remote.navigate(&raw, 3, &[0, 1, 1, 8], true);
    let expected = [3, 3, 2, 8, 10, 16, 2, 0, 1, 1, 4, 1, 8, u32::from(b'y')];
    assert_eq!(answer.words()[..14], expected);
    assert_eq!((answer.value, answer.bound), (1.5, 7.0));

    let ended = remote.navigate(&raw, 99, &[0, 1], false);
    assert_eq!(ended.number, NO_ANSWER);

    for (mode, number) in [(Mode::Unnamed, 0), (Mode::Source, 1), (Mode::Standard, 2)] {
        let mut paths = Paths {
            instance: vec![11; 3],
            steps: vec![12; 4],
        };
        let visit = Visit {
            mode,
            node: 4,
            schema: 5,
        };
        let answer = remote.validate(&raw, visit, &mut paths);
        assert_eq!(answer.words()[..7], [number, 4, 5, 3, 4, 11, 12]);
        assert!(answer.bound.is_sign_negative());
        assert_eq!(paths.instance, [5, 11, 11]);
        assert_eq!(paths.steps, [12, 12, 12, 6]);
    }

    let answer = remote.compile(&mut raw, [21, 22, 23], 24);
    assert_eq!(
        answer.words()[..13],
        [24, 21, 22, 23, 10, 16, 1, 3, 2, 8, 2, 0, 1]
    );
    assert_eq!(raw.notes[8..], [9, 1]);
    assert_eq!((raw.schemas[15], raw.links[0]), (2, 3));
}
