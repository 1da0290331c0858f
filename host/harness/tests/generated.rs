//! The generator, the shrinker and the stored answers.

use quarto_yaml_harness::case::{Case, Request};
use quarto_yaml_harness::generate::{self, EDGES, Stream};
use quarto_yaml_harness::guard::with_large_stack;
use quarto_yaml_harness::plant::{Altered, UNALTERED};
use quarto_yaml_harness::record::{
    Kind, bytes, pair_words, pairs, replay, replay_pairs, sample, words,
};
use quarto_yaml_harness::shrink::shrink;
use quarto_yaml_model::{Model, check, check_used};
use quarto_yaml_oracle::PRESENT;
use quarto_yaml_tables::{Answer, Checker, Paths};

#[test]
fn a_seed_and_an_index_give_the_same_case() {
    for (_, stream) in Stream::NAMES {
        let case = generate::case(stream, 3, 5);
        assert_eq!(case, generate::case(stream, 3, 5));
    }
    assert_ne!(
        generate::case(Stream::Validate, 3, 5),
        generate::case(Stream::Validate, 4, 5)
    );
}

#[test]
fn generated_tables_are_well_formed() {
    let sound = [
        Stream::Navigate,
        Stream::Validate,
        Stream::Compile,
        Stream::Both,
        Stream::Standard,
    ];
    for index in 0..2_000 {
        for stream in sound {
            let case = generate::case(stream, 11, index);
            let result = match case.request {
                Request::Compile { used, .. } | Request::CompileThenValidate { used, .. } => {
                    check_used(&case.tables, used)
                }
                _ => check(&case.tables),
            };
            assert!(result.is_ok(), "{stream:?} {index}: {result:?}\n{case}");
        }
    }
}

#[test]
fn damage_reaches_every_table() {
    let mut seen = [false; 10];
    for index in 0..20_000 {
        let Case { tables, request } = generate::case(Stream::DamagedNavigate, 1, index);
        let Request::Navigate {
            node,
            path,
            key_wanted,
        } = request
        else {
            continue;
        };
        let answer = Model.navigate(&tables, node, &path, key_wanted);
        if answer.number == 20 {
            seen[answer.table as usize] = true;
        }
    }
    assert_eq!(seen[1..], [true; 9]);
}

#[test]
fn each_edge_is_what_it_is_called() {
    for index in 0..20 * EDGES.len() as u64 {
        let mut case = generate::case(Stream::Edges, 3, index);
        let edge = generate::edge(index);
        let Request::Compile { used, schema } = case.request else {
            panic!("{edge}: no compile");
        };
        let answer = Model.compile(&mut case.tables, used, schema);
        assert_eq!(answer.number, edge.number(), "{edge}");
        if answer.number == 20 {
            let named = format!("table {} ", answer.table);
            assert!(edge.to_string().starts_with(&named), "{edge}");
            assert_eq!(answer.record, u32::MAX, "{edge}");
        }
    }
}

/// Wrong where a boolean schema refuses: everything passes.
const LENIENT: Altered = Altered {
    after: |_, answer, paths| {
        if answer.number == 1 && answer.a == 1 {
            *paths = Paths::of(0, [paths.instance.len(), paths.steps.len()]);
            *answer = Answer::of(0);
        }
    },
    ..UNALTERED
};

#[test]
fn a_failing_case_is_made_small() {
    use quarto_yaml_harness::judge::{Ask, Judged};
    with_large_stack(|| {
        let fails = |case: &Case| {
            let judged = Judged::of(case, Ask::Domain);
            judged.checker(&LENIENT).is_err()
        };
        let failing = (0..)
            .map(|index| generate::case(Stream::Validate, 1, index))
            .find(fails);
        let small = shrink(failing.expect("a boolean schema refuses somewhere"), fails);
        assert_eq!(small.tables.nodes.len(), 4, "{small}");
        assert_eq!(small.tables.schemas.len(), 16, "{small}");
        assert!(small.tables.links.is_empty(), "{small}");
        assert!(small.tables.notes.is_empty(), "{small}");
        assert!(small.tables.pool.is_empty(), "{small}");
    });
}

#[test]
fn stored_answers_are_replayed() {
    with_large_stack(|| {
        for (_, kind) in Kind::NAMES {
            let sample = sample(kind, 5, 3_000).expect("every answer number");
            let file = bytes(&words(&sample));
            let replayed = replay(&file, &Model).expect("a file that can be read");
            assert!(replayed.calls >= 3_000);
            assert_eq!(replayed.wrong, 0);
            let cut = &file[..file.len() - 4];
            assert_eq!(replay(cut, &Model), None);
        }
        let sample = sample(Kind::Validate, 5, 3_000).expect("every answer number");
        let replayed = replay(&bytes(&words(&sample)), &LENIENT).expect("readable");
        assert!(replayed.wrong > 0);
    });
}

#[test]
fn stored_pairs_are_compared_again() {
    if !PRESENT {
        return;
    }
    with_large_stack(|| {
        let stored = pairs(5, 3_000).expect("judges that agree");
        assert!(stored.count() >= 3_000);
        let mut words = pair_words(&stored);
        let file = bytes(&words);
        let replayed = replay_pairs(&file).expect("a file that can be read");
        assert_eq!((replayed.calls, replayed.wrong), (stored.count(), 0));
        assert_eq!(replay_pairs(&file[..file.len() - 4]), None);
        let last = words.len() - 1;
        words[last] ^= 1;
        let replayed = replay_pairs(&bytes(&words)).expect("readable");
        assert_eq!(replayed.wrong, 1);
    });
}
