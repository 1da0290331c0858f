//! The command's messages and codes against the original's own.

use quarto_yaml_harness::case::Request;
use quarto_yaml_harness::generate::{self, Stream};
use quarto_yaml_harness::guard::with_large_stack;
use quarto_yaml_harness::pattern::faithful;
use quarto_yaml_model::Model;
use quarto_yaml_oracle::{Oracle, PRESENT, fit};
use quarto_yaml_tables::{Checker, Mode, Paths, Visit};
use std::collections::BTreeMap;
use wheelcheck::message::{code, refusal};

#[test]
fn refusals_read_as_the_originals() {
    if !PRESENT {
        return;
    }
    let seen = with_large_stack(|| {
        let mut seen = BTreeMap::new();
        for index in 0..20_000 {
            let case = generate::case(Stream::Validate, 12, index);
            let Request::Validate { node, schema, .. } = case.request else {
                continue;
            };
            let tables = &case.tables;
            let visit = Visit {
                mode: Mode::Source,
                node,
                schema,
            };
            let answer = Model.validate(tables, visit, &mut Paths::default());
            let asked =
                (1..=13).contains(&answer.number) && faithful(tables) && fit(tables).is_ok();
            if !asked {
                continue;
            }
            let here = Some((
                refusal(tables, &answer),
                code(answer.number).expect("a code").to_string(),
            ));
            let original = Oracle.message(tables, node, schema);
            assert_eq!(here, original, "case {index}: {case}");
            *seen.entry(answer.number).or_insert(0) += 1;
        }
        seen
    });
    assert_eq!(seen.len(), 13, "{seen:?}");
}
