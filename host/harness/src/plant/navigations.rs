//! Wrong answers to a navigation.

use super::{Plant, changed, seen, unseen};
use crate::case::{Case, Request};
use crate::generate::Stream::{DamagedNavigate, Navigate};
use crate::run::{Outcome, run};
use quarto_yaml_model::Model;
use quarto_yaml_tables::Answer;

pub const PLANTS: &[Plant] = &[
    seen("another node found", Navigate, |_, right| {
        changed(right, |wrong| {
            (wrong.answer.number == 0).then_some(())?;
            wrong.answer.record ^= 1;
            Some(())
        })
    }),
    seen("nothing found though there", Navigate, |_, right| {
        changed(right, |wrong| {
            (wrong.answer.number == 0).then_some(())?;
            wrong.answer = Answer::of(40);
            Some(())
        })
    }),
    seen(
        "the start found though nothing is there",
        Navigate,
        |case, right| {
            let Request::Navigate { node, .. } = case.request else {
                return None;
            };
            changed(right, |wrong| {
                (wrong.answer.number == 40).then_some(())?;
                wrong.answer = Answer {
                    record: node,
                    ..Answer::of(0)
                };
                Some(())
            })
        },
    ),
    seen("the key wanted and the value given", Navigate, turned_wish),
    seen("a path followed one step short", Navigate, |case, right| {
        let mut short = case.clone();
        let Request::Navigate { path, .. } = &mut short.request else {
            return None;
        };
        path.truncate(path.len().checked_sub(2)?);
        run(&Model, &short).filter(|wrong| wrong != right)
    }),
    unseen(
        "the next record of a bad table",
        DamagedNavigate,
        |_, right| {
            changed(right, |wrong| {
                (wrong.answer.number == 20).then_some(())?;
                wrong.answer.record = wrong.answer.record.wrapping_add(1);
                Some(())
            })
        },
    ),
    unseen("the next table", DamagedNavigate, |_, right| {
        changed(right, |wrong| {
            (wrong.answer.number == 20).then_some(())?;
            wrong.answer.table += 1;
            Some(())
        })
    }),
    unseen("found in the field of the node", Navigate, |_, right| {
        changed(right, |wrong| {
            (wrong.answer.number == 0).then_some(())?;
            wrong.answer.node = wrong.answer.record;
            Some(())
        })
    }),
    unseen(
        "the node number judged before the path",
        DamagedNavigate,
        |_, right| {
            changed(right, |wrong| {
                (wrong.answer.number == 20 && wrong.answer.table == 9).then_some(())?;
                wrong.answer = Answer::of(21);
                Some(())
            })
        },
    ),
];

fn turned_wish(case: &Case, right: &Outcome) -> Option<Outcome> {
    let mut other = case.clone();
    let Request::Navigate { key_wanted, .. } = &mut other.request else {
        return None;
    };
    *key_wanted = !*key_wanted;
    run(&Model, &other).filter(|wrong| wrong != right)
}
