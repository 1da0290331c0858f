//! Wrong answers to a validation.

use super::{Plant, changed, seen, unseen};
use crate::case::{Case, Request};
use crate::generate::Stream::{Damaged, Standard, Validate};
use crate::run::{Outcome, run};
use quarto_yaml_model::Model;
use quarto_yaml_tables::layout::{self, NONE, note, schema};
use quarto_yaml_tables::{Answer, Detail, detail};

pub const PLANTS: &[Plant] = &[
    seen("another node", Validate, |_, right| {
        refused(right, |wrong| {
            wrong.answer.node = wrong.answer.node.checked_sub(1)?;
            Some(())
        })
    }),
    seen("no node", Validate, |_, right| {
        refused(right, |wrong| {
            wrong.answer.node = NONE;
            Some(())
        })
    }),
    seen("instance path one step short", Validate, |_, right| {
        changed(right, |wrong| {
            let steps = wrong.answer.instance_steps.checked_sub(1)?;
            wrong.answer.instance_steps = steps;
            wrong.instance[2 * steps as usize..].fill(0);
            Some(())
        })
    }),
    seen("instance count one too low", Validate, |_, right| {
        changed(right, |wrong| {
            wrong.answer.instance_steps = wrong.answer.instance_steps.checked_sub(1)?;
            Some(())
        })
    }),
    seen("instance count one too high", Validate, |_, right| {
        refused(right, |wrong| {
            wrong.answer.instance_steps += 1;
            Some(())
        })
    }),
    unseen("stale word past the instance path", Validate, |_, right| {
        changed(right, |wrong| {
            *wrong
                .instance
                .get_mut(2 * right.answer.instance_steps as usize)? = 0xdead_beef;
            Some(())
        })
    }),
    unseen(
        "stale last word of the schema path",
        Validate,
        |_, right| {
            changed(right, |wrong| {
                *wrong.steps.last_mut()? = 1;
                Some(())
            })
        },
    ),
    unseen(
        "buffers left as they were on a refusal of the tables",
        Damaged,
        |_, right| {
            changed(right, |wrong| {
                matches!(wrong.answer.number, 20..=22).then_some(())?;
                wrong.instance.fill(0xdead_beef);
                wrong.steps.fill(0xdead_beef);
                Some(())
            })
        },
    ),
    seen("schema path one step short", Validate, |_, right| {
        changed(right, |wrong| {
            let steps = wrong.answer.schema_steps.checked_sub(1)?;
            wrong.answer.schema_steps = steps;
            wrong.steps[steps as usize..].fill(0);
            Some(())
        })
    }),
    seen("schema path with another kind", Validate, |_, right| {
        refused(right, |wrong| {
            let step = wrong.steps.first_mut()?;
            *step = if *step == schema::ANY_OF {
                schema::ALL_OF
            } else {
                schema::ANY_OF
            };
            Some(())
        })
    }),
    seen(
        "the last alternative's error from anyOf",
        Validate,
        last_alternative,
    ),
    seen("a type detail swapped", Validate, |_, right| {
        changed(right, |wrong| {
            (wrong.answer.detail == detail::TYPE).then_some(())?;
            std::mem::swap(&mut wrong.answer.a, &mut wrong.answer.b);
            Some(())
        })
    }),
    seen("a count detail swapped", Validate, |_, right| {
        changed(right, |wrong| {
            (wrong.answer.detail == detail::COUNT).then_some(())?;
            std::mem::swap(&mut wrong.answer.a, &mut wrong.answer.b);
            Some(())
        })
    }),
    seen("a pattern detail swapped", Validate, |_, right| {
        changed(right, |wrong| {
            (wrong.answer.detail == detail::PATTERN).then_some(())?;
            std::mem::swap(&mut wrong.answer.a, &mut wrong.answer.b);
            Some(())
        })
    }),
    seen("a range's value and bound swapped", Validate, |_, right| {
        changed(right, |wrong| {
            (wrong.answer.number == 5).then_some(())?;
            std::mem::swap(&mut wrong.answer.value, &mut wrong.answer.bound);
            Some(())
        })
    }),
    seen("another bound named", Validate, |_, right| {
        changed(right, |wrong| {
            (wrong.answer.number == 5).then_some(())?;
            wrong.answer.detail = detail::BELOW_MINIMUM + detail::AT_OR_ABOVE - wrong.answer.detail;
            Some(())
        })
    }),
    seen("the multiple's sign turned", Validate, |_, right| {
        changed(right, |wrong| {
            (wrong.answer.number == 6).then_some(())?;
            wrong.answer.bound = -wrong.answer.bound;
            Some(())
        })
    }),
    seen(
        "a missing property without its schema",
        Validate,
        |_, right| {
            changed(right, |wrong| {
                (wrong.answer.detail == detail::PROPERTY).then_some(())?;
                wrong.answer.b = NONE;
                Some(())
            })
        },
    ),
    unseen("an equal text under another number", Validate, equal_text),
    seen("the hint of another record", Validate, other_hint),
    seen("no hint", Validate, |_, right| {
        changed(right, |wrong| {
            wrong.answer.hint = NONE;
            Some(())
        })
    }),
    unseen("the next schema record", Validate, |_, right| {
        refused(right, |wrong| {
            wrong.answer.schema += 1;
            Some(())
        })
    }),
    seen("accepted though refused", Validate, |_, right| {
        refused(right, |wrong| {
            wrong.answer = Answer::of(0);
            wrong.instance.fill(0);
            wrong.steps.fill(0);
            Some(())
        })
    }),
    seen("refused though accepted", Validate, |case, right| {
        let Request::Validate { node, schema, .. } = case.request else {
            return None;
        };
        changed(right, |wrong| {
            (wrong.answer.number == 0).then_some(())?;
            wrong.answer = Answer {
                node,
                schema,
                ..Answer::of(4)
            };
            Some(())
        })
    }),
    seen("an item's step as a key", Validate, |_, right| {
        changed(right, |wrong| {
            let steps = 2 * wrong.answer.instance_steps as usize;
            let tag = wrong.instance[..steps]
                .iter_mut()
                .step_by(2)
                .find(|tag| **tag == 1)?;
            *tag = 0;
            Some(())
        })
    }),
    seen(
        "an invalid pattern with a schema path",
        Validate,
        |_, right| {
            changed(right, |wrong| {
                (wrong.answer.number == 14).then_some(())?;
                wrong.answer.schema_steps = 1;
                wrong.steps[0] = schema::STRING;
                Some(())
            })
        },
    ),
    seen("the neighbouring number", Validate, |_, right| {
        refused(right, |wrong| {
            wrong.answer.number = wrong.answer.number % 14 + 1;
            Some(())
        })
    }),
    seen(
        "an ordinary refusal where no alternative left an error",
        Validate,
        |case, right| {
            let Request::Validate { node, schema, .. } = case.request else {
                return None;
            };
            changed(right, |wrong| {
                (wrong.answer.number == 25).then_some(())?;
                wrong.answer = Answer {
                    node,
                    schema,
                    ..Answer::of(1)
                }
                .with_detail(Detail::Type(schema::ANY_OF, 0));
                Some(())
            })
        },
    ),
    unseen(
        "source mode's answer in standard mode",
        Standard,
        |case, right| {
            let Request::Validate {
                node,
                schema,
                instance_words,
                schema_words,
                ..
            } = case.request
            else {
                return None;
            };
            let source = Case {
                tables: case.tables.clone(),
                request: Request::Validate {
                    mode: quarto_yaml_tables::Mode::Source,
                    node,
                    schema,
                    instance_words,
                    schema_words,
                },
            };
            run(&Model, &source).filter(|outcome| outcome != right)
        },
    ),
    unseen("22 found after 21", Damaged, |case, right| {
        let Request::Validate {
            instance_words,
            schema_words,
            ..
        } = case.request
        else {
            return None;
        };
        let short = instance_words < layout::INSTANCE_WORDS || schema_words < layout::SCHEMA_WORDS;
        changed(right, |wrong| {
            (wrong.answer.number == 21 && short).then_some(())?;
            wrong.answer.number = 22;
            Some(())
        })
    }),
];

/// A change to an answer from 1 to 13.
fn refused(right: &Outcome, change: impl FnOnce(&mut Outcome) -> Option<()>) -> Option<Outcome> {
    matches!(right.answer.number, 1..=13).then_some(())?;
    changed(right, change)
}

/// What the last alternative says, where the schema asked about is an anyOf.
fn last_alternative(case: &Case, right: &Outcome) -> Option<Outcome> {
    let mut last = case.clone();
    let Request::Validate { schema: asked, .. } = &mut last.request else {
        return None;
    };
    let words = case.tables.schema(*asked);
    let refusal = matches!(right.answer.number, 1..=13);
    (words[0] == schema::ANY_OF && words[3] > 1 && refusal).then_some(())?;
    *asked = *case.tables.list(words[2], words[3]).last()?;
    let mut wrong = run(&Model, &last)?;
    matches!(wrong.answer.number, 1..=13).then_some(())?;
    wrong.steps.rotate_right(1);
    wrong.steps[0] = schema::ANY_OF;
    wrong.answer.schema_steps += 1;
    (wrong != *right).then_some(wrong)
}

/// The same bytes by another record of table 1.
fn equal_text(case: &Case, right: &Outcome) -> Option<Outcome> {
    let texts = case.tables.count(layout::TEXTS) as u32;
    let bytes = |text: u32| case.tables.text(text);
    changed(right, |wrong| {
        let named = [
            detail::KEY,
            detail::PROPERTY,
            detail::PATTERN,
            detail::REFERENCE,
        ];
        named.contains(&wrong.answer.detail).then_some(())?;
        let text = wrong.answer.a;
        wrong.answer.a = (0..texts).find(|&other| other != text && bytes(other) == bytes(text))?;
        Some(())
    })
}

/// The error message of the record asked about, instead of the one that refuses.
fn other_hint(case: &Case, right: &Outcome) -> Option<Outcome> {
    let Request::Validate { schema: asked, .. } = case.request else {
        return None;
    };
    refused(right, |wrong| {
        let words = case.tables.schema(asked);
        (words[1] != NONE && wrong.answer.schema != asked).then_some(())?;
        wrong.answer.hint = case.tables.note(words[1])[note::ERROR_MESSAGE];
        Some(())
    })
}
