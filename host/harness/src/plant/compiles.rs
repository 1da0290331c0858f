//! Wrong answers to a compile.

use super::{Plant, changed, seen, unseen};
use crate::case::Request;
use crate::generate::Stream::{Both, Compile, Edges};
use crate::run::Outcome;
use quarto_yaml_model::Model;
use quarto_yaml_tables::Checker;
use quarto_yaml_tables::layout::{GROWING, LINKS, NONE, NOTES, SCHEMAS, Table, note, schema};

pub const PLANTS: &[Plant] = &[
    seen("the record before the compiled one", Compile, |_, right| {
        compiled(right, |wrong| {
            wrong.answer.record = wrong.answer.record.checked_sub(1)?;
            Some(())
        })
    }),
    seen("appends nothing", Compile, |case, right| {
        let Request::Compile { schema, .. } = case.request else {
            return None;
        };
        compiled(right, |wrong| {
            wrong.answer.record = schema;
            Some(())
        })
    }),
    unseen("a link too many in use", Compile, |_, right| {
        compiled(right, |wrong| {
            wrong.answer.used_links += 1;
            Some(())
        })
    }),
    unseen(
        "a word of the spare room not zeroed",
        Compile,
        |_, right| {
            changed(right, |wrong| {
                (!matches!(wrong.answer.number, 20 | 21)).then_some(())?;
                let words = &mut wrong.tables.as_mut()?.links;
                let last = words.last_mut().filter(|word| **word == 0)?;
                *last = 7;
                Some(())
            })
        },
    ),
    unseen("an earlier word changed", Compile, |_, right| {
        changed(right, |wrong| {
            *wrong.tables.as_mut()?.schemas.get_mut(1)? ^= 1;
            Some(())
        })
    }),
    unseen("a table changed that is only read", Compile, |_, right| {
        changed(right, |wrong| {
            *wrong.tables.as_mut()?.registry.first_mut()? ^= 1;
            Some(())
        })
    }),
    unseen(
        "a refusal that keeps what it appended",
        Compile,
        |_, right| {
            changed(right, |wrong| {
                matches!(wrong.answer.number, 30..=33).then_some(())?;
                wrong.answer.used_notes += 1;
                Some(())
            })
        },
    ),
    seen("30 for 31", Compile, |_, right| {
        changed(right, |wrong| {
            (wrong.answer.number == 31).then_some(())?;
            wrong.answer.number = 30;
            Some(())
        })
    }),
    seen("compiled though refused", Compile, |case, right| {
        let Request::Compile { schema, .. } = case.request else {
            return None;
        };
        changed(right, |wrong| {
            matches!(wrong.answer.number, 30..=32).then_some(())?;
            (wrong.answer.number, wrong.answer.record) = (0, schema);
            Some(())
        })
    }),
    seen(
        "the merged note without its description",
        Compile,
        |_, right| {
            object_word(right, |wrong, words| {
                let place = NOTES.words * words[1] as usize + note::DESCRIPTION;
                appended(wrong, NOTES, words[1]).then_some(())?;
                *wrong.tables.as_mut()?.notes.get_mut(place)? = NONE;
                Some(())
            })
        },
    ),
    seen("open though closed", Compile, |_, right| {
        object_word(right, |wrong, words| {
            set(wrong, schema::CLOSED, 1 - words[schema::CLOSED])
        })
    }),
    seen("a required text less", Compile, |_, right| {
        object_word(right, |wrong, words| {
            let place = schema::REQUIRED + 1;
            set(wrong, place, words[place].checked_sub(1)?)
        })
    }),
    seen("a property less", Compile, |_, right| {
        object_word(right, |wrong, words| {
            let place = schema::PROPERTIES + 1;
            set(wrong, place, words[place].checked_sub(1)?)
        })
    }),
    seen(
        "a minimum that the derived does not have",
        Compile,
        |_, right| {
            object_word(right, |wrong, words| {
                (words[schema::MINIMUM] == NONE).then_some(())?;
                set(wrong, schema::MINIMUM, 0)
            })
        },
    ),
    seen("no schema for names", Compile, |_, right| {
        object_word(right, |wrong, words| {
            (words[schema::NAMES] != NONE).then_some(())?;
            set(wrong, schema::NAMES, NONE)
        })
    }),
    seen("the bases kept", Compile, |_, right| {
        object_word(right, |wrong, _| set(wrong, schema::BASES, 0))
    }),
    unseen("two properties in another order", Compile, |_, right| {
        object_word(right, |wrong, words| {
            (words[schema::PROPERTIES + 1] > 1).then_some(())?;
            let first = words[schema::PROPERTIES];
            appended(wrong, LINKS, first).then_some(())?;
            let links = &mut wrong.tables.as_mut()?.links;
            let (pairs, _) = links
                .get_mut(first as usize..first as usize + 4)?
                .split_at_mut(4);
            pairs.rotate_left(2);
            Some(())
        })
    }),
    unseen("a ragged tail not zeroed", Edges, |_, right| {
        written(right, |wrong| {
            let tables = wrong.tables.as_mut()?;
            let ragged = [NOTES, SCHEMAS]
                .into_iter()
                .find(|table| tables.words(*table).len() % table.words != 0)?;
            *tables.words_mut(ragged).last_mut()? = 7;
            Some(())
        })
    }),
    unseen("room past the limit not zeroed", Edges, |_, right| {
        written(right, |wrong| {
            let tables = wrong.tables.as_mut()?;
            let over = GROWING
                .into_iter()
                .find(|table| tables.count(*table) > table.most)?;
            tables.words_mut(over)[over.most * over.words] = 7;
            Some(())
        })
    }),
    unseen("room zeroed after 20 or 21", Edges, |case, right| {
        changed(right, |wrong| {
            matches!(wrong.answer.number, 20 | 21).then_some(())?;
            let Request::Compile { used, .. } = case.request else {
                return None;
            };
            let tables = wrong.tables.as_mut()?;
            for (table, used) in GROWING.into_iter().zip(used) {
                let start = used as usize * table.words;
                let words = tables.words_mut(table);
                words.get_mut(start..).unwrap_or_default().fill(0);
            }
            Some(())
        })
    }),
    unseen("used counts cut to what is lent", Edges, |case, right| {
        changed(right, |wrong| {
            (wrong.answer.number == 20).then_some(())?;
            let answer = &mut wrong.answer;
            let lent = case.tables.used();
            answer.used_notes = answer.used_notes.min(lent[0]);
            answer.used_schemas = answer.used_schemas.min(lent[1]);
            answer.used_links = answer.used_links.min(lent[2]);
            Some(())
        })
    }),
    unseen("a record past what is lent used", Edges, |case, right| {
        changed(right, |wrong| {
            (wrong.answer.number == 33).then_some(())?;
            let Request::Compile { used, schema } = case.request else {
                return None;
            };
            let mut beyond = case.tables.clone();
            for (table, used) in GROWING.into_iter().zip(used) {
                let room = used as usize + 20;
                (room <= table.most).then_some(())?;
                beyond.words_mut(table).resize(room * table.words, 0);
            }
            let answer = Model.compile(&mut beyond, used, schema);
            (answer.number == 0).then_some(())?;
            wrong.answer = answer;
            Some(())
        })
    }),
    seen("another answer after compiling", Both, |_, right| {
        changed(right, |wrong| {
            let then = wrong.then.as_mut()?;
            then.number = if then.number == 1 { 4 } else { 1 };
            Some(())
        })
    }),
];

fn compiled(right: &Outcome, change: impl FnOnce(&mut Outcome) -> Option<()>) -> Option<Outcome> {
    (right.answer.number == 0).then_some(())?;
    changed(right, change)
}

/// A change where the call writes, even if it refuses.
fn written(right: &Outcome, change: impl FnOnce(&mut Outcome) -> Option<()>) -> Option<Outcome> {
    (!matches!(right.answer.number, 20 | 21)).then_some(())?;
    changed(right, change)
}

/// Whether a record was appended by the compile: the last ones were.
fn appended(outcome: &Outcome, table: Table, record: u32) -> bool {
    let used = match table.number {
        3 => outcome.answer.used_notes,
        _ => outcome.answer.used_links,
    };
    record < used
}

/// A change where the compiled record is an object that was appended last.
fn object_word(
    right: &Outcome,
    change: impl FnOnce(&mut Outcome, [u32; 16]) -> Option<()>,
) -> Option<Outcome> {
    let words = right.tables.as_ref()?.schema(right.answer.record);
    let last = right.answer.record + 1 == right.answer.used_schemas;
    (words[0] == schema::OBJECT && last).then_some(())?;
    compiled(right, |wrong| change(wrong, words))
}

/// Sets a word of the compiled record.
fn set(outcome: &mut Outcome, place: usize, word: u32) -> Option<()> {
    let start = outcome.answer.record as usize * SCHEMAS.words;
    *outcome.tables.as_mut()?.schemas.get_mut(start + place)? = word;
    Some(())
}
