//! Reports for a machine.

use crate::message::{answer_name, code};
use crate::source::{Place, Trouble};
use crate::station::{Report, Step, Verdict};
use quarto_yaml_tables::Answer;
use quarto_yaml_tables::layout::NONE;
use serde_json::{Value, json};

/// One object, on one line, with every field of the answer; what is absent is null.
pub fn json(report: &Report) -> String {
    let number = report.answer.map(|answer| answer.number);
    let mut object = json!({
        "file": report.name,
        "code": number.and_then(code),
        "reason": number.map(answer_name),
        "answer": report.answer.as_ref().map(answer),
        "message": null,
        "hint": null,
        "instance_path": null,
        "schema_path": null,
        "rule": null,
        "warnings": report.warnings.iter().map(trouble).collect::<Vec<_>>(),
    });
    place(&mut object, None);
    match &report.verdict {
        Verdict::Accepted => object["status"] = "accepted".into(),
        Verdict::Unchecked(found) => {
            object["status"] = "unchecked".into();
            object["message"] = found.message.as_str().into();
            object["hint"] = found.hint.as_deref().into();
            place(&mut object, found.place);
        }
        Verdict::Refused(refusal) => {
            object["status"] = "refused".into();
            object["message"] = refusal.message.as_str().into();
            object["hint"] = refusal.hint.as_deref().into();
            object["instance_path"] = refusal.instance.iter().map(step).collect();
            object["schema_path"] = refusal.kinds.iter().copied().collect();
            place(&mut object, refusal.place);
            if let Some((name, found)) = &refusal.rule {
                let mut rule = json!({ "file": name });
                place(&mut rule, Some(*found));
                object["rule"] = rule;
            }
        }
    }
    object.to_string()
}

fn step(step: &Step) -> Value {
    match step {
        Step::Key(key) => key.as_str().into(),
        Step::Index(index) => (*index).into(),
    }
}

fn place(object: &mut Value, place: Option<Place>) {
    object["line"] = place.map(|place| place.line).into();
    object["column"] = place.map(|place| place.column).into();
    object["length"] = place.map(|place| place.length).into();
}

fn trouble(trouble: &Trouble) -> Value {
    let mut object = json!({ "message": trouble.message });
    place(&mut object, trouble.place);
    object
}

/// Every field; NONE is null, and so is a value or bound that JSON has no number for.
fn answer(answer: &Answer) -> Value {
    let word = |word: u32| (word != NONE).then_some(word);
    json!({
        "number": answer.number,
        "table": word(answer.table),
        "record": word(answer.record),
        "node": word(answer.node),
        "schema": word(answer.schema),
        "hint": word(answer.hint),
        "detail": answer.detail,
        "a": word(answer.a),
        "b": word(answer.b),
        "instance_steps": answer.instance_steps,
        "schema_steps": answer.schema_steps,
        "used_notes": word(answer.used_notes),
        "used_schemas": word(answer.used_schemas),
        "used_links": word(answer.used_links),
        "value": answer.value,
        "bound": answer.bound,
    })
}
