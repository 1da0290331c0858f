//! A run of bases replaced by one empty object that names it.

use quarto_yaml_tables::RawTables;
use quarto_yaml_tables::layout::{LINKS, NONE, REGISTRY, SCHEMAS, schema};

/// A run of neighbours in an object's list of bases.
#[derive(Clone, Copy, Debug, PartialEq, Eq)]
pub struct Run {
    /// The object, by its record before this run is grouped.
    pub object: u32,
    /// The run's first base.
    pub start: usize,
    /// How many bases it has, at least 1.
    pub count: usize,
}

/// Well-formed tables in which an empty object stands before the run's object and takes the run's
/// place; every later schema has the next number. None where there is no such run, or no room.
pub fn regroup(tables: &RawTables, run: Run) -> Option<RawTables> {
    let bases = bases(tables, run.object)?;
    (run.count > 0 && run.start + run.count <= bases.len()).then_some(())?;
    let moved = |number: u32| match number {
        NONE => NONE,
        number => number + u32::from(number >= run.object),
    };
    let mut out = RawTables {
        schemas: Vec::new(),
        ..tables.clone()
    };
    for record in 0..tables.count(SCHEMAS) as u32 {
        let mut words = tables.schema(record);
        if record == run.object {
            let wrapper = wrapper(&mut out, &bases[run.start..run.start + run.count]);
            out.schemas.extend(wrapper);
            let mut grouped = bases.clone();
            grouped.splice(run.start..run.start + run.count, [record]);
            words[schema::BASES] = append(&mut out, &grouped);
            words[schema::BASES + 1] = grouped.len() as u32;
        }
        match words[0] {
            schema::ANY_OF | schema::ALL_OF => {
                let parts: Vec<u32> = tables.list(words[2], words[3]).to_vec();
                words[2] = append(&mut out, &parts.into_iter().map(moved).collect::<Vec<_>>());
            }
            schema::ARRAY => words[2] = moved(words[2]),
            schema::OBJECT => {
                for place in [schema::PROPERTIES, schema::PATTERN_PROPERTIES] {
                    let pairs = tables.pairs(words[place], words[place + 1]);
                    let links: Vec<u32> =
                        pairs.flat_map(|(key, part)| [key, moved(part)]).collect();
                    words[place] = append(&mut out, &links);
                }
                words[schema::ADDITIONAL] = moved(words[schema::ADDITIONAL]);
                words[schema::NAMES] = moved(words[schema::NAMES]);
                if record != run.object
                    && let Some(bases) = self::bases(tables, record)
                {
                    let bases: Vec<u32> = bases.into_iter().map(moved).collect();
                    words[schema::BASES] = append(&mut out, &bases);
                }
            }
            _ => {}
        }
        out.schemas.extend(words);
    }
    for entry in out.registry.chunks_exact_mut(REGISTRY.words) {
        entry[1] = moved(entry[1]);
    }
    let fits = out.count(SCHEMAS) <= SCHEMAS.most && out.count(LINKS) <= LINKS.most;
    fits.then_some(out)
}

/// The bases of an object, where the record is one that has any list of them.
pub fn bases(tables: &RawTables, object: u32) -> Option<Vec<u32>> {
    let words = tables.schema(object);
    (words[0] == schema::OBJECT && words[schema::BASES] != NONE).then_some(())?;
    let list = tables.list(words[schema::BASES], words[schema::BASES + 1]);
    Some(list.to_vec())
}

/// Note and options absent, lists empty, not closed, the run as its bases.
fn wrapper(out: &mut RawTables, run: &[u32]) -> [u32; 16] {
    let first = append(out, run);
    let mut words = [NONE; 16];
    words[0] = schema::OBJECT;
    for place in [
        schema::PROPERTIES,
        schema::PATTERN_PROPERTIES,
        schema::REQUIRED,
    ] {
        (words[place], words[place + 1]) = (first, 0);
    }
    words[schema::CLOSED] = 0;
    (words[schema::BASES], words[schema::BASES + 1]) = (first, run.len() as u32);
    words
}

/// Appends links and gives their first place.
fn append(out: &mut RawTables, links: &[u32]) -> u32 {
    let first = out.links.len() as u32;
    out.links.extend_from_slice(links);
    first
}
