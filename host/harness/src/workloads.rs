//! What `host/bench` counts: six pieces of work, built as a host would.

use quarto_yaml_tables::{
    ArrayRules, Node, NumberRules, ObjectRules, RawTables, Schema, StringRules, TableError, Tables,
    Text,
};

/// Tables, and the node and the schema of the call.
pub struct Workload {
    /// What is lent.
    pub tables: RawTables,
    /// The value.
    pub node: u32,
    /// The schema.
    pub schema: u32,
}

type Build = fn() -> Result<Workload, TableError>;

/// Each workload by its name. A text stands in the tables as often as in the file and the schema.
pub const WORKLOADS: [(&str, Build); 6] = [
    ("wheel", || wheel(127)),
    ("refused", || wheel(200)),
    ("wheels", wheels),
    ("any-of", any_of),
    ("unique", unique),
    ("object", object),
];

const WHEELS: usize = 450;

const ALTERNATIVES: u32 = 20;

const STRINGS: usize = 1_000;

const PROPERTIES: usize = 200;

/// Tables in the making.
#[derive(Default)]
struct Bench {
    tables: Tables,
}

impl Bench {
    fn text(&mut self, text: &str) -> Result<Text, TableError> {
        self.tables.text(text)
    }

    fn string(&mut self, text: &str) -> Result<Node, TableError> {
        let text = self.text(text)?;
        self.tables.string(text)
    }

    fn done(self, node: Node, schema: Schema) -> Workload {
        Workload {
            tables: self.tables.into_raw(),
            node: node.get(),
            schema: schema.get(),
        }
    }

    /// A closed object of these properties; the names given are required.
    fn closed(
        &mut self,
        properties: &[(&str, Schema)],
        required: &[&str],
    ) -> Result<Schema, TableError> {
        let properties = properties
            .iter()
            .map(|&(name, schema)| Ok((self.text(name)?, schema)))
            .collect::<Result<Vec<_>, TableError>>()?;
        let required = required
            .iter()
            .map(|name| self.text(name))
            .collect::<Result<Vec<_>, _>>()?;
        let rules = ObjectRules {
            properties,
            required,
            closed: true,
            ..ObjectRules::default()
        };
        self.tables.object_schema(None, &rules)
    }

    /// The schema of a wheel: four properties, of which the step has to fit a signed byte.
    fn wheel_schema(&mut self) -> Result<Schema, TableError> {
        let between = |least, most| NumberRules {
            minimum: Some(least),
            maximum: Some(most),
            ..NumberRules::default()
        };
        let named = StringRules {
            minimum: Some(1),
            maximum: Some(64),
            pattern: None,
        };
        let name = self.tables.string_schema(None, &named)?;
        let detents = self.tables.number_schema(None, &between(1.0, 96.0))?;
        let step = self.tables.number_schema(None, &between(-128.0, 127.0))?;
        let directions = [self.string("cw")?, self.string("ccw")?];
        let direction = self.tables.enum_schema(None, &directions)?;
        let properties = [
            ("name", name),
            ("detents", detents),
            ("step", step),
            ("direction", direction),
        ];
        self.closed(&properties, &properties.map(|(name, _)| name))
    }

    /// A wheel's file.
    fn wheel(&mut self, number: usize, step: i64) -> Result<Node, TableError> {
        let name = self.string("name")?;
        let name_held = self.string(&format!("wheel-{number:03}"))?;
        let detents = self.string("detents")?;
        let detents_held = self.tables.integer(24)?;
        let step_key = self.string("step")?;
        let step_held = self.tables.integer(step)?;
        let direction = self.string("direction")?;
        let direction_held = self.string("ccw")?;
        self.tables.object(&[
            (name, name_held),
            (detents, detents_held),
            (step_key, step_held),
            (direction, direction_held),
        ])
    }
}

fn wheel(step: i64) -> Result<Workload, TableError> {
    let mut bench = Bench::default();
    let schema = bench.wheel_schema()?;
    let node = bench.wheel(1, step)?;
    Ok(bench.done(node, schema))
}

fn wheels() -> Result<Workload, TableError> {
    let mut bench = Bench::default();
    let items = Some(bench.wheel_schema()?);
    let schema = bench.tables.array_schema(
        None,
        &ArrayRules {
            items,
            ..ArrayRules::default()
        },
    )?;
    let nodes = (1..=WHEELS)
        .map(|number| bench.wheel(number, 127))
        .collect::<Result<Vec<_>, _>>()?;
    let node = bench.tables.array(&nodes)?;
    Ok(bench.done(node, schema))
}

/// Strings that are too short for every alternative but the last.
fn any_of() -> Result<Workload, TableError> {
    let mut bench = Bench::default();
    let parts = (0..ALTERNATIVES)
        .map(|number| {
            let minimum = Some(ALTERNATIVES - number);
            bench.tables.string_schema(
                None,
                &StringRules {
                    minimum,
                    ..StringRules::default()
                },
            )
        })
        .collect::<Result<Vec<_>, _>>()?;
    let schema = bench.tables.any_of(None, &parts)?;
    let node = bench.string("x")?;
    Ok(bench.done(node, schema))
}

fn unique() -> Result<Workload, TableError> {
    let mut bench = Bench::default();
    let rules = ArrayRules {
        unique: Some(true),
        ..ArrayRules::default()
    };
    let schema = bench.tables.array_schema(None, &rules)?;
    let nodes = (0..STRINGS)
        .map(|number| bench.string(&format!("wheel-{number:04}")))
        .collect::<Result<Vec<_>, _>>()?;
    let node = bench.tables.array(&nodes)?;
    Ok(bench.done(node, schema))
}

fn object() -> Result<Workload, TableError> {
    let mut bench = Bench::default();
    let names: Vec<String> = (0..PROPERTIES)
        .map(|number| format!("property-{number:03}"))
        .collect();
    let held = bench.tables.boolean_schema(None)?;
    let properties: Vec<(&str, Schema)> = names.iter().map(|name| (name.as_str(), held)).collect();
    let schema = bench.closed(&properties, &[])?;
    let mut entries = Vec::new();
    for name in &names {
        let key = bench.string(name)?;
        entries.push((key, bench.tables.boolean(true)?));
    }
    let node = bench.tables.object(&entries)?;
    Ok(bench.done(node, schema))
}
