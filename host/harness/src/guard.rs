//! Runs cases in another process, which may crash or never end.
//!
//! The worker writes the index of the case it is at into a file. Where it
//! crashes (the original has run out of stack) or stands still, the case is
//! known, counted as endless, and the rest is run without it.

use crate::case::Case;
use crate::generate::{self, Stream};
use crate::judge::{Ask, Heard, Judged};
use crate::remote::Remote;
use crate::shrink::shrink;
use crate::tally::Tally;
use quarto_yaml_model::Model;
use quarto_yaml_oracle::INDEX_PANIC;
use quarto_yaml_tables::Checker;
use std::cell::Cell;
use std::fs::File;
use std::io::{self, BufRead, BufReader, Write};
use std::ops::Range;
use std::os::unix::fs::FileExt;
use std::panic;
use std::path::{Path, PathBuf};
use std::process::{Child, Command, Stdio};
use std::sync::Once;
use std::time::{Duration, Instant};

/// A run: which cases, and of which seed.
#[derive(Clone, Copy, Debug)]
pub struct Plan {
    /// The kind of cases.
    pub stream: Stream,
    /// The seed.
    pub seed: u64,
}

/// How long one case may take.
const PATIENCE: Duration = Duration::from_secs(10);

/// Cases given to a worker at once.
const CHUNK: u64 = 20_000;

/// Stack of the thread that asks the original; only what is used is taken.
const STACK: usize = 1 << 28;

/// Differences that a worker makes small; the rest is only counted.
const SHRINKS: usize = 2;

/// What a run came to.
#[derive(Debug, Default)]
pub struct Report {
    /// Answers by call.
    pub tally: Tally,
    /// Differences, in full.
    pub differences: Vec<String>,
}

/// The second judge and, where it was built, the proved library.
pub fn checkers() -> Vec<(&'static str, Box<dyn Checker>)> {
    let mut all: Vec<(&'static str, Box<dyn Checker>)> = vec![("model", Box::new(Model))];
    if let Some(library) = Remote::built() {
        all.push(("library", Box::new(library)));
    }
    all
}

/// Runs the cases of a range in workers and gathers what they report.
pub fn supervise(plan: Plan, range: Range<u64>, workers: usize) -> io::Result<Report> {
    let mut waiting: Vec<Range<u64>> = Vec::new();
    let mut start = range.start;
    while start < range.end {
        let end = range.end.min(start + CHUNK);
        waiting.push(start..end);
        start = end;
    }
    waiting.reverse();
    let mut report = Report::default();
    let mut running: Vec<Worker> = Vec::new();
    while !waiting.is_empty() || !running.is_empty() {
        while running.len() < workers.max(1)
            && let Some(chunk) = waiting.pop()
        {
            running.push(Worker::start(plan, chunk)?);
        }
        std::thread::sleep(Duration::from_millis(5));
        let mut index = 0;
        while index < running.len() {
            match running[index].poll()? {
                State::Running => index += 1,
                State::Done => running.swap_remove(index).gather(&mut report)?,
                State::Lost(at) => {
                    let lost = running.swap_remove(index);
                    report.lose(plan, at);
                    waiting.extend([at + 1..lost.chunk.end, lost.chunk.start..at]);
                    waiting.retain(|chunk| !chunk.is_empty());
                }
            }
        }
    }
    Ok(report)
}

impl Report {
    /// Counts an endless case; the second judge has to say that it is too deep.
    fn lose(&mut self, plan: Plan, at: u64) {
        self.tally.add("endless in the original", "cases");
        let case = generate::case(plan.stream, plan.seed, at);
        let judged = Judged::of(&case, Ask::Never);
        let number = judged.expected.answer.number;
        if number != 23 {
            self.differences.push(format!(
                "seed {} index {at}: endless in the original, answer {number} here\n{case}",
                plan.seed
            ));
        }
    }
}

enum State {
    Running,
    Done,
    Lost(u64),
}

struct Worker {
    chunk: Range<u64>,
    child: Child,
    place: PathBuf,
    output: PathBuf,
    at: (u64, u64),
    since: Instant,
}

/// Where a worker is: the case's index, and a number that changes while it is made small.
struct Place(File);

impl Place {
    fn set(&self, index: u64, beat: u64) -> io::Result<()> {
        let bytes = [index, beat].map(u64::to_le_bytes);
        self.0.write_all_at(bytes.as_flattened(), 0)
    }

    fn get(path: &Path) -> io::Result<(u64, u64)> {
        let file = File::open(path)?;
        let mut words = [[0; 8]; 2];
        file.read_exact_at(words.as_flattened_mut(), 0)?;
        let [index, beat] = words.map(u64::from_le_bytes);
        Ok((index, beat))
    }
}

impl Worker {
    fn start(plan: Plan, chunk: Range<u64>) -> io::Result<Self> {
        let folder = std::env::temp_dir();
        let name = format!("compare-{}-{}", std::process::id(), chunk.start);
        let place = folder.join(format!("{name}.at"));
        let output = folder.join(format!("{name}.out"));
        Place(File::create(&place)?).set(chunk.start, 0)?;
        let child = Command::new(std::env::current_exe()?)
            .arg("--worker")
            .args([plan.stream.name(), &plan.seed.to_string()])
            .args([chunk.start.to_string(), chunk.end.to_string()])
            .arg(&place)
            .stdout(File::create(&output)?)
            .stderr(Stdio::null())
            .spawn()?;
        Ok(Self {
            at: (chunk.start, 0),
            chunk,
            child,
            place,
            output,
            since: Instant::now(),
        })
    }

    fn poll(&mut self) -> io::Result<State> {
        if let Some(status) = self.child.try_wait()? {
            if status.success() {
                return Ok(State::Done);
            }
            let (index, _) = Place::get(&self.place)?;
            self.forget();
            return Ok(State::Lost(index));
        }
        let at = Place::get(&self.place)?;
        if at != self.at {
            (self.at, self.since) = (at, Instant::now());
        } else if self.since.elapsed() > PATIENCE {
            self.child.kill()?;
            self.child.wait()?;
            self.forget();
            return Ok(State::Lost(at.0));
        }
        Ok(State::Running)
    }

    fn gather(self, report: &mut Report) -> io::Result<()> {
        let mut difference = String::new();
        for line in BufReader::new(File::open(&self.output)?).lines() {
            let line = line?;
            match line.strip_prefix("! ") {
                Some(text) => {
                    difference.push_str(text);
                    difference.push('\n');
                }
                None if line == "!" => report.differences.push(std::mem::take(&mut difference)),
                None => report.tally.read(&line).unwrap_or_default(),
            }
        }
        self.forget();
        Ok(())
    }

    fn forget(&self) {
        let _ = std::fs::remove_file(&self.place);
        let _ = std::fs::remove_file(&self.output);
    }
}

/// The worker's side: runs a range in a thread with a large stack and prints its report.
pub fn work(plan: Plan, range: Range<u64>, place: &Path) -> io::Result<()> {
    let place = Place(File::options().write(true).open(place)?);
    with_large_stack(move || {
        let mut out = io::stdout().lock();
        let mut tally = Tally::default();
        let checkers = checkers();
        let mut shrinks = SHRINKS;
        for index in range {
            place.set(index, 0)?;
            let beat = (shrinks > 0).then_some(&place);
            if let Err(difference) = one(plan, index, &checkers, &mut tally, beat) {
                shrinks = shrinks.saturating_sub(1);
                for line in difference.lines() {
                    writeln!(out, "! {line}")?;
                }
                writeln!(out, "!")?;
            }
        }
        for line in tally.lines() {
            writeln!(out, "{line}")?;
        }
        Ok(())
    })
}

/// Runs a task where deep recursion has room, without printing the panic that is answer 25.
pub fn with_large_stack<T: Send + 'static>(task: impl FnOnce() -> T + Send + 'static) -> T {
    static QUIET: Once = Once::new();
    QUIET.call_once(|| {
        let loud = panic::take_hook();
        panic::set_hook(Box::new(move |info| {
            let message = info.payload().downcast_ref::<String>();
            if !message.is_some_and(|message| message.starts_with(INDEX_PANIC)) {
                loud(info);
            }
        }));
    });
    let thread = std::thread::Builder::new().stack_size(STACK).spawn(task);
    match thread.expect("a thread can be started").join() {
        Ok(value) => value,
        Err(panic) => panic::resume_unwind(panic),
    }
}

/// One case through every checker; a difference is made small where there is a place for its beat.
fn one(
    plan: Plan,
    index: u64,
    checkers: &[(&str, Box<dyn Checker>)],
    tally: &mut Tally,
    beat: Option<&Place>,
) -> Result<(), String> {
    if plan.stream == Stream::Grouped {
        return one_grouping(plan, index, checkers, tally, beat);
    }
    let case = generate::case(plan.stream, plan.seed, index);
    let judged = Judged::of(&case, plan.stream.ask());
    let answer = judged.expected.answer.number;
    let number = judged.expected.then.map_or(answer, |then| then.number);
    tally.add(case.request.name(), &number.to_string());
    if plan.stream == Stream::Edges {
        tally.add(&generate::edge(index).to_string(), &number.to_string());
    }
    match judged.heard {
        Heard::Outside(reason) => tally.add("not compared with the original", reason),
        _ => tally.add("compared with the original", case.request.name()),
    }
    for (name, checker) in checkers {
        let Err(difference) = judged.checker(checker.as_ref()) else {
            continue;
        };
        let again = |case: &Case| {
            let judged = Judged::of(case, Ask::Domain);
            let same = judged.expected.answer.number == answer;
            (same, judged.checker(checker.as_ref()))
        };
        return Err(told(plan, index, name, &difference, beat, |beat| {
            let small = shrink(case.clone(), |case| {
                beat();
                matches!(again(case), (true, Err(_)))
            });
            let left = again(&small).1.err().unwrap_or_default();
            format!("{left}\n{small}")
        }));
    }
    Ok(())
}

/// What is said of a difference; made small where there is a place for its beat.
fn told(
    plan: Plan,
    index: u64,
    name: &str,
    difference: &str,
    beat: Option<&Place>,
    smallest: impl FnOnce(&dyn Fn()) -> String,
) -> String {
    let head = format!(
        "seed {} index {index} stream {}: {name}: {difference}",
        plan.seed,
        plan.stream.name()
    );
    let Some(place) = beat else {
        return head;
    };
    let beats = Cell::new(0);
    let small = smallest(&|| {
        beats.set(beats.get() + 1);
        let _ = place.set(index, beats.get());
    });
    format!("{head}\nsmallest: {small}")
}

/// One grouping through every checker; the same of a difference.
fn one_grouping(
    plan: Plan,
    index: u64,
    checkers: &[(&str, Box<dyn Checker>)],
    tally: &mut Tally,
    beat: Option<&Place>,
) -> Result<(), String> {
    let grouping = generate::grouping(plan.seed, index);
    let Some(judge) = grouping.run(&Model) else {
        tally.add("not a grouping", "cases");
        return Ok(());
    };
    judge.count(&grouping, tally);
    for (name, checker) in checkers {
        let checker = checker.as_ref();
        let Err(difference) = grouping.held(checker, Some(&judge)) else {
            continue;
        };
        return Err(told(plan, index, name, &difference, beat, |beat| {
            let small = grouping.smallest(|grouping| {
                beat();
                grouping.held(checker, None).is_err()
            });
            let left = small.held(checker, None).err().unwrap_or_default();
            format!("{left}\n{small}")
        }));
    }
    Ok(())
}
