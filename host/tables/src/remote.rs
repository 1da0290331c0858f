//! The proved library in a process of its own.
//!
//! Its archive is for x86-64, so `serve/serve.c` stands between; where this
//! runs on another processor that program runs under an emulator.

use crate::layout::{GROWING, WORD_TABLES};
use crate::{Answer, Call, Checker, Paths, RawTables, Visit};
use std::cell::RefCell;
use std::io::{self, BufReader, BufWriter, Read, Write};
use std::path::{Path, PathBuf};
use std::process::{Child, ChildStdin, ChildStdout, Command, Stdio};
use std::sync::mpsc::{RecvTimeoutError, channel};
use std::sync::{Arc, Mutex, PoisonError};
use std::thread;
use std::time::Duration;

/// The number of an answer where the library's process ended instead of answering.
pub const NO_ANSWER: u32 = u32::MAX;

/// The proved library behind a pipe.
pub struct Remote {
    program: PathBuf,
    calls: u32,
    limit: Option<Duration>,
    running: RefCell<Option<Running>>,
}

impl Remote {
    /// The program that `host/build` made, where there is one.
    pub fn built() -> Option<Self> {
        let here = std::env::current_exe().ok()?;
        let mut folders = here.ancestors();
        let program = folders.find_map(|folder| {
            let program = folder.join("serve/run");
            program.is_file().then_some(program)
        })?;
        Self::start(&program).ok()
    }

    /// Starts a program that answers as `serve.c` does.
    pub fn start(program: &Path) -> io::Result<Self> {
        let (calls, running) = Running::start(program)?;
        Ok(Self {
            program: program.to_path_buf(),
            calls,
            limit: None,
            running: RefCell::new(Some(running)),
        })
    }

    /// Ends the program where a call takes longer than this; the call then has no answer.
    pub fn limited(mut self, limit: Duration) -> Self {
        self.limit = Some(limit);
        self
    }

    /// Sends a request and takes what comes back; starts the program again where it has ended.
    fn ask(&self, request: &[u8], writable: &mut [&mut [u32]]) -> Answer {
        let mut slot = self.running.borrow_mut();
        let mut running = match slot.take() {
            Some(running) => running,
            None => match Running::start(&self.program) {
                Ok((_, running)) => running,
                Err(_) => return Answer::of(NO_ANSWER),
            },
        };
        let result = match self.limit {
            Some(limit) => running.ask_within(limit, request, writable),
            None => running.ask(request, writable),
        };
        match result {
            Ok(answer) => {
                *slot = Some(running);
                answer
            }
            Err(_) => Answer::of(NO_ANSWER),
        }
    }
}

struct Running {
    child: Arc<Mutex<Child>>,
    to: BufWriter<ChildStdin>,
    from: BufReader<ChildStdout>,
}

impl Running {
    /// The running program and the calls that it has.
    fn start(program: &Path) -> io::Result<(u32, Self)> {
        let mut child = Command::new(program)
            .stdin(Stdio::piped())
            .stdout(Stdio::piped())
            .stderr(Stdio::null())
            .spawn()?;
        let to = child.stdin.take().expect("a pipe");
        let from = child.stdout.take().expect("a pipe");
        let mut running = Self {
            child: Arc::new(Mutex::new(child)),
            to: BufWriter::new(to),
            from: BufReader::new(from),
        };
        let mut calls = [0];
        running.read(&mut calls)?;
        Ok((calls[0], running))
    }

    fn ask(&mut self, request: &[u8], writable: &mut [&mut [u32]]) -> io::Result<Answer> {
        self.to.write_all(request)?;
        self.to.flush()?;
        let mut words = [0; Answer::WORDS];
        self.read(&mut words)?;
        for part in writable {
            self.read(part)?;
        }
        Ok(Answer::from_words(&words))
    }

    /// Asks while a second thread waits to end the program.
    fn ask_within(
        &mut self,
        limit: Duration,
        request: &[u8],
        writable: &mut [&mut [u32]],
    ) -> io::Result<Answer> {
        let (answered, waits) = channel::<()>();
        let child = Arc::clone(&self.child);
        let watch = thread::spawn(move || {
            if waits.recv_timeout(limit) == Err(RecvTimeoutError::Timeout) {
                let mut child = child.lock().unwrap_or_else(PoisonError::into_inner);
                let _ = child.kill();
            }
        });
        let result = self.ask(request, writable);
        drop(answered);
        let _ = watch.join();
        result
    }

    fn read(&mut self, words: &mut [u32]) -> io::Result<()> {
        let mut bytes = vec![0; 4 * words.len()];
        self.from.read_exact(&mut bytes)?;
        for (word, bytes) in words.iter_mut().zip(bytes.chunks_exact(4)) {
            *word = u32::from_le_bytes(bytes.try_into().expect("four bytes"));
        }
        Ok(())
    }
}

impl Drop for Running {
    fn drop(&mut self) {
        let mut child = self.child.lock().unwrap_or_else(PoisonError::into_inner);
        let _ = child.kill();
        let _ = child.wait();
    }
}

/// Words as bytes, low end first.
pub fn bytes(words: &[u32]) -> Vec<u8> {
    words.iter().flat_map(|word| word.to_le_bytes()).collect()
}

/// A request: the call's number, nine lengths, nine slices, arguments.
fn request(call: u32, tables: &RawTables, arguments: &[&[u32]]) -> Vec<u8> {
    let mut head = vec![call, tables.pool.len() as u32];
    head.extend(WORD_TABLES.map(|table| tables.words(table).len() as u32));
    head.push(tables.numbers.len() as u32);
    let mut out = bytes(&head);
    out.extend(&tables.pool);
    for table in WORD_TABLES {
        out.extend(bytes(tables.words(table)));
    }
    out.extend(tables.numbers.iter().flat_map(|bits| bits.to_le_bytes()));
    for part in arguments {
        out.extend(bytes(part));
    }
    out
}

/// A request to validate.
pub fn validation(tables: &RawTables, visit: Visit, paths: &Paths) -> Vec<u8> {
    let Visit { mode, node, schema } = visit;
    let sizes = [paths.instance.len() as u32, paths.steps.len() as u32];
    let head = [mode.number(), node, schema, sizes[0], sizes[1]];
    request(1, tables, &[&head, &paths.instance, &paths.steps])
}

impl Checker for Remote {
    fn navigate(&self, tables: &RawTables, node: u32, path: &[u32], key_wanted: bool) -> Answer {
        let head = [node, key_wanted.into(), path.len() as u32];
        self.ask(&request(0, tables, &[&head, path]), &mut [])
    }

    fn validate(&self, tables: &RawTables, visit: Visit, paths: &mut Paths) -> Answer {
        let request = validation(tables, visit, paths);
        self.ask(&request, &mut [&mut paths.instance, &mut paths.steps])
    }

    fn compile(&self, tables: &mut RawTables, used: [u32; 3], schema: u32) -> Answer {
        let request = request(2, tables, &[&used, &[schema]]);
        let [notes, schemas, links] = GROWING.map(|table| std::mem::take(tables.words_mut(table)));
        let mut room = [notes, schemas, links];
        let [notes, schemas, links] = &mut room;
        let answer = self.ask(&request, &mut [notes, schemas, links]);
        for (table, words) in GROWING.into_iter().zip(room) {
            *tables.words_mut(table) = words;
        }
        answer
    }

    fn has(&self, call: Call) -> bool {
        let bit = match call {
            Call::Navigate => 1,
            Call::Validate => 2,
            Call::Compile => 4,
        };
        self.calls & bit != 0
    }
}
