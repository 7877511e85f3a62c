//! What is asked of many files: read side by side, and printed in order.

use std::collections::BTreeMap;
use std::io::{self, IsTerminal, Write};
use std::path::Path;
use std::thread;

use indicatif::{ProgressBar, ProgressStyle};
use rayon::prelude::*;
use rayon::{ThreadPool, ThreadPoolBuilder};

use crate::contents::Contents;
use crate::files::Files;
use crate::mapped;
use crate::output::{not_printed, standard_output, tell, Out};
use crate::trouble::{Status, Trouble};

/// So many files for each that is read at a time wait to be printed, at most.
const WAITING: usize = 8;

/// What a command asks of each file, and how it tells the answer.
pub trait Question: Sync {
    type Answer;

    /// What files are counted as, in the order in which it is told.
    const COUNTED: &'static [&'static str];

    fn ask(&self, file: &[u8]) -> Self::Answer;

    fn print(
        &self,
        out: &mut impl Write,
        path: &Path,
        answer: &Result<Self::Answer, Trouble>,
    ) -> io::Result<()>;

    fn ended(&self, path: &Path, answer: &Self::Answer) -> Ended;
}

/// How it ended with a file.
pub struct Ended {
    pub status: Status,
    pub counted: &'static str,
    /// What standard error hears.
    pub said: Option<String>,
}

/// What a file is counted as that can't be read.
pub const NOT_READ: &str = "not read";

fn answer<Q: Question>(question: &Q, path: &Path) -> Result<Q::Answer, Trouble> {
    let contents = Contents::open(path)?;
    let answer = question.ask(contents.bytes());
    contents.unchanged(path)?;
    Ok(answer)
}

impl Ended {
    fn of<Q: Question>(question: &Q, path: &Path, answer: &Result<Q::Answer, Trouble>) -> Self {
        match answer {
            Ok(answer) => question.ended(path, answer),
            Err(trouble) => Ended {
                status: trouble.status(),
                counted: NOT_READ,
                said: trouble.sentence().map(str::to_string),
            },
        }
    }
}

pub fn run(files: &Files, jobs: Option<u16>, question: &impl Question) -> Result<Status, Trouble> {
    let mut run = Run::new(question, files.paths.len());
    for trouble in &files.troubles {
        run.say(trouble.sentence());
        run.status = run.status.max(trouble.status());
    }
    let printed = run.files(files, jobs);
    run.bar.finish_and_clear();
    match printed {
        Err(Trouble::ReaderGone) => return Ok(run.status),
        printed => printed?,
    }
    if !files.alone {
        tell(&run.summary());
    }
    Ok(run.status)
}

struct Run<'a, Q> {
    question: &'a Q,
    out: Out,
    bar: ProgressBar,
    counts: BTreeMap<&'static str, usize>,
    status: Status,
}

impl<'a, Q: Question> Run<'a, Q> {
    fn new(question: &'a Q, files: usize) -> Self {
        Run {
            question,
            out: standard_output(),
            bar: progress(files),
            counts: BTreeMap::new(),
            status: Status::Accepted,
        }
    }

    /// Side by side, and printed in order.
    fn files(&mut self, files: &Files, jobs: Option<u16>) -> Result<(), Trouble> {
        if let [path] = files.paths.as_slice() {
            return self.single(path);
        }
        let pool = pool(jobs, files.paths.len())?;
        let question = self.question;
        for paths in files.paths.chunks(WAITING * pool.current_num_threads()) {
            let blocks: Vec<_> =
                pool.install(|| paths.par_iter().map(|path| block(question, path)).collect());
            for Block { text, end } in blocks {
                self.out.write_all(&text).map_err(not_printed)?;
                self.ended(end)?;
            }
        }
        Ok(())
    }

    /// Printed line by line: of one file, however long its answer, no text is kept.
    fn single(&mut self, path: &Path) -> Result<(), Trouble> {
        let answer = answer(self.question, path);
        let printed = self.question.print(&mut self.out, path, &answer);
        printed.map_err(not_printed)?;
        self.ended(Ended::of(self.question, path, &answer))
    }

    fn ended(&mut self, end: Ended) -> Result<(), Trouble> {
        self.out.flush().map_err(not_printed)?;
        self.say(end.said.as_deref());
        *self.counts.entry(end.counted).or_default() += 1;
        self.status = self.status.max(end.status);
        self.bar.inc(1);
        Ok(())
    }

    fn say(&self, sentence: Option<&str>) {
        if let Some(sentence) = sentence {
            self.bar.suspend(|| tell(sentence));
        }
    }

    fn summary(&self) -> String {
        let count = |kind| format!("{} {kind}", self.counts.get(kind).unwrap_or(&0));
        let counts: Vec<_> = Q::COUNTED.iter().map(count).collect();
        let files: usize = self.counts.values().sum();
        format!("winterhasp: {files} files: {}", counts.join(", "))
    }
}

/// What is printed of a file, and how it ended.
struct Block {
    text: Vec<u8>,
    end: Ended,
}

fn block(question: &impl Question, path: &Path) -> Block {
    let answer = answer(question, path);
    let mut text = Vec::new();
    // A vector takes all that is written to it.
    let _ = question.print(&mut text, path, &answer);
    Block {
        text,
        end: Ended::of(question, path, &answer),
    }
}

/// Shown only where it is alone on the terminal: what is printed there is progress enough.
fn progress(files: usize) -> ProgressBar {
    if files < 2 || io::stdout().is_terminal() || !io::stderr().is_terminal() {
        return ProgressBar::hidden();
    }
    let bar = ProgressBar::new(files as u64);
    let style = ProgressStyle::with_template("{bar:40} {pos} of {len} files, {eta} left");
    match style {
        Ok(style) => bar.with_style(style),
        Err(_) => bar,
    }
}

fn pool(jobs: Option<u16>, files: usize) -> Result<ThreadPool, Trouble> {
    let processors = || thread::available_parallelism().map_or(1, usize::from);
    let jobs = jobs.map_or_else(processors, usize::from);
    let threads = jobs.min(files).clamp(1, mapped::MOST);
    let pool = ThreadPoolBuilder::new().num_threads(threads).build();
    pool.map_err(|error| Trouble::Failed(format!("winterhasp: {threads} threads: {error}")))
}
