//! A program's arguments: each is asked for once, and what nobody asked for is misuse.

use std::env;
use std::ffi::OsString;

use crate::program::Stop;

pub struct Options {
    usage: &'static str,
    left: Vec<OsString>,
}

impl Options {
    /// Of the program that runs; `usage` is how it is to be called.
    pub fn of_the_program(usage: &'static str) -> Self {
        Options::new(usage, env::args_os().skip(1))
    }

    fn new(usage: &'static str, arguments: impl IntoIterator<Item = OsString>) -> Self {
        let left = arguments.into_iter().collect();
        Options { usage, left }
    }

    /// The word behind `name`, if the name is there.
    pub fn word(&mut self, name: &str) -> Result<Option<String>, Stop> {
        let Some(at) = self.left.iter().position(|argument| argument == name) else {
            return Ok(None);
        };
        let end = self.left.len().min(at + 2);
        let word = self.left.drain(at..end).nth(1);
        let word = word.and_then(|word| word.into_string().ok());
        word.map(Some).ok_or_else(|| self.misuse())
    }

    /// The same of a number.
    pub fn number(&mut self, name: &str) -> Result<Option<u64>, Stop> {
        let word = self.word(name)?;
        let parse = |word: String| word.parse().map_err(|_| self.misuse());
        word.map(parse).transpose()
    }

    /// The first argument that is left, which has no name.
    pub fn unnamed(&mut self) -> Option<OsString> {
        (!self.left.is_empty()).then(|| self.left.remove(0))
    }

    /// All have been asked for.
    pub fn end(self) -> Result<(), Stop> {
        match self.left.is_empty() {
            true => Ok(()),
            false => Err(self.misuse()),
        }
    }

    pub fn misuse(&self) -> Stop {
        Stop::misuse(format!("usage: {}", self.usage))
    }
}

#[cfg(test)]
mod tests {
    use super::Options;
    use crate::program::Stop;

    fn options(line: &str) -> Options {
        let words = line.split_whitespace().map(Into::into);
        Options::new("f [--seed S] [--only NAME] [ROOT]", words)
    }

    type Read = (Option<u64>, Option<String>, Option<String>);

    fn read(line: &str) -> Result<Read, Stop> {
        let mut options = options(line);
        let seed = options.number("--seed")?;
        let only = options.word("--only")?;
        let root = options.unnamed().and_then(|root| root.into_string().ok());
        options.end()?;
        Ok((seed, only, root))
    }

    #[test]
    fn each_is_found_wherever_it_stands() {
        assert_eq!(read(""), Ok((None, None, None)));
        let [only, root] = ["siz", ".."].map(|word| Some(word.to_string()));
        let all = (Some(5), only, root);
        assert_eq!(read("--seed 5 --only siz .."), Ok(all.clone()));
        assert_eq!(read(".. --only siz --seed 5"), Ok(all));
    }

    #[test]
    fn all_else_is_misuse() {
        let misuse = options("").misuse();
        assert_eq!(
            misuse,
            Stop::misuse("usage: f [--seed S] [--only NAME] [ROOT]")
        );
        for line in [
            "--seed",
            "--seed five",
            "--seed -1",
            "--seed 5 --seed 6",
            "--only",
            "one two",
            "--other 5",
        ] {
            assert_eq!(read(line).as_ref(), Err(&misuse), "{line}");
        }
    }
}
