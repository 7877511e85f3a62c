//! What a comparison saw: how many cases, which answers, whose, and the first that differed.

use std::fmt::{self, Debug, Display};

use crate::caught::PANICKED;

/// A kind of answer, and how many of it have to come of the original itself.
pub type Answer = (&'static str, u64);

pub struct Tally {
    name: &'static str,
    minimum: u64,
    answers: Vec<Count>,
    differed: u64,
    first: Option<Difference>,
}

/// Of one kind of answer; `told` are those of the original itself.
struct Count {
    answer: &'static str,
    seen: u64,
    told: u64,
    least_told: u64,
}

struct Difference {
    input: String,
    ours: String,
    original: String,
}

impl Count {
    fn of((answer, least_told): Answer) -> Self {
        Count {
            answer,
            seen: 0,
            told: 0,
            least_told,
        }
    }

    fn by_the_document_alone(&self) -> (&'static str, u64) {
        (self.answer, self.seen - self.told)
    }
}

impl Tally {
    /// `minimum` cases have to come, and each of `answers` at least once.
    pub fn new(name: &'static str, minimum: u64, answers: &[Answer]) -> Self {
        Tally {
            name,
            minimum,
            answers: answers.iter().copied().map(Count::of).collect(),
            differed: 0,
            first: None,
        }
    }

    /// Counts one case under the original's kind of answer; `input` is asked for only if it differs.
    pub fn compare<A: PartialEq + Debug>(
        &mut self,
        answer: &'static str,
        ours: &A,
        original: &A,
        input: impl FnOnce() -> String,
    ) {
        self.count(answer).told += 1;
        self.compare_by_the_document(answer, ours, original, input);
    }

    /// The same with what was caught of an original that never panics.
    pub fn compare_caught<A: PartialEq + Debug>(
        &mut self,
        answer: &'static str,
        ours: &A,
        original: Option<A>,
        input: impl FnOnce() -> String,
    ) {
        match original {
            Some(original) => self.compare(answer, ours, &original, input),
            None => self.compare_by_the_document(answer, &Ok(ours), &Err(PANICKED), input),
        }
    }

    /// The same, of a case that the original did not decide: what is given in its place is the
    /// document's answer, or what is wrong with the original.
    pub fn compare_by_the_document<A: PartialEq + Debug>(
        &mut self,
        answer: &'static str,
        ours: &A,
        original: &A,
        input: impl FnOnce() -> String,
    ) {
        self.count(answer).seen += 1;
        if ours != original {
            self.differed += 1;
            self.first.get_or_insert_with(|| Difference {
                input: input(),
                ours: format!("{ours:?}"),
                original: format!("{original:?}"),
            });
        }
    }

    fn count(&mut self, answer: &'static str) -> &mut Count {
        let known = self.answers.iter().position(|count| count.answer == answer);
        let place = known.unwrap_or_else(|| {
            self.answers.push(Count::of((answer, 0)));
            self.answers.len() - 1
        });
        &mut self.answers[place]
    }

    pub fn compared(&self) -> u64 {
        self.answers.iter().map(|count| count.seen).sum()
    }

    /// Nothing differed, and enough was seen to say so.
    pub fn holds(&self) -> bool {
        self.differed == 0
            && self.enough()
            && self.unseen().next().is_none()
            && self.too_few_told().next().is_none()
    }

    pub fn enough(&self) -> bool {
        self.compared() >= self.minimum
    }

    fn unseen(&self) -> impl Iterator<Item = &Count> {
        self.answers.iter().filter(|count| count.seen == 0)
    }

    fn too_few_told(&self) -> impl Iterator<Item = &Count> {
        let too_few = |count: &&Count| count.told < count.least_told;
        self.answers.iter().filter(too_few)
    }
}

impl Display for Tally {
    fn fmt(&self, out: &mut fmt::Formatter) -> fmt::Result {
        let name = self.name;
        let seen = self.answers.iter().map(|count| (count.answer, count.seen));
        let compared = self.compared();
        write!(out, "{name}: {compared} compared ({})", listed(seen))?;
        let alone = self.answers.iter().map(Count::by_the_document_alone);
        let alone: Vec<_> = alone.filter(|(_, count)| *count > 0).collect();
        if !alone.is_empty() {
            let sum: u64 = alone.iter().map(|(_, count)| count).sum();
            write!(out, ", model only {sum} ({})", listed(alone))?;
        }
        write!(out, ", {} differed", self.differed)?;
        if !self.enough() {
            write!(out, "\n  too few: at least {} are wanted", self.minimum)?;
        }
        for Count { answer, .. } in self.unseen() {
            write!(out, "\n  no case was answered with: {answer}")?;
        }
        for count in self.too_few_told() {
            let Count {
                answer,
                told,
                least_told,
                ..
            } = count;
            let what = "too few answers of the original itself";
            write!(out, "\n  {what}: of {name}, {answer}, ")?;
            write!(out, "at least {least_told} are wanted, {told} came")?;
        }
        if let Some(first) = &self.first {
            write!(out, "\n  first difference, input: {}", first.input)?;
            write!(out, "\n  ours: {}", first.ours)?;
            write!(out, "\n  original: {}", first.original)?;
        }
        Ok(())
    }
}

fn listed(counts: impl IntoIterator<Item = (&'static str, u64)>) -> String {
    let text = |(answer, count)| format!("{answer} {count}");
    counts.into_iter().map(text).collect::<Vec<_>>().join(", ")
}

pub fn hex(bytes: &[u8]) -> String {
    lower_hex(bytes).to_uppercase()
}

/// Of the front, and how many bytes there are; of gigabytes the rest is mostly zeros.
pub fn hex_of_front(bytes: &[u8]) -> String {
    let front = &bytes[..bytes.len().min(100_000)];
    format!("{}, {} bytes", hex(front), bytes.len())
}

pub fn lower_hex(bytes: &[u8]) -> String {
    bytes.iter().map(|byte| format!("{byte:02x}")).collect()
}

#[cfg(test)]
mod tests {
    use super::{hex, Tally};

    #[test]
    fn counts_and_keeps_the_first_difference() {
        let mut tally = Tally::new("f", 3, &[("even", 1), ("odd", 2)]);
        tally.compare("even", &0, &0, || hex(&[0]));
        assert!(!tally.holds());
        tally.compare("odd", &1, &1, || hex(&[1]));
        tally.compare("odd", &3, &3, || hex(&[3]));
        assert!(tally.holds());
        assert_eq!(
            tally.to_string(),
            "f: 3 compared (even 1, odd 2), 0 differed"
        );
        tally.compare("odd", &4, &5, || hex(&[5, 0xAB]));
        tally.compare("odd", &6, &7, || hex(&[7]));
        assert!(!tally.holds());
        let text = tally.to_string();
        assert!(
            text.ends_with("2 differed\n  first difference, input: 05AB\n  ours: 4\n  original: 5")
        );
    }

    #[test]
    fn an_answer_that_never_came_is_not_enough() {
        let mut tally = Tally::new("f", 1, &[("even", 0), ("odd", 0)]);
        tally.compare("even", &0, &0, String::new);
        assert!(!tally.holds());
        assert!(tally.to_string().ends_with("answered with: odd"));
    }

    #[test]
    fn what_the_document_alone_decides_is_none_of_the_original() {
        let mut tally = Tally::new("f", 1, &[("even", 2)]);
        tally.compare("even", &0, &0, String::new);
        tally.compare_by_the_document("even", &2, &2, String::new);
        assert!(!tally.holds());
        assert_eq!(
            tally.to_string(),
            "f: 2 compared (even 2), model only 1 (even 1), 0 differed\n  \
             too few answers of the original itself: of f, even, at least 2 are wanted, 1 came"
        );
        tally.compare("even", &4, &4, String::new);
        assert!(tally.holds());
    }
}
