//! Holds our answer to the original's, and both to the model's, which is that of docs/RULES.md.

use std::fmt::Debug;

use crate::caught::{caught, PANICKED};
use crate::compare::Run;
use crate::lent::Lent;
use crate::model::{Refusal, ACCEPTED};
use crate::tally::Tally;

/// What the original said.
#[derive(Debug, Clone, Copy)]
pub enum Told<A> {
    Accepted(A),
    Refused,
    /// It panicked where docs/DIFFERENCES.md says so, or it wasn't asked.
    Nothing,
    /// It did not do what docs/DIFFERENCES.md says of panics, but this.
    Amiss(&'static str),
}

pub const DID_NOT_PANIC: &str = "did not panic where a panic is documented";

impl<A> Told<A> {
    /// `call` gives nothing where the original refuses; it never panics.
    pub fn by(call: impl FnOnce() -> Option<A>) -> Self {
        Self::by_or_panic(false, call)
    }

    /// The same, of a call that has to panic if docs/DIFFERENCES.md says so of this input.
    pub fn by_or_panic(panics: bool, call: impl FnOnce() -> Option<A>) -> Self {
        match caught(call) {
            None if panics => Told::Nothing,
            None => Told::Amiss(PANICKED),
            Some(_) if panics => Told::Amiss(DID_NOT_PANIC),
            Some(Some(answer)) => Told::Accepted(answer),
            Some(None) => Told::Refused,
        }
    }

    /// The same, or that it wasn't asked.
    pub fn only_if(self, asked: bool) -> Self {
        match asked {
            true => self,
            false => Told::Nothing,
        }
    }

    /// What `more` makes of an answer; all else stays.
    pub fn and_then<B>(self, more: impl FnOnce(A) -> Told<B>) -> Told<B> {
        match self {
            Told::Accepted(answer) => more(answer),
            Told::Refused => Told::Refused,
            Told::Nothing => Told::Nothing,
            Told::Amiss(what) => Told::Amiss(what),
        }
    }
}

/// An answer, and how it leaves what was lent.
pub trait Leaves<const V: usize, const M: usize>: PartialEq + Debug {
    fn leave(&self, before: Lent<V, M>) -> Lent<V, M>;
}

/// Numbers alone.
impl<const V: usize> Leaves<V, 0> for [u64; V] {
    fn leave(&self, before: Lent<V, 0>) -> Lent<V, 0> {
        before.accepted(*self, [])
    }
}

/// Bytes written, and their number.
impl Leaves<1, 1> for Vec<u8> {
    fn leave(&self, before: Lent<1, 1>) -> Lent<1, 1> {
        before.accepted([self.len() as u64], [self])
    }
}

/// One case: what was lent before and after our function, and what the others say.
#[derive(Clone)]
pub struct Case<A, const V: usize, const M: usize> {
    pub before: Lent<V, M>,
    pub ours: Lent<V, M>,
    pub told: Told<A>,
    /// By docs/RULES.md, as the model has them.
    pub document: Result<A, Refusal>,
}

impl<A: Leaves<V, M>, const V: usize, const M: usize> Case<A, V, M> {
    /// The case, and the same with what the other function of ours left, with what the document accepts
    /// counted under this label. Both are held to the same, and so to each other.
    pub fn judge_both<O>(
        self,
        accepted: &'static str,
        other: Lent<V, M>,
        run: &mut Run<O>,
        input: impl Fn() -> String,
    ) where
        A: Clone,
    {
        let second = Case {
            ours: other,
            ..self.clone()
        };
        self.judge_under(accepted, &mut run.tally, &input);
        second.judge_under(accepted, &mut run.also[0], input);
    }

    /// Counted under the document's answer; where the original rightly says nothing the document alone
    /// decides, and elsewhere it too is held to the original.
    pub fn judge(self, tally: &mut Tally, input: impl FnOnce() -> String) {
        self.judge_under(ACCEPTED, tally, input);
    }

    /// The same, with what the document accepts counted under this label.
    pub fn judge_under(
        self,
        accepted: &'static str,
        tally: &mut Tally,
        input: impl FnOnce() -> String,
    ) {
        let (label, ours_alone) = match &self.document {
            Ok(_) => (accepted, false),
            Err(refusal) => (refusal.label(), refusal.is_ours_alone()),
        };
        let told = match self.told {
            Told::Accepted(_) | Told::Refused if ours_alone => Told::Nothing,
            told => told,
        };
        match (told, self.document) {
            (Told::Nothing, document) => {
                let expected = match document {
                    Ok(answer) => answer.leave(self.before),
                    Err(refusal) => self.before.refused(refusal),
                };
                tally.compare_by_the_document(label, &self.ours, &expected, input);
            }
            (Told::Amiss(what), _) => {
                tally.compare_by_the_document(label, &Ok(self.ours), &Err(what), input);
            }
            (Told::Accepted(answer), document) => {
                let expected = answer.leave(self.before);
                let ours = (self.ours, document);
                tally.compare(label, &ours, &(expected, Ok(answer)), input);
            }
            (Told::Refused, Err(refusal)) => {
                let expected = self.before.refused(refusal);
                tally.compare(label, &self.ours, &expected, input);
            }
            (Told::Refused, document) => {
                tally.compare(label, &Some(document), &None, input);
            }
        }
    }
}

#[cfg(test)]
mod tests {
    use super::{Case, Leaves, Told, DID_NOT_PANIC};
    use crate::caught::PANICKED;
    use crate::lent::Lent;
    use crate::model::Refusal;
    use crate::tally::Tally;

    impl Leaves<1, 0> for u64 {
        fn leave(&self, before: Lent<1, 0>) -> Lent<1, 0> {
            before.accepted([*self], [])
        }
    }

    fn lent(status: u32, value: u64) -> Lent<1, 0> {
        Lent {
            status,
            values: [value],
            memory: [],
        }
    }

    fn holds(ours: Lent<1, 0>, told: Told<u64>, document: Result<u64, Refusal>) -> bool {
        let mut tally = Tally::new("f", 1, &[]);
        let case = Case {
            before: lent(9, 9),
            ours,
            told,
            document,
        };
        case.judge(&mut tally, String::new);
        tally.holds()
    }

    #[test]
    fn all_three_must_agree() {
        let refusal = Refusal::new(6, 3);
        assert!(holds(lent(0, 5), Told::Accepted(5), Ok(5)));
        assert!(!holds(lent(0, 4), Told::Accepted(5), Ok(5)));
        assert!(!holds(lent(0, 5), Told::Accepted(5), Ok(4)));
        assert!(!holds(lent(0, 5), Told::Accepted(5), Err(refusal)));
        assert!(!holds(lent(0, 5), Told::Refused, Ok(5)));
        assert!(holds(lent(6, 3), Told::Refused, Err(refusal)));
        assert!(!holds(lent(6, 2), Told::Refused, Err(refusal)));
        assert!(!holds(lent(7, 3), Told::Refused, Err(refusal)));
    }

    #[test]
    fn where_the_original_says_nothing_the_document_decides() {
        assert!(holds(lent(0, 5), Told::Nothing, Ok(5)));
        assert!(!holds(lent(0, 4), Told::Nothing, Ok(5)));
        assert!(holds(lent(0, 5), Told::Accepted(4).only_if(false), Ok(5)));
        assert!(!holds(lent(0, 5), Told::Accepted(4).only_if(true), Ok(5)));
        let too_small = Refusal::new(17, 3);
        assert!(holds(lent(17, 3), Told::Accepted(5), Err(too_small)));
        assert!(!holds(lent(0, 5), Told::Accepted(5), Err(too_small)));
    }

    #[test]
    fn a_panic_is_right_only_where_it_is_documented() {
        let panicking = || panic!("as it may be");
        let refusal = Refusal::new(10, 2);
        let judged = |told| holds(lent(10, 2), told, Err(refusal));
        assert!(judged(Told::by_or_panic(true, panicking)));
        assert!(!judged(Told::by_or_panic(false, panicking)));
        assert!(!judged(Told::by(panicking)));
        assert!(!judged(Told::by_or_panic(true, || Some(5))));
        assert!(!judged(Told::by_or_panic(true, || None)));
        let too_small = Err(Refusal::new(17, 3));
        for amiss in [PANICKED, DID_NOT_PANIC] {
            assert!(!holds(lent(17, 3), Told::Amiss(amiss), too_small));
        }
    }
}
