//! The replay list: inputs of every kind in one run of bytes, and the original's answers as text, or the
//! model's of what the original doesn't have.

use std::collections::BTreeSet;

use crate::caught::caught;
use crate::model::{Entry, Record, Refusal};
use crate::random::Random;
use crate::tally::lower_hex;

/// One kind of case.
pub struct Kind {
    pub number: u8,
    pub name: &'static str,
    pub minimum: usize,
    pub payloads: fn(&mut Random) -> Vec<Vec<u8>>,
    /// The original's answer, one line without its end. It may panic, and gives nothing where
    /// docs/RULES.md leaves the answer to us. The model's, of what the original doesn't have.
    pub answer: fn(&[u8]) -> Option<String>,
}

/// In bytes: as much as the program that answers the list can hold.
const LONGEST_PAYLOAD: usize = 65_536;

/// `cases`: kind 1 byte, payload's length 4 bytes big-endian, payload, and so on to the end.
#[derive(Default)]
pub struct List {
    pub cases: Vec<u8>,
    pub answers: String,
}

impl List {
    /// Adds a kind's cases, each payload once, without those on which the original says nothing;
    /// gives their number.
    pub fn add(&mut self, kind: &Kind, seed: u64) -> Result<usize, String> {
        let Kind { name, minimum, .. } = kind;
        let mut seen = BTreeSet::new();
        let mut count = 0;
        for payload in (kind.payloads)(&mut Random::new(seed)) {
            if payload.len() > LONGEST_PAYLOAD {
                return Err(format!("{name}: a payload of {} bytes", payload.len()));
            }
            if !seen.insert(payload.clone()) {
                continue;
            }
            if let Some(answer) = caught(|| (kind.answer)(&payload)).flatten() {
                self.push(kind.number, &payload, &answer);
                count += 1;
            }
        }
        if count < *minimum {
            return Err(format!(
                "{name}: {count} cases, at least {minimum} are wanted"
            ));
        }
        Ok(count)
    }

    fn push(&mut self, number: u8, payload: &[u8], answer: &str) {
        self.cases.push(number);
        self.cases.extend((payload.len() as u32).to_be_bytes());
        self.cases.extend(payload);
        self.answers.push_str(answer);
        self.answers.push('\n');
    }
}

/// ` INDEX OFFSET LENGTH` for each entry.
pub fn listed(entries: &[Entry]) -> String {
    let text = |(index, offset, length): &Entry| format!(" {index} {offset} {length}");
    entries.iter().map(text).collect()
}

/// ` INDEX OFFSET LENGTH TPSOT TNSOT` for each record that was read of a SOT.
pub fn numbered(records: &[Record]) -> String {
    let text = |((index, offset, length), numbers): &Record| {
        let [tpsot, tnsot] = numbers.expect("a SOT has them");
        format!(" {index} {offset} {length} {tpsot} {tnsot}")
    };
    records.iter().map(text).collect()
}

/// ` refused NUMBER PLACE`, of what the model answers.
pub fn refused(Refusal { number, place }: Refusal) -> String {
    format!(" refused {number} {place}")
}

/// The bytes that the model writes, or why it refuses.
pub fn written(answer: Result<Vec<u8>, Refusal>) -> String {
    answer.map_or_else(refused, |bytes| format!(" {}", lower_hex(&bytes)))
}

#[cfg(test)]
mod tests {
    use super::{Kind, List};

    const LENGTHS: Kind = Kind {
        number: 9,
        name: "lengths",
        minimum: 2,
        payloads: |_| vec![vec![7], vec![], vec![7]],
        answer: |payload| Some(format!("length {}", payload.len())),
    };

    #[test]
    fn frames_each_payload_once() {
        let mut list = List::default();
        assert_eq!(list.add(&LENGTHS, 0), Ok(2));
        assert_eq!(list.cases, [9, 0, 0, 0, 1, 7, 9, 0, 0, 0, 0]);
        assert_eq!(list.answers, "length 1\nlength 0\n");
    }

    #[test]
    fn leaves_out_what_has_no_answer() {
        let one_of_two = Kind {
            minimum: 1,
            answer: |payload| payload.first().map(u8::to_string),
            ..LENGTHS
        };
        let mut list = List::default();
        assert_eq!(list.add(&one_of_two, 0), Ok(1));
        assert_eq!(list.answers, "7\n");
        let panics = Kind {
            answer: |_| panic!("expected"),
            ..LENGTHS
        };
        assert!(List::default().add(&panics, 0).is_err());
    }

    #[test]
    fn too_few_cases_are_an_error() {
        let few = Kind {
            minimum: 3,
            ..LENGTHS
        };
        assert!(List::default().add(&few, 0).is_err());
    }
}
