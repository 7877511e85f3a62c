//! Every short string over a small alphabet.

/// Calls `each` with each front followed by each string of as many letters as stand beside it, or
/// fewer.
pub fn each_behind(fronts: &[(&[u8], usize)], letters: &[u8], mut each: impl FnMut(&[u8])) {
    for &(front, longest) in fronts {
        for length in 0..=longest {
            each_string(front, letters, length, &mut each);
        }
    }
}

/// Calls `each` with `front` followed by each string of `length` letters.
fn each_string(front: &[u8], letters: &[u8], length: usize, mut each: impl FnMut(&[u8])) {
    let mut places = vec![0; length];
    let mut bytes = front.to_vec();
    bytes.resize(front.len() + length, letters[0]);
    loop {
        each(&bytes);
        // Counts up, last letter first, as an odometer does.
        let Some(turned) = places.iter().rposition(|&place| place + 1 < letters.len()) else {
            return;
        };
        places[turned] += 1;
        places[turned + 1..].fill(0);
        for at in turned..length {
            bytes[front.len() + at] = letters[places[at]];
        }
    }
}

#[cfg(test)]
mod tests {
    use super::{each_behind, each_string};

    #[test]
    fn gives_each_string_once() {
        let mut seen = Vec::new();
        each_string(&[9], &[0, 1], 2, |bytes| seen.push(bytes.to_vec()));
        assert_eq!(seen, [[9, 0, 0], [9, 0, 1], [9, 1, 0], [9, 1, 1]]);
    }

    #[test]
    fn shorter_ones_come_first_and_the_front_alone_before_them() {
        let mut seen: Vec<Vec<u8>> = Vec::new();
        each_behind(&[(&[9], 1), (&[8], 0)], &[0, 1], |bytes| {
            seen.push(bytes.to_vec());
        });
        assert_eq!(seen, [&[9][..], &[9, 0], &[9, 1], &[8]]);
    }
}
