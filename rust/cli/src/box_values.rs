//! What the boxes of colour and of resolution say: few values, as they stand there.

use serde::Serialize;
use winterhasp::BoxType;

const COLOUR: BoxType = BoxType(*b"colr");
const RESOLUTIONS: [BoxType; 2] = [BoxType(*b"resc"), BoxType(*b"resd")];

/// The fields of `colr` before the colour space: method, precedence and approximation.
const METHOD: usize = 3;
const ENUMERATED: u8 = 1;
const RESTRICTED_ICC: u8 = 2;

/// As JSON has it, under the name of the value.
#[derive(Serialize)]
#[serde(rename_all = "lowercase")]
pub enum Value {
    Colour(Colour),
    Resolution(Resolution),
}

#[derive(Serialize)]
pub struct Colour {
    method: u8,
    method_name: Option<&'static str>,
    /// Of the enumerated method, where the content reaches so far.
    colour_space: Option<u32>,
    colour_space_name: Option<&'static str>,
}

/// In samples per metre.
#[derive(Serialize)]
pub struct Resolution {
    vertical: Fraction,
    horizontal: Fraction,
}

/// Numerator over denominator, times ten to the exponent.
#[derive(Serialize)]
struct Fraction {
    numerator: u16,
    denominator: u16,
    exponent: i8,
}

impl Value {
    /// None: a box of another type, or one whose content is too short or too long to say it.
    pub fn of(kind: BoxType, content: &[u8]) -> Option<Self> {
        match kind {
            COLOUR => Colour::of(content).map(Value::Colour),
            _ if RESOLUTIONS.contains(&kind) => Resolution::of(content).map(Value::Resolution),
            _ => None,
        }
    }

    pub fn text(&self) -> String {
        match self {
            Value::Colour(colour) => colour.text(),
            Value::Resolution(resolution) => resolution.text(),
        }
    }
}

impl Colour {
    fn of(content: &[u8]) -> Option<Self> {
        let (&[method, _, _], behind) = content.split_first_chunk::<METHOD>()?;
        let space = behind.first_chunk().map(|bytes| u32::from_be_bytes(*bytes));
        let space = space.filter(|_| method == ENUMERATED);
        Some(Colour {
            method,
            method_name: method_name(method),
            colour_space: space,
            colour_space_name: space.and_then(space_name),
        })
    }

    fn text(&self) -> String {
        let method = match self.method_name {
            Some(name) => name.to_string(),
            None => format!("method {}", self.method),
        };
        match (self.colour_space, self.colour_space_name) {
            (Some(space), Some(name)) => format!("{method}, {name} ({space})"),
            (Some(space), None) => format!("{method}, colour space {space}"),
            (None, _) => method,
        }
    }
}

fn method_name(method: u8) -> Option<&'static str> {
    match method {
        ENUMERATED => Some("enumerated"),
        RESTRICTED_ICC => Some("restricted ICC profile"),
        _ => None,
    }
}

fn space_name(space: u32) -> Option<&'static str> {
    match space {
        16 => Some("sRGB"),
        17 => Some("greyscale"),
        18 => Some("sYCC"),
        _ => None,
    }
}

impl Resolution {
    /// Numerators and denominators, the vertical ones first, and behind them both exponents.
    fn of(content: &[u8]) -> Option<Self> {
        let &[a, b, c, d, e, f, g, h, vertical, horizontal] = content else {
            return None;
        };
        Some(Resolution {
            vertical: Fraction::of([a, b], [c, d], vertical),
            horizontal: Fraction::of([e, f], [g, h], horizontal),
        })
    }

    fn text(&self) -> String {
        let [vertical, horizontal] = [&self.vertical, &self.horizontal].map(Fraction::text);
        format!("vertical {vertical}, horizontal {horizontal} samples per metre")
    }
}

impl Fraction {
    fn of(numerator: [u8; 2], denominator: [u8; 2], exponent: u8) -> Self {
        Fraction {
            numerator: u16::from_be_bytes(numerator),
            denominator: u16::from_be_bytes(denominator),
            exponent: exponent as i8,
        }
    }

    fn text(&self) -> String {
        let Fraction {
            numerator,
            denominator,
            exponent,
        } = self;
        format!("{numerator}/{denominator} x 10^{exponent}")
    }
}

#[cfg(test)]
mod tests {
    use super::{BoxType, Value};

    fn text(kind: &[u8; 4], content: &[u8]) -> Option<String> {
        Value::of(BoxType(*kind), content).map(|value| value.text())
    }

    #[test]
    fn a_colour_is_told_as_far_as_the_content_reaches() {
        let told = |content: &[u8]| text(b"colr", content).unwrap_or_default();
        assert_eq!(told(&[1, 0, 0, 0, 0, 0, 16]), "enumerated, sRGB (16)");
        assert_eq!(told(&[1, 0, 0, 0, 0, 0, 17]), "enumerated, greyscale (17)");
        assert_eq!(told(&[1, 2, 3, 0, 0, 0, 18]), "enumerated, sYCC (18)");
        let other = "enumerated, colour space 269";
        assert_eq!(told(&[1, 0, 0, 0, 0, 1, 13, 9]), other);
        assert_eq!(told(&[1, 0, 0, 0, 0, 16]), "enumerated");
        assert_eq!(told(&[1, 0, 0]), "enumerated");
        assert_eq!(told(&[2, 0, 0, 0, 0, 0, 16]), "restricted ICC profile");
        assert_eq!(told(&[3, 0, 0, 0, 0, 0, 16]), "method 3");
        assert_eq!(text(b"colr", &[1, 0]), None);
        assert_eq!(text(b"free", &[1, 0, 0, 0, 0, 0, 16]), None);
    }

    #[test]
    fn a_resolution_is_told_of_ten_bytes() {
        let content = [0x75, 0x30, 0, 254, 1, 2, 3, 4, 2, 0xFF];
        let told = "vertical 30000/254 x 10^2, horizontal 258/772 x 10^-1 samples per metre";
        for kind in [b"resc", b"resd"] {
            assert_eq!(text(kind, &content).as_deref(), Some(told));
            assert_eq!(text(kind, &content[..9]), None);
            assert_eq!(text(kind, &[0; 11]), None);
        }
        let zeros = "vertical 0/0 x 10^0, horizontal 0/0 x 10^0 samples per metre";
        assert_eq!(text(b"resc", &[0; 10]).as_deref(), Some(zeros));
        assert_eq!(text(b"res ", &content), None);
    }
}
