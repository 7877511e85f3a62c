//! The image's size and its samples.

use crate::boundary;
use crate::lent::accepted;
use crate::refusal::Refusal;

/// What the SIZ segment says of the image, and of its first component's samples.
#[derive(Debug, Clone, Copy, PartialEq, Eq)]
pub struct Siz {
    /// In columns of the reference grid.
    pub width: u32,
    /// In rows of the reference grid.
    pub height: u32,
    /// How many components.
    pub components: u16,
    /// Bits of a sample, from 1 to 128.
    pub bits: u8,
    /// Whether samples have a sign.
    pub signed: bool,
}

impl Siz {
    /// How a sample of the first component is held.
    ///
    /// ```
    /// use winterhasp::{parse_siz_marker, SampleType};
    ///
    /// let codestream = std::fs::read("sample-a.j2k")?;
    /// assert_eq!(parse_siz_marker(&codestream)?.sample_type(), SampleType::UInt8);
    /// # Ok::<(), Box<dyn std::error::Error>>(())
    /// ```
    pub fn sample_type(&self) -> SampleType {
        pixel_type_from_siz(self.bits, self.signed)
    }
}

/// A number that holds a sample.
#[derive(Debug, Clone, Copy, PartialEq, Eq, Hash)]
#[allow(missing_docs)]
pub enum SampleType {
    UInt8,
    Int8,
    UInt16,
    Int16,
    UInt32,
    Int32,
}

/// Reads the first SIZ of a codestream, which may be cut behind it.
///
/// ```
/// use winterhasp::parse_siz_marker;
///
/// let codestream = std::fs::read("sample-a.j2k")?;
/// let siz = parse_siz_marker(&codestream)?;
/// assert_eq!((siz.width, siz.height), (10, 6));
/// assert_eq!((siz.components, siz.bits, siz.signed), (1, 8, false));
/// assert_eq!(parse_siz_marker(&codestream[..42]).unwrap_err().number(), 20);
/// # Ok::<(), Box<dyn std::error::Error>>(())
/// ```
pub fn parse_siz_marker(codestream: &[u8]) -> Result<Siz, Refusal> {
    let numbers = accepted(|numbers| boundary::parse_siz_marker(codestream, numbers))?;
    let [width, height, components, bits, signed] = numbers;
    Ok(Siz {
        width: width as u32,
        height: height as u32,
        components: components as u16,
        bits: bits as u8,
        signed: signed != 0,
    })
}

/// The smallest type of 8, 16 or 32 bits; for no bits and for more than 32 it is `UInt8`.
///
/// ```
/// use winterhasp::{pixel_type_from_siz, SampleType};
///
/// assert_eq!(pixel_type_from_siz(8, false), SampleType::UInt8);
/// assert_eq!(pixel_type_from_siz(9, true), SampleType::Int16);
/// assert_eq!(pixel_type_from_siz(33, true), SampleType::UInt8);
/// ```
pub fn pixel_type_from_siz(bits: u8, signed: bool) -> SampleType {
    match boundary::pixel_type(bits, signed) {
        1 => SampleType::Int8,
        2 => SampleType::UInt16,
        3 => SampleType::Int16,
        4 => SampleType::UInt32,
        5 => SampleType::Int32,
        _ => SampleType::UInt8,
    }
}
