//! What the standard calls its boxes.

use winterhasp::BoxType;

/// The boxes of ISO/IEC 15444-1, Annex I, in its order.
const NAMES: [(&[u8; 4], &str); 19] = [
    (b"jP  ", "signature"),
    (b"ftyp", "file type"),
    (b"jp2h", "JP2 header"),
    (b"ihdr", "image header"),
    (b"bpcc", "bits per component"),
    (b"colr", "colour specification"),
    (b"pclr", "palette"),
    (b"cmap", "component mapping"),
    (b"cdef", "channel definition"),
    (b"res ", "resolution"),
    (b"resc", "capture resolution"),
    (b"resd", "default display resolution"),
    (b"jp2c", "codestream"),
    (b"jp2i", "intellectual property"),
    (b"xml ", "XML"),
    (b"uuid", "UUID"),
    (b"uinf", "UUID info"),
    (b"ulst", "UUID list"),
    (b"url ", "URL"),
];

/// None: it is no box of the standard.
pub fn name(kind: BoxType) -> Option<&'static str> {
    let named = NAMES.iter().find(|(of, _)| **of == kind.0);
    named.map(|(_, name)| *name)
}

#[cfg(test)]
mod tests {
    use super::{name, BoxType};

    #[test]
    fn a_box_of_the_standard_has_a_name() {
        assert_eq!(name(BoxType(*b"jP  ")), Some("signature"));
        assert_eq!(name(BoxType(*b"url ")), Some("URL"));
        for other in [*b"jp  ", *b"free", *b"JP2H", *b"url\0", [0; 4]] {
            assert_eq!(name(BoxType(other)), None);
        }
    }
}
