//! A builder of codestreams, marker by marker, in the names of ISO/IEC 15444-1, Annex A. It writes
//! what it is told, sound or not.

pub const SOC: u16 = 0xFF4F;
pub const CAP: u16 = 0xFF50;
pub const SIZ: u16 = 0xFF51;
pub const COD: u16 = 0xFF52;
pub const COC: u16 = 0xFF53;
pub const TLM: u16 = 0xFF55;
pub const PLM: u16 = 0xFF57;
pub const QCD: u16 = 0xFF5C;
pub const PPM: u16 = 0xFF60;
pub const COM: u16 = 0xFF64;
pub const SOT: u16 = 0xFF90;
pub const EPH: u16 = 0xFF92;
pub const SOD: u16 = 0xFF93;
pub const EOC: u16 = 0xFFD9;

/// A SIZ segment with components of 8 bits, unsigned, not subsampled.
pub struct Siz {
    pub width: u32,
    pub height: u32,
    pub origin: (u32, u32),
    pub tile_width: u32,
    pub tile_height: u32,
    pub tile_origin: (u32, u32),
    pub components: u16,
}

impl Default for Siz {
    fn default() -> Self {
        Siz {
            width: 1,
            height: 1,
            origin: (0, 0),
            tile_width: 1,
            tile_height: 1,
            tile_origin: (0, 0),
            components: 1,
        }
    }
}

/// A TLM segment; `stlm` decides how wide an entry's index and length are written.
#[derive(Clone)]
pub struct Tlm {
    pub ztlm: u8,
    pub stlm: u8,
    pub entries: Vec<(u16, u32)>,
}

impl Tlm {
    pub fn body(&self) -> Vec<u8> {
        let mut body = vec![self.ztlm, self.stlm];
        for (index, length) in &self.entries {
            match self.stlm >> 4 & 3 {
                1 => body.push(*index as u8),
                2 => body.extend(index.to_be_bytes()),
                _ => {}
            }
            match self.stlm >> 6 & 1 {
                0 => body.extend((*length as u16).to_be_bytes()),
                _ => body.extend(length.to_be_bytes()),
            }
        }
        body
    }
}

#[derive(Default)]
pub struct Codestream {
    pub bytes: Vec<u8>,
}

impl Codestream {
    pub fn soc(&mut self) -> &mut Self {
        self.marker(SOC)
    }

    pub fn eoc(&mut self) -> &mut Self {
        self.marker(EOC)
    }

    /// A marker by itself: a delimiter, or the front of something cut short.
    pub fn marker(&mut self, code: u16) -> &mut Self {
        self.raw(&code.to_be_bytes())
    }

    pub fn raw(&mut self, bytes: &[u8]) -> &mut Self {
        self.bytes.extend(bytes);
        self
    }

    /// A segment whose length field, which counts itself, fits `body`.
    pub fn segment(&mut self, code: u16, body: &[u8]) -> &mut Self {
        let length = u16::try_from(body.len() + 2).expect("a segment's body is below 65,534 bytes");
        self.segment_saying(code, length, body)
    }

    /// A segment whose length field says what it likes.
    pub fn segment_saying(&mut self, code: u16, length: u16, body: &[u8]) -> &mut Self {
        self.marker(code).raw(&length.to_be_bytes()).raw(body)
    }

    pub fn siz(&mut self, siz: &Siz) -> &mut Self {
        const RSIZ: [u8; 2] = [0, 0];
        const SSIZ_XRSIZ_YRSIZ: [u8; 3] = [7, 1, 1];
        let mut body = RSIZ.to_vec();
        for field in [
            siz.width,
            siz.height,
            siz.origin.0,
            siz.origin.1,
            siz.tile_width,
            siz.tile_height,
            siz.tile_origin.0,
            siz.tile_origin.1,
        ] {
            body.extend(field.to_be_bytes());
        }
        body.extend(siz.components.to_be_bytes());
        for _ in 0..siz.components {
            body.extend(SSIZ_XRSIZ_YRSIZ);
        }
        self.segment(SIZ, &body)
    }

    pub fn tlm(&mut self, tlm: &Tlm) -> &mut Self {
        self.segment(TLM, &tlm.body())
    }

    pub fn sot(&mut self, isot: u16, psot: u32, tpsot: u8, tnsot: u8) -> &mut Self {
        let mut body = isot.to_be_bytes().to_vec();
        body.extend(psot.to_be_bytes());
        body.extend([tpsot, tnsot]);
        self.segment(SOT, &body)
    }

    /// SOT and body of a tile's only tile-part, with a Psot that fits.
    pub fn tile_part(&mut self, isot: u16, body: &[u8]) -> &mut Self {
        const SOT_BYTES: u32 = 12;
        self.sot(isot, SOT_BYTES + body.len() as u32, 0, 1)
            .raw(body)
    }

    /// COM segments, as few as will do, so that `bytes` ends at `end`.
    pub fn pad_to(&mut self, end: usize) -> &mut Self {
        const SHORTEST: usize = 4;
        const LONGEST: usize = 2 + 65_535;
        while self.bytes.len() < end {
            let rest = end - self.bytes.len();
            let size = match rest {
                ..=LONGEST => rest,
                // What is left after a longest one must hold a shortest one.
                _ => LONGEST.min(rest - SHORTEST),
            };
            let body = size.checked_sub(SHORTEST).expect("no segment is so short");
            self.segment(COM, &vec![0xFF; body]);
        }
        self
    }
}

#[cfg(test)]
mod tests {
    use super::{Codestream, Siz, Tlm, COM, QCD};

    #[test]
    fn segments_count_their_length_field() {
        let mut built = Codestream::default();
        built.segment(QCD, &[9]).segment_saying(QCD, 0, &[8]);
        assert_eq!(built.bytes, [0xFF, 0x5C, 0, 3, 9, 0xFF, 0x5C, 0, 0, 8]);
    }

    #[test]
    fn siz_grows_with_its_components() {
        for components in [1, 3] {
            let mut built = Codestream::default();
            built.siz(&Siz {
                components,
                ..Siz::default()
            });
            let lsiz = 38 + 3 * components as usize;
            assert_eq!(built.bytes.len(), 2 + lsiz);
            assert_eq!(built.bytes[3] as usize, lsiz);
        }
    }

    #[test]
    fn stlm_decides_an_entry_s_width() {
        let bytes = [
            (0x00, 2),
            (0x10, 3),
            (0x20, 4),
            (0x40, 4),
            (0x50, 5),
            (0x60, 6),
        ];
        for (stlm, width) in bytes {
            let mut built = Codestream::default();
            built.tlm(&Tlm {
                ztlm: 0,
                stlm,
                entries: vec![(1, 2)],
            });
            assert_eq!(built.bytes.len(), 6 + width);
        }
    }

    #[test]
    fn padding_ends_where_it_is_told() {
        for end in [6, 7, 65_535, 65_539, 65_540, 65_542, 200_000] {
            let mut built = Codestream::default();
            built.soc().pad_to(end);
            assert_eq!(built.bytes.len(), end);
            assert_eq!(built.bytes[2..4], COM.to_be_bytes());
        }
    }
}
