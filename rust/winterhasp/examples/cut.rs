//! Cuts one tile out of a file, JP2 or bare, and writes a codestream of that tile, in its place, as
//! tile 0:
//! `cargo run --release -p winterhasp --example cut -- FILE INDEX OUT`.

use std::error::Error;
use std::{env, fs};

use winterhasp::{
    build_minimal_codestream_by_rule, find_codestream, grow_header_region, parse_main_header,
    scan_sot_markers, Rule, TileParts,
};

fn main() -> Result<(), Box<dyn Error>> {
    let words: Vec<String> = env::args().skip(1).collect();
    let [file, index, out] = words.as_slice() else {
        return Err("usage: cut FILE INDEX OUT".into());
    };
    let file = fs::read(file)?;
    let index: u16 = index.parse()?;

    let codestream = find_codestream(&file)?.bytes;
    let region = usize::try_from(grow_header_region(codestream).length)?;
    let header = parse_main_header(&codestream[..region])?;
    let parts = scan_sot_markers(codestream, header.first_sot)?;
    let tile = TileParts::of(index, &parts).ok_or(format!("no part of tile {index}"))?;
    let decode_header = &header.decode_header;
    let alone = build_minimal_codestream_by_rule(decode_header, &tile, codestream, Rule::InPlace)?;
    fs::write(out, alone)?;
    Ok(())
}
