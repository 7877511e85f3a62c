//! The words of the command line.

use std::path::PathBuf;

use clap::{value_parser, Args, Parser, Subcommand, ValueEnum};
use clap_complete::Shell;

const EXAMPLES: &str = "\
Examples:
  winterhasp list flights/            every file of a folder: tile-parts, or what is wrong
  winterhasp check flights/           which files have a length table that says what stands there
  winterhasp show flight.jp2          what one file holds, and what is missing
  winterhasp boxes flight.jp2         every box of one file, with those that others hold
  winterhasp tile flight.jp2 5        tile 5 alone, as flight.tile5.j2k
  winterhasp grid flight.jp2 -o flight.svg    the tiles as a picture

Status: 0 all accepted, 1 some file refused, or not passed by check, 2 wrong words or a file that can't be read or written.";

const LIST: &str = "\
Examples:
  winterhasp list flight.jp2
  winterhasp list flights/ > listing.txt      the troubles stay on the terminal
  winterhasp list --json -j 8 flights/*.jp2

Lines:
  file NAME                       before each file, where there may be several
  codestream OFFSET LENGTH        where it stands in the file
  header FIRST-TILE-PART LENGTH   the length is that of the header to decode with
  tlm TILE OFFSET LENGTH          a tile-part by the header's own table
  part TILE OFFSET LENGTH         a tile-part that stands there
  end | refused NUMBER PLACE | unread      the last; standard error has the words
Offsets behind `codestream` count from the codestream's start.

JSON, of a tile-part that stands there:
  {\"tile\":5,\"offset\":71,\"file_offset\":71,\"length\":16,\"tpsot\":0,\"tnsot\":1}
has its own numbers too: tpsot is its number among its tile's, from 0, and tnsot how many its tile has, or 0 where it doesn't say.
Of one by the header's own table both are null, since they are not known there.

Numberings, of tile-parts for which the header's own table has no tile:
  restarting    from 0 in each of the table's segments, as the listing program and the ported program do
  carried-on    on over the segments in the order of the file, as the standard has it; more than 65,535 are refused

Editions, of the standard, by which a header is read:
  older    capabilities (CAP) are passed over as any segment
  newer    they stand there exactly once where bit 14 of Rsiz announces them, as high-throughput files have it, and are as long as
           their bits ask; a header that has them otherwise is refused";

const CHECK: &str = "\
Examples:
  winterhasp check flight.jp2
  winterhasp check delivery/ > checked.txt    the count, and what is refused, stay on the terminal too
  winterhasp check --json -j 8 delivery/*.jp2

Lines, one a file:
  NAME: pass
      the length table (TLM) lists each tile-part that stands there, with its tile and its length, and no other
  NAME: differs at 1: the table lists tile 5 with 17 bytes, and tile 5 with 16 bytes stands at byte 71 of the codestream, byte 71 of the file
      entry 1 of the table, from 0, is the first that is wrong; where an entry is missing or surplus, the line says so
  NAME: no length table
      there is none, or one without an entry
  NAME: refused 9 71: a tile-part runs past the end; ask for the file again: it is cut short, or a length in it is wrong
      what stands there can't be told: the refusal's number and place; standard error has the place in the file
  NAME: unread
      standard error says why
The table's segments are taken in the order of their own numbers (Ztlm), and entries that give no tile are numbered on over them, as the
standard has it. A last tile-part that says no length (Psot 0) reaches to the codestream's end, with EOC; where the table differs by
EOC alone, which the standard's leaves out, the line says so.

JSON, of a file that differs:
  {\"file\":\"flight.jp2\",\"verdict\":\"differs\",\"differs\":{\"number\":1,\"offset\":71,\"file_offset\":71,
   \"listed\":{\"tile\":5,\"length\":17},\"standing\":{\"tile\":5,\"length\":16},\"eoc_counted\":false}}
on one line. The verdict is pass, differs, no length table, refused or unread. What is listed, or stands there, is null where it is nothing;
eoc_counted is true where EOC alone makes the difference.

Status: 0 where all files pass, 1 where some file does not, 2 where one can't be read.";

const SHOW: &str = "\
Examples:
  winterhasp show flight.jp2
  winterhasp show --tile 5 flight.jp2         the components' sizes in tile 5 too
  winterhasp show --json flight.jp2
  winterhasp show --edition newer flight.jp2  refused where its capabilities (CAP) don't stand as announced

Fetch:
  the file's first 59 bytes hold the header; growth fetches 89, with no enlargement
is how much of the file has to be there for its main header, up to and with the marker of the first tile-part, and how much is
fetched for it: growth starts with 65536 bytes, and doubles them until the header is whole or there are no more. JSON has that as
fetch: enough, which is null where no tile-part is reached, region and enlargements.

Edition:
  newer: capabilities (CAP) at byte 51 of the codestream, byte 51 of the file, as announced
is a header of the standard's newer edition, by which high-throughput files say what they use; older: none is announced, and none
there. One that announces CAP and doesn't have it, or the other way round, or at a wrong length, is of the older edition, and the
line says what the newer refuses; with --edition newer the file is refused for it. JSON has all that as edition.

Components:
  8 bits, unsigned; 5 by 3, from 2, 1 on; a sample for 2 by 2
is a component with 3 rows of 5 samples, the first at 2, 1 of its own grid; each stands for 2 columns and 2 rows of the image.
Equal ones beside each other share a line, with the first and the last number, from 0. In JSON x0, y0 is the place of the first
sample, and x1, y1 lie behind the last.

Filler:
  1 DELIMITER WITHOUT FF, which no edition of the standard allows
is two bytes in the main header that stand where a marker does: the first is not FF, and the second is 92, or 30 to 3F. They are
passed over, and the file is accepted all the same; tell its supplier, since OpenJPEG refuses it. JSON has their number as fillers.

Order:
  TILE-PARTS OUT OF ORDER, of tiles: 5 9-12
is tiles whose tile-parts are not numbered 0, 1, 2 and on in the order of the file, or one of whose tile-parts says that there are
more or fewer than there are. The file is accepted all the same; with no such tile the line is not there. JSON has the first and the
last tile of each range as out_of_order_ranges, and `winterhasp list --json` has the numbers of each tile-part.";

const BOXES: &str = "\
Examples:
  winterhasp boxes flight.jp2
  winterhasp boxes flight.jp2 | grep '\"colr\"'     its colour, in one line
  winterhasp boxes --json flight.jp2

Lines, one a box, in the order of the file, with two spaces for each box that holds it:
  type      start  length  content  content length  name
  \"jp2h\"       32      45       40              37  JP2 header
    \"ihdr\"     40      22       48              14  image header
    \"colr\"     62      15       70               7  colour specification: enumerated, sRGB (16)
is the box's type, in quotes, where it starts in the file and how long it is, where its content starts and how long that is, and
what the standard (ISO/IEC 15444-1, Annex I) calls it; of another type no name is given. A byte of the type that is no printable
character is written as \\x and two digits, and a backslash as two. Boxes are listed out of jp2h, \"res \" and uinf, to 8 deep.

Colour, of colr: the method, and of an enumerated one the colour space, by name where it is 16, 17 or 18.
Resolution, of resc and resd with a content of 10 bytes:
  vertical 30000/254 x 10^2, horizontal 30000/254 x 10^2 samples per metre
Nothing else in a box is read, and no value is judged.

JSON, of a box:
  {\"depth\":2,\"type\":\"ihdr\",\"type_hex\":\"69686472\",\"name\":\"image header\",\"start\":40,\"length\":22,\"content\":48,\"content_length\":14}
stands in boxes; name is null where there is none. One of colour has colour: method, method_name, colour_space and
colour_space_name; one of resolution has resolution: vertical and horizontal, each with numerator, denominator and exponent.

A file with a box that does not fit, or whose length is wrong, is refused, and none of its boxes is listed. No signature is asked for.
A bare codestream has no boxes, and is refused as such.";

const TILE: &str = "\
Examples:
  winterhasp tile flight.jp2 5                    writes flight.tile5.j2k
  opj_decompress -i flight.tile5.j2k -o five.pgm  decodes it
  winterhasp tile flight.jp2 5 -o five.j2k
  winterhasp tile flight.jp2 5 -o - | sha256sum   on standard output; opj_decompress reads no pipe
  winterhasp tile flight.jp2 5 --rule original    to compare with the ported program

Rules:
  in-place    the tile stays where it lies, with its own pixels, and a plain decode shows it alone
  annex-b     the tile is moved to 0, 0, and may decode to other pixels: a note says where
  original    counted from the image's origin, as the ported program does, and moved too
OUT is written beside and renamed when it is whole; it is never the file that is read. A file whose main header holds the packet
headers of all tiles (PPM) is refused by every rule.";

const GRID: &str = "\
Examples:
  winterhasp grid flight.jp2 -o flight.svg

Each cell is a tile, darker the more bytes it has, with its number of tile-parts; a hatched one has none.";

const COMPLETIONS: &str = "\
Examples:
  winterhasp completions bash > ~/.local/share/bash-completion/completions/winterhasp";

/// Lists, checks, shows and cuts the tile-parts of JPEG 2000 files, and lists their boxes: JP2 and bare codestreams of any size
#[derive(Parser)]
#[command(name = "winterhasp", version, after_help = EXAMPLES)]
pub struct Arguments {
    #[command(subcommand)]
    pub command: Command,
}

#[derive(Subcommand)]
pub enum Command {
    /// List the tile-parts of files and folders
    #[command(after_help = LIST)]
    List(List),
    /// Check whether the length tables (TLM) of files and folders say what stands there
    #[command(after_help = CHECK)]
    Check(Several),
    /// Show what one file holds: image, tiles, components, what is missing, where its tile-parts end
    #[command(after_help = SHOW)]
    Show(Show),
    /// List every box of one file (JP2), with those that others hold
    #[command(after_help = BOXES)]
    Boxes(Boxes),
    /// Cut out one tile as a codestream
    #[command(after_help = TILE)]
    Tile(Tile),
    /// Draw the tiles as a picture (SVG)
    #[command(after_help = GRID)]
    Grid(Grid),
    /// Print the completions for a shell
    #[command(after_help = COMPLETIONS)]
    Completions(Completions),
}

/// Of a command that takes many files.
#[derive(Args)]
pub struct Several {
    /// Files, and folders with all that is below them
    #[arg(value_name = "PATH", required = true)]
    pub paths: Vec<PathBuf>,
    /// One JSON object a line for each file
    #[arg(long)]
    pub json: bool,
    /// So many files side by side, 1 to 64; else as many as there are processors
    #[arg(short, long, value_name = "N", value_parser = value_parser!(u16).range(1..=64))]
    pub jobs: Option<u16>,
}

#[derive(Args)]
pub struct List {
    #[command(flatten)]
    pub files: Several,
    /// How tile-parts are numbered that the header's own table (tlm) gives no tile
    #[arg(long, value_enum, default_value_t)]
    pub numbering: Numbering,
    /// The edition of the standard by which the header is read
    #[arg(long, value_enum, default_value_t)]
    pub edition: Edition,
}

/// The default is not the library's, which carries on: the lines are those of the listing program.
#[derive(Clone, Copy, Default, ValueEnum)]
pub enum Numbering {
    #[default]
    Restarting,
    CarriedOn,
}

impl From<Numbering> for winterhasp::Numbering {
    fn from(numbering: Numbering) -> Self {
        match numbering {
            Numbering::Restarting => winterhasp::Numbering::Restarting,
            Numbering::CarriedOn => winterhasp::Numbering::CarriedOn,
        }
    }
}

#[derive(Clone, Copy, Default, ValueEnum)]
pub enum Edition {
    #[default]
    Older,
    Newer,
}

impl From<Edition> for winterhasp::Edition {
    fn from(edition: Edition) -> Self {
        match edition {
            Edition::Older => winterhasp::Edition::Older,
            Edition::Newer => winterhasp::Edition::Newer,
        }
    }
}

#[derive(Args)]
pub struct Show {
    /// A JP2 or a bare codestream
    pub file: PathBuf,
    /// One JSON object
    #[arg(long)]
    pub json: bool,
    /// Also the sizes of the components in this tile, from 0 to 65535
    #[arg(long, value_name = "N", value_parser = index)]
    pub tile: Option<u16>,
    /// The edition of the standard by which the header is read
    #[arg(long, value_enum, default_value_t)]
    pub edition: Edition,
}

#[derive(Args)]
pub struct Boxes {
    /// A JP2, or another file of boxes
    pub file: PathBuf,
    /// One JSON object
    #[arg(long)]
    pub json: bool,
}

#[derive(Args)]
pub struct Tile {
    /// A JP2 or a bare codestream
    pub file: PathBuf,
    /// The tile's, from 0 to 65535
    #[arg(value_parser = index)]
    pub index: u16,
    /// Where it goes, or - for standard output [default: FILE's name with .tileINDEX.j2k, in the
    /// current folder]
    #[arg(short, long, value_name = "OUT")]
    pub out: Option<PathBuf>,
    /// Where the tile lies once it is cut out
    #[arg(long, value_enum, default_value_t)]
    pub rule: Rule,
}

/// The default is not the library's, which is Annex B's: who cuts out a tile wants its pixels.
#[derive(Clone, Copy, Default, ValueEnum)]
pub enum Rule {
    #[default]
    InPlace,
    AnnexB,
    Original,
}

impl From<Rule> for winterhasp::Rule {
    fn from(rule: Rule) -> Self {
        match rule {
            Rule::InPlace => winterhasp::Rule::InPlace,
            Rule::AnnexB => winterhasp::Rule::AnnexB,
            Rule::Original => winterhasp::Rule::Original,
        }
    }
}

#[derive(Args)]
pub struct Grid {
    /// A JP2 or a bare codestream
    pub file: PathBuf,
    /// Where the picture goes, or - for standard output
    #[arg(short, long, value_name = "OUT.svg")]
    pub out: PathBuf,
}

#[derive(Args)]
pub struct Completions {
    /// The shell's name
    pub shell: Shell,
}

/// Plain digits, with no sign.
fn index(word: &str) -> Result<u16, String> {
    let digits = word.bytes().all(|byte| byte.is_ascii_digit());
    let number = word.parse().ok().filter(|_| digits);
    number.ok_or_else(|| "a number from 0 to 65535 is needed, in plain digits".to_string())
}

#[cfg(test)]
mod tests {
    use clap::{CommandFactory, Parser};

    use super::{Arguments, Command};

    fn rule(words: &[&str]) -> Option<winterhasp::Rule> {
        let words = ["winterhasp", "tile", "flight.jp2", "5"]
            .iter()
            .chain(words);
        let arguments = Arguments::try_parse_from(words).ok()?;
        match arguments.command {
            Command::Tile(tile) => Some(tile.rule.into()),
            _ => None,
        }
    }

    #[test]
    fn a_tile_stays_in_place_by_default() {
        let in_place = Some(winterhasp::Rule::InPlace);
        assert_eq!(rule(&[]), in_place);
        assert_eq!(rule(&["--rule", "in-place"]), in_place);
        assert_eq!(rule(&["--rule", "annex-b"]), Some(winterhasp::Rule::AnnexB));
        assert_eq!(rule(&["--rule=original"]), Some(winterhasp::Rule::Original));
        let wrong = ["in", "InPlace", "in_place", "inplace", "2"];
        for wrong in ["", "annex", "AnnexB", "annex_b", "Original"]
            .into_iter()
            .chain(wrong)
        {
            assert_eq!(rule(&["--rule", wrong]), None, "{wrong}");
        }
        assert_eq!(rule(&["--rule"]), None);
    }

    fn numbering(words: &[&str]) -> Option<winterhasp::Numbering> {
        let words = ["winterhasp", "list", "flights"].iter().chain(words);
        let arguments = Arguments::try_parse_from(words).ok()?;
        match arguments.command {
            Command::List(list) => Some(list.numbering.into()),
            _ => None,
        }
    }

    #[test]
    fn a_listing_restarts_the_numbers_by_default() {
        let restarting = Some(winterhasp::Numbering::Restarting);
        assert_eq!(numbering(&[]), restarting);
        assert_eq!(numbering(&["--numbering", "restarting"]), restarting);
        let carried_on = Some(winterhasp::Numbering::CarriedOn);
        assert_eq!(numbering(&["--numbering=carried-on"]), carried_on);
        for wrong in ["", "carried", "carried_on", "CarriedOn", "restart", "0"] {
            assert_eq!(numbering(&["--numbering", wrong]), None, "{wrong}");
        }
        assert_eq!(numbering(&["--numbering"]), None);
    }

    fn edition(command: &str, words: &[&str]) -> Option<winterhasp::Edition> {
        let words = ["winterhasp", command, "flight"]
            .into_iter()
            .chain(words.iter().copied());
        let arguments = Arguments::try_parse_from(words).ok()?;
        match arguments.command {
            Command::List(list) => Some(list.edition.into()),
            Command::Show(show) => Some(show.edition.into()),
            _ => None,
        }
    }

    #[test]
    fn a_header_is_read_by_the_older_edition_by_default() {
        for command in ["list", "show"] {
            let older = Some(winterhasp::Edition::Older);
            assert_eq!(edition(command, &[]), older);
            assert_eq!(edition(command, &["--edition", "older"]), older);
            let newer = Some(winterhasp::Edition::Newer);
            assert_eq!(edition(command, &["--edition=newer"]), newer);
            for wrong in ["", "new", "Newer", "2", "1"] {
                assert_eq!(edition(command, &["--edition", wrong]), None, "{wrong}");
            }
            assert_eq!(edition(command, &["--edition"]), None);
        }
    }

    #[test]
    fn the_words_fit_together() {
        Arguments::command().debug_assert();
    }
}
