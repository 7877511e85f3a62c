//! Every function of the archives, with inputs that are built as files are, and damaged.

use beside::lent::{room, table, table_of, Lent};
use beside::model::boxes::BOX_ROW;
use beside::model::components::NO_SUCH_COMPONENT;
use beside::model::header::{Reading, NO_SUCH_MARKER};
use beside::model::{self, records, rows_of, Record, Refusal, ROW};
use beside::random::Random;
use beside::readings::{self, meant};
use beside::sample::codestream::CAP;
use beside::sample::damage::damage;
use beside::sample::{
    boxes, caps, components, deliveries, headers, indices, lengths, markers, numbers, orders,
    padded, parts, sizes, tiles, trees,
};
use beside::wanted::{self, Wanted, COMPLETE, COUNT, NONE, NO_MARKER, TRUNCATED};
use probe::host;

use super::calls::{Calls, ROOM};

/// Each answer has to come; a run is one input, and a few calls.
pub type Function = (Wanted, fn(&mut Calls));

pub const FUNCTIONS: &[Function] = &[
    (wanted::EXTENT, extent),
    (wanted::HEADER, header),
    (wanted::HEADER_BY_READING, header_by_reading),
    (wanted::HEADER_RECORDS, header_records),
    (wanted::FIND_MARKER, find_marker),
    (wanted::SCAN, scan),
    (wanted::SCAN_RECORDS, scan_records),
    (wanted::CHECK, check_length_table),
    (wanted::ORDER, order),
    (wanted::ORDER_OF_RECORDS, order_of_records),
    (wanted::INDEX, index_tiles),
    (wanted::EXTEND, extend_index),
    (wanted::EXTEND_OF_RECORDS, extend_index_of_records),
    (wanted::RUN, tile_run),
    (wanted::ENTRIES, tile_entries),
    (wanted::SPLIT_COUNT, split_count),
    (wanted::SPLIT_PART, split_part),
    (wanted::SPLIT_AT, split_at),
    (wanted::REWRITE, rewrite),
    (wanted::REWRITE_BY_RULE, rewrite_by_rule),
    (wanted::ASSEMBLY, assembly),
    (wanted::ASSEMBLY_BY_RULE, assembly_by_rule),
    (wanted::SEARCH, search),
    (wanted::CODESTREAM, codestream_of),
    (wanted::BOXES, list_boxes),
    (wanted::SIZ, siz),
    (wanted::GROWTH, growth),
    (wanted::PIXEL_TYPE, pixel_type),
    (wanted::NEXT_REGION, next_region),
    (wanted::READ_COMPONENTS, read_components),
    (wanted::READ_COMPONENTS_IN_TILE, read_components_in_tile),
    (wanted::READ_COMPONENTS_BY_RULE, read_components_by_rule),
    (wanted::COMPONENT, component),
    (wanted::COMPONENT_IN_TILE, component_in_tile),
    (wanted::COMPONENT_BY_RULE, component_by_rule),
    (wanted::COMPONENT_WITHIN, component_within),
];

fn usual(status: u32) -> &'static str {
    Refusal::new(status, 0).label()
}

/// As it is half the time.
fn perhaps_damaged(random: &mut Random, mut bytes: Vec<u8>) -> Vec<u8> {
    if random.once_in(2) {
        damage(random, &mut bytes);
    }
    bytes
}

fn codestream(random: &mut Random) -> Vec<u8> {
    let built = headers::codestream(random);
    perhaps_damaged(random, built)
}

fn extent(calls: &mut Calls) {
    let answer = |status| match status {
        1 => COMPLETE,
        _ => TRUNCATED,
    };
    let prefix = codestream(&mut calls.random);
    calls.call([prefix], [], answer, |[prefix], [], [value]| {
        host::main_header_extent(prefix, value)
    });
}

/// A codestream, and room for its entries and its decode header, or about that.
fn header_input(random: &mut Random, reading: host::Reading) -> (Vec<u8>, usize, usize) {
    let codestream = match random.below(64) {
        0..=9 => numbers::few(random),
        10 => past_the_last(random),
        11..=20 => caps::few(random),
        _ => codestream(random),
    };
    let (entries, size) = model::header::needed(&codestream, meant(reading));
    (codestream, room(random, entries), room(random, size))
}

/// A header that is refused where its numbers are carried on; where they restart it has more entries
/// than may be lent here.
fn past_the_last(random: &mut Random) -> Vec<u8> {
    loop {
        let built = numbers::many(random);
        if model::header::parse_main_header(&built, Reading::DEFAULT).is_err() {
            return built;
        }
    }
}

/// What is accepted is told apart by CAP, by whether the numberings differ, and by fillers.
fn header_answer(codestream: &[u8], reading: host::Reading) -> impl Fn(u32) -> &'static str {
    let fillers = model::header::fillers(codestream);
    let entries = |reading| {
        let read = model::header::parse_main_header(codestream, reading);
        read.ok().map(|header| header.entries)
    };
    let numbered_on = entries(meant(reading)) != entries(Reading::ORIGINAL);
    let capped = reading.edition == host::NEWER
        && model::header::markers(codestream).any(|(_, marker)| marker == CAP);
    move |status| match status {
        0 => wanted::header(capped, numbered_on, fillers),
        _ => usual(status),
    }
}

fn header(calls: &mut Calls) {
    let (codestream, entries, size) = header_input(&mut calls.random, readings::DEFAULT);
    let table = table(&mut calls.random, entries);
    let answer = header_answer(&codestream, readings::DEFAULT);
    calls.call(
        [codestream],
        [table, size],
        answer,
        |[codestream], [table, out], values| {
            host::parse_main_header(codestream, table, out, values)
        },
    );
}

/// Each numbering and edition, or numbers that mean nothing.
fn any_reading(random: &mut Random) -> host::Reading {
    let mut number = || random.pick(&[0, 0, 1, 1, 2, u32::MAX]);
    host::Reading {
        numbering: number(),
        edition: number(),
    }
}

fn header_by_reading(calls: &mut Calls) {
    let reading = any_reading(&mut calls.random);
    let (codestream, entries, size) = header_input(&mut calls.random, reading);
    let table = table(&mut calls.random, entries);
    let answer = header_answer(&codestream, reading);
    calls.call(
        [codestream],
        [table.min(ROOM), size],
        answer,
        |[codestream], [table, out], values| {
            host::parse_main_header_by_reading(codestream, reading, table, out, values)
        },
    );
}

fn header_records(calls: &mut Calls) {
    let reading = any_reading(&mut calls.random);
    let (codestream, entries, size) = header_input(&mut calls.random, reading);
    let table = table(&mut calls.random, entries);
    let answer = header_answer(&codestream, reading);
    calls.call(
        [codestream],
        [table.min(ROOM), size],
        answer,
        |[codestream], [table, out], values| {
            probe::header_records(codestream, reading, table, out, values)
        },
    );
}

fn find_marker(calls: &mut Calls) {
    let codestream = codestream(&mut calls.random);
    let marker = markers::code(&mut calls.random, &codestream);
    let answer = usual_or_none;
    calls.call([codestream], [], answer, |[codestream], [], [value]| {
        host::find_marker(codestream, marker, value)
    });
}

/// So many tile-parts that they are read from several places at once, and what may follow them.
fn many_parts(random: &mut Random) -> Vec<u8> {
    let count = random.below(1_200);
    let built = parts::varied(random, count, 12, 12);
    let endings = parts::endings();
    [built.as_slice(), &endings[random.below(endings.len())]].concat()
}

/// A codestream, a start, and room for its entries, or about that.
fn scan_input(random: &mut Random) -> (Vec<u8>, u64, usize) {
    let (codestream, start) = match random.below(4) {
        0 => {
            let whole = codestream(random);
            let first_sot = model::header::main_header_extent(&whole);
            let anywhere = random.below(whole.len() + 3) as u64;
            (whole, first_sot.unwrap_or(anywhere))
        }
        1 => (codestream(random), random.spread()),
        2 => (many_parts(random), 0),
        _ => (tile_parts(random), 0),
    };
    let entries = model::parts::needed(&codestream, start);
    (codestream, start, room(random, entries))
}

fn scan(calls: &mut Calls) {
    let (codestream, start, entries) = scan_input(&mut calls.random);
    let table = table(&mut calls.random, entries);
    calls.call(
        [codestream],
        [table],
        usual,
        |[codestream], [table], [value]| host::scan_sot_markers(codestream, start, table, value),
    );
}

fn scan_records(calls: &mut Calls) {
    let (codestream, start, entries) = scan_input(&mut calls.random);
    let table = table(&mut calls.random, entries);
    calls.call(
        [codestream],
        [table],
        usual,
        |[codestream], [table], [value]| probe::scan_records(codestream, start, table, value),
    );
}

/// A codestream with a table that is right, or nearly, and often cut short; the whole of it, or a region.
fn check_length_table(calls: &mut Calls) {
    let random = &mut calls.random;
    let codestream = match random.below(64) {
        0 | 1 => lengths::many(random),
        2..=9 => codestream(random),
        10..=19 => cut_short(random),
        _ => {
            let built = deliveries::any(random).bytes();
            perhaps_damaged(random, built)
        }
    };
    let region = lengths::region(random, &codestream);
    let document = model::check::check_length_table(&codestream, region);
    let answer = |status| match document {
        Ok(difference) => wanted::checked(difference),
        Err(_) => usual(status),
    };
    calls.call([codestream], [], answer, |[codestream], [], values| {
        host::check_length_table(codestream, region, values)
    });
}

/// Of which the last tile-part may be missing, or a part of it.
fn cut_short(random: &mut Random) -> Vec<u8> {
    let mut built = deliveries::sound(random).bytes();
    let less = random.below(built.len().min(40));
    built.truncate(built.len() - less);
    built
}

/// Of rows with any bytes behind them, for a tile that is there or not.
fn order_by(calls: &mut Calls, answer: fn(&[u8], u16) -> u32) {
    let random = &mut calls.random;
    let mut table = rows_of(&orders::table(random));
    let partial = random.below(ROW);
    table.extend(random.bytes(partial));
    let table = perhaps_damaged(random, table);
    let tile = random.pick(&orders::TILES);
    let told = |status| wanted::order(status == 1);
    calls.call([table], [], told, |[table], [], []| answer(table, tile));
}

fn order(calls: &mut Calls) {
    order_by(calls, host::tile_in_order);
}

fn order_of_records(calls: &mut Calls) {
    order_by(calls, probe::records_in_order);
}

/// A table with any bytes behind its rows, and what it holds.
fn index_input(random: &mut Random) -> (Vec<u8>, Vec<Record>) {
    let table = indices::table(random);
    let table = perhaps_damaged(random, table);
    let records = records(&table);
    (table, records)
}

/// An index that begins with these keys and a scratch, with room for what is needed, or about that.
fn lent_index(random: &mut Random, mut keys: Vec<u64>, needed: [usize; 2]) -> Lent<1, 2, u64> {
    let [size, scratch] = needed.map(|needed| room(random, needed));
    keys.resize_with(size, || random.number());
    let scratch = (0..scratch).map(|_| random.number()).collect();
    Lent::holding(random, [keys, scratch])
}

fn index_tiles(calls: &mut Calls) {
    let (table, records) = index_input(&mut calls.random);
    let before = lent_index(&mut calls.random, Vec::new(), [records.len(); 2]);
    calls.call_with(
        [table],
        Vec::new(),
        before,
        usual,
        |[table], _, [index, scratch], [value]| host::index_tiles(table, index, scratch, value),
    );
}

type Extend = fn(&[u8], u64, &mut [u64], &mut [u64], &mut u64) -> u32;

/// With an index that is the right one, or not.
fn extend_by(calls: &mut Calls, extend: Extend) {
    let random = &mut calls.random;
    let (table, records) = index_input(random);
    let count = records.len();
    let have = random.below(count + 2) as u64;
    let old = model::index::old(have, count);
    let keys = indices::keys(random, &records, old);
    let right = keys == model::index::index(&records[..old]);
    let before = lent_index(random, keys, [count, count - old]);
    let answer = |status| match status {
        0 => wanted::extended(right),
        _ => usual(status),
    };
    calls.call_with(
        [table],
        Vec::new(),
        before,
        answer,
        |[table], _, [index, scratch], [value]| extend(table, have, index, scratch, value),
    );
}

fn extend_index(calls: &mut Calls) {
    extend_by(calls, host::extend_index);
}

fn extend_index_of_records(calls: &mut Calls) {
    extend_by(calls, probe::records_index);
}

/// A tile that is there, or one beside it.
fn any_tile(random: &mut Random, records: &[Record]) -> u16 {
    match records.is_empty() {
        true => 0,
        false => random
            .pick(records)
            .0
             .0
            .wrapping_add(random.pick(&[0, 0, 1])),
    }
}

/// A table, what may be its index, and a tile.
fn lookup_input(random: &mut Random) -> (Vec<u8>, Vec<u64>, u16) {
    let (table, records) = index_input(random);
    let length = room(random, records.len());
    let keys = indices::keys(random, &records, length);
    let tile = any_tile(random, &records);
    (table, keys, tile)
}

fn tile_run(calls: &mut Calls) {
    let (_, keys, tile) = lookup_input(&mut calls.random);
    let before = Lent::<2, 0>::preset(&mut calls.random, []);
    let answer = |status| wanted::run(status == 1);
    calls.call_with([], keys, before, answer, |[], keys, [], [first, count]| {
        host::tile_run(keys, tile, first, count)
    });
}

fn tile_entries(calls: &mut Calls) {
    let random = &mut calls.random;
    let (rows, keys, tile) = lookup_input(random);
    let found = model::index::entries(&records(&rows), &keys, tile).len();
    let all = found == model::index::run(&keys, tile).len();
    let entries = room(random, found);
    let size = table(random, entries);
    let before = Lent::<1, 1>::preset(random, [size]);
    let answer = |status| match status {
        0 => wanted::given(all),
        _ => usual(status),
    };
    calls.call_with(
        [rows],
        keys,
        before,
        answer,
        |[rows], keys, [out], [value]| host::tile_entries(rows, keys, tile, out, value),
    );
}

fn tile_parts(random: &mut Random) -> Vec<u8> {
    let built = parts::tile_parts(random);
    perhaps_damaged(random, built)
}

fn split_count(calls: &mut Calls) {
    let tile = tile_parts(&mut calls.random);
    calls.call(
        [tile],
        [],
        |_| COUNT,
        |[tile], [], [value]| {
            *value = host::split_count(tile);
            0
        },
    );
}

fn split_part(calls: &mut Calls) {
    let random = &mut calls.random;
    let tile = tile_parts(random);
    let found = model::parts::split_tile_parts(&tile);
    let k = random.below(found.len() + 2);
    let size = room(random, found.get(k).map_or(0, |part| part.len()));
    calls.call([tile], [size], usual, |[tile], [out], [value]| {
        host::split_part(tile, k as u64, out, value)
    });
}

fn split_at(calls: &mut Calls) {
    let random = &mut calls.random;
    let tile = tile_parts(random);
    let found = model::parts::split_tile_parts(&tile);
    let before = found.iter().take(random.below(found.len() + 1));
    let at = match random.once_in(4) {
        true => random.below(tile.len() + 3),
        false => before.map(|part| part.len()).sum(),
    };
    let from = model::parts::split_tile_parts(tile.get(at..).unwrap_or_default());
    let size = room(random, from.first().map_or(0, |part| part.len()));
    calls.call([tile], [size], usual, |[tile], [out], [value]| {
        host::split_at(tile, at as u64, out, value)
    });
}

/// A header, a tile's index, and room for the header, or about that.
fn rewrite_input(random: &mut Random) -> (Vec<u8>, u16, usize) {
    let (header, isot) = sizes::header_and_index(random);
    let header = perhaps_damaged(random, header);
    let size = room(random, header.len());
    (header, isot, size)
}

fn rewrite(calls: &mut Calls) {
    let (header, isot, size) = rewrite_input(&mut calls.random);
    calls.call([header], [size], usual, |[header], [out], [value]| {
        host::rewrite_siz_for_tile(header, isot, out, value)
    });
}

fn rewrite_by_rule(calls: &mut Calls) {
    let (header, isot, size) = rewrite_input(&mut calls.random);
    let rule = rule(&mut calls.random);
    calls.call([header], [size], usual, |[header], [out], [value]| {
        host::rewrite_siz_for_tile_by_rule(header, isot, rule, out, value)
    });
}

/// Each as often as the others.
fn rule(random: &mut Random) -> u32 {
    let by_annex_b = sizes::annex_b_number(random);
    random.pick(&[host::ORIGINAL, host::IN_PLACE, by_annex_b])
}

/// Header, rows and codestream, and room for what is built of them, or about that.
fn assembly_input(random: &mut Random) -> ([Vec<u8>; 3], usize) {
    let mut input = tiles::random_input(random);
    input.header = perhaps_damaged(random, input.header);
    input.codestream = perhaps_damaged(random, input.codestream);
    // So that parts end where the memory does.
    if let Some((offset, length)) = input.ranges.last().filter(|_| random.once_in(3)) {
        let end = offset.saturating_add(*length);
        input
            .codestream
            .truncate(usize::try_from(end).unwrap_or(usize::MAX));
    }
    let size = room(random, input.needed());
    let rows = input.rows_and_more(random);
    ([input.header, rows, input.codestream], size)
}

fn assembly(calls: &mut Calls) {
    let (inputs, size) = assembly_input(&mut calls.random);
    calls.call(
        inputs,
        [size],
        usual,
        |[header, rows, codestream], [out], [value]| {
            host::build_minimal_codestream(header, rows, codestream, out, value)
        },
    );
}

fn assembly_by_rule(calls: &mut Calls) {
    let (inputs, size) = assembly_input(&mut calls.random);
    let rule = rule(&mut calls.random);
    calls.call(
        inputs,
        [size],
        usual,
        |[header, rows, codestream], [out], [value]| {
            host::build_minimal_codestream_by_rule(header, rows, codestream, rule, out, value)
        },
    );
}

fn file(random: &mut Random) -> Vec<u8> {
    let built = boxes::file(random);
    perhaps_damaged(random, built)
}

fn search(calls: &mut Calls) {
    let file = file(&mut calls.random);
    calls.call([file], [], usual, |[file], [], values| {
        host::find_codestream(file, values)
    });
}

fn codestream_of(calls: &mut Calls) {
    let random = &mut calls.random;
    let file = file(random);
    let found = model::reader::find_codestream(&file);
    let size = room(random, found.map_or(0, |(_, length)| length as usize));
    let answer = |status| match status {
        0 => wanted::codestream(found.is_ok()),
        _ => usual(status),
    };
    calls.call([file], [size], answer, |[file], [out], [value]| {
        probe::codestream_of(file, out, value)
    });
}

/// A tree of boxes, or one that is too deep; as it is, or with a length edited, cut or damaged.
fn tree(random: &mut Random) -> Vec<u8> {
    let trees = match random.below(8) {
        0 => trees::too_deep(random),
        _ => trees::file(random),
    };
    let mut built = trees::bytes(&trees);
    match random.below(4) {
        0 => trees::edited(random, &built, &trees::entries(&trees)),
        1 => {
            built.truncate(random.below(built.len() + 1));
            built
        }
        _ => perhaps_damaged(random, built),
    }
}

/// Boxes of any kind, and room for their rows, or about that.
fn list_boxes(calls: &mut Calls) {
    let random = &mut calls.random;
    let file = match random.below(16) {
        0 => file(random),
        1 => trees::deep_and_wide(random.below(2_000), &[1]),
        2..=5 => {
            let mut known = trees::by_hand();
            known.swap_remove(random.below(known.len())).0
        }
        _ => tree(random),
    };
    let rows = room(random, model::boxes::needed(&file));
    let table = table_of(random, BOX_ROW, rows);
    let listed = model::boxes::list_boxes(&file);
    let answer = |status| match (status, &listed) {
        (0, Ok(boxes)) => wanted::boxes(boxes),
        _ => usual(status),
    };
    calls.call([file], [table], answer, |[file], [table], [value]| {
        host::list_boxes(file, table, value)
    });
}

fn siz(calls: &mut Calls) {
    let random = &mut calls.random;
    let codestream = match random.below(2) {
        0 => codestream(random),
        _ => {
            let (header, _) = sizes::header_and_index(random);
            perhaps_damaged(random, header)
        }
    };
    calls.call([codestream], [], usual, |[codestream], [], values| {
        host::parse_siz_marker(codestream, values)
    });
}

/// Mostly short, since a region that is enlarged is a long one.
fn growth(calls: &mut Calls) {
    let random = &mut calls.random;
    let codestream = match random.once_in(32) {
        true => {
            let built = padded(6 + random.below(ROOM / 2));
            perhaps_damaged(random, built)
        }
        false => codestream(random),
    };
    calls.call([codestream], [], usual, |[codestream], [], values| {
        host::grow_header_region(codestream, values)
    });
}

fn pixel_type(calls: &mut Calls) {
    let (bits, signed) = (calls.random.byte(), calls.random.once_in(2));
    let answer = |_| wanted::pixel_type(signed);
    calls.call([], [], answer, |[], [], [value]| {
        *value = host::pixel_type(bits, signed).into();
        0
    });
}

fn next_region(calls: &mut Calls) {
    let random = &mut calls.random;
    let [region, length] = [(); 2].map(|()| random.spread());
    let answer = |_| wanted::next_region(model::reader::next_region(region, length) == length);
    calls.call([], [], answer, |[], [], [value]| {
        *value = host::next_region(region, length);
        0
    });
}

/// A codestream, a tile's index and a component's number.
fn components_input(random: &mut Random) -> (Vec<u8>, u16, u64) {
    let (header, tile) = components::header_and_index(random);
    let codestream = perhaps_damaged(random, header);
    let number = components::number_of(random, &codestream);
    (codestream, tile, number)
}

fn usual_or_none(status: u32) -> &'static str {
    match status {
        NO_SUCH_COMPONENT => NONE,
        NO_SUCH_MARKER => NO_MARKER,
        _ => usual(status),
    }
}

/// Of functions that take these three, or less.
fn components<const V: usize>(
    calls: &mut Calls,
    call: impl Fn(&[u8], u16, u64, &mut [u64; V]) -> u32,
) {
    let (codestream, tile, number) = components_input(&mut calls.random);
    let answer = usual_or_none;
    calls.call([codestream], [], answer, |[codestream], [], values| {
        call(codestream, tile, number, values)
    });
}

fn read_components(calls: &mut Calls) {
    components(calls, |codestream, _, _, values| {
        host::read_components(codestream, values)
    });
}

fn read_components_in_tile(calls: &mut Calls) {
    components(calls, |codestream, tile, _, values| {
        host::read_components_in_tile(codestream, tile, values)
    });
}

fn read_components_by_rule(calls: &mut Calls) {
    let rule = rule(&mut calls.random);
    components(calls, |codestream, tile, _, values| {
        host::read_components_in_tile_by_rule(codestream, tile, rule, values)
    });
}

fn component(calls: &mut Calls) {
    components(calls, |codestream, _, number, values| {
        host::component(codestream, number, values)
    });
}

fn component_in_tile(calls: &mut Calls) {
    components(calls, host::component_in_tile);
}

fn component_by_rule(calls: &mut Calls) {
    let rule = rule(&mut calls.random);
    components(calls, |codestream, tile, number, values| {
        host::component_in_tile_by_rule(codestream, tile, rule, number, values)
    });
}

/// Also of a codestream that ends about where the component does.
fn component_within(calls: &mut Calls) {
    let random = &mut calls.random;
    let (mut codestream, _, number) = components_input(random);
    if random.once_in(2) {
        let place = 42 + 3 * (number % components::MOST as u64) as usize;
        codestream.truncate(place + random.below(4));
    }
    let area = components::any_area(random);
    let answer = usual_or_none;
    calls.call([codestream], [], answer, |[codestream], [], values| {
        host::component_within(codestream, area, number, values)
    });
}
