//! The variation at a latitude and a column and the year's change, against the
//! second model: what is told, and every byte of the answer.

mod common;

use std::collections::BTreeMap;
use std::path::Path;

use common::{
    all_events, blank_gaps, clear_bit, header_of, lead, naming_pulse, plug, put_page, refusal,
    some_image, some_number, status, value_on, MODES,
};
use ds2505_model as model;
use ds2505_model::lookup_cases;
use ds2505_model::memory::blank_image;
use ds2505_model::random::Generator;
use plug::{calls, change, sheet_variation, sheet_write, update, variation, Published, Refusal};

type Told = Result<i16, Refusal>;

/// What is in the answer before a call.
const MARK: [u8; 16] = [
    0xA0, 0xA1, 0xA2, 0xA3, 0xA4, 0xA5, 0xA6, 0xA7, 0xA8, 0xA9, 0xAA, 0xAB, 0xAC, 0xAD, 0xAE, 0xAF,
];

fn refused(number: u32) -> Told {
    Err(Refusal {
        number,
        value: None,
    })
}

fn outside(number: u8) -> Told {
    Err(Refusal {
        number: 5,
        value: Some(number),
    })
}

fn of_model(answer: Result<i32, model::refusal::Refusal>) -> Told {
    answer.map(|value| value as i16).map_err(refusal)
}

/// The code of an answer, and the bytes of its buffer: all others stay.
fn written(told: Told) -> (u32, [u8; 16]) {
    let mut answer = MARK;
    match told {
        Ok(value) => {
            let [low, high] = value.to_le_bytes();
            answer[..3].copy_from_slice(&[0xFF, low, high]);
            (0, answer)
        }
        Err(refusal) => {
            if let Some(value) = refusal.value {
                answer[..2].copy_from_slice(&[0xFF, value]);
            }
            (refusal.number, answer)
        }
    }
}

/// What an image tells, which must be what the model tells.
fn ask(image: &[u8], latitude: i32, column: u32) -> Told {
    let expected = of_model(model::lookup::value(image, latitude, column));
    let mut answer = MARK;
    let code = calls::variation(image, latitude, column, &mut answer);
    assert_eq!((code, answer), written(expected), "{latitude} {column}");
    assert_eq!(variation(image, latitude, column), expected);
    expected
}

fn ask_sheet(sheet: &[u8], latitude: i32, column: u32) -> Told {
    let expected = of_model(model::lookup::sheet_value(sheet, latitude, column));
    let mut answer = MARK;
    let code = calls::sheet_variation(sheet, latitude, column, &mut answer);
    assert_eq!((code, answer), written(expected), "{latitude} {column}");
    assert_eq!(sheet_variation(sheet, latitude, column), expected);
    expected
}

fn ask_change(old: i32, new: i32) -> Told {
    let expected = of_model(model::lookup::change(old, new));
    let mut answer = MARK;
    let code = calls::change(old, new, &mut answer);
    assert_eq!((code, answer), written(expected), "{old} {new}");
    assert_eq!(change(old, new), expected);
    expected
}

/// How often each code was told.
#[derive(Default)]
struct Seen(BTreeMap<u32, usize>);

impl Seen {
    fn count(&mut self, told: Told) {
        let (code, _) = written(told);
        *self.0.entry(code).or_insert(0) += 1;
    }

    fn assert_often(&self, codes: &[u32], least: usize) {
        let kinds: Vec<u32> = self.0.keys().copied().collect();
        assert_eq!(kinds, codes, "{:?}", self.0);
        assert!(self.0.values().all(|&count| count >= least), "{:?}", self.0);
    }
}

// ---- the stored cases

fn stored(name: &str) -> Vec<u8> {
    let folder = Path::new(env!("CARGO_MANIFEST_DIR")).join("../crates/program_variation_cases");
    std::fs::read(folder.join(name)).unwrap()
}

fn take<const N: usize>(input: &mut &[u8]) -> [u8; N] {
    let (first, rest) = input.split_at(N);
    *input = rest;
    first.try_into().unwrap()
}

/// What a line of the stored output says.
fn of_line(line: &str) -> Told {
    let words: Vec<&str> = line.split(' ').collect();
    match words[..] {
        ["variation" | "change", value] => Ok(value.parse().unwrap()),
        ["refused", "5", "outside", number] => outside(number.parse().unwrap()),
        ["refused", number, ..] => refused(number.parse().unwrap()),
        _ => panic!("{line}"),
    }
}

/// The input of the program with the stored cases, by its stored output and by
/// the model; of a sound sheet also its image.
#[test]
fn stored_cases() {
    let bytes = stored("stdin");
    assert!(bytes == lookup_cases::input());
    let text = String::from_utf8(stored("stdout")).unwrap();
    let mut lines = text.lines();
    let mut input = &bytes[..];
    let mut seen = Seen::default();
    loop {
        let length = u16::from_le_bytes(take(&mut input));
        if length == 0xFFFF {
            break;
        }
        let (sheet, rest) = input.split_at(usize::from(length));
        input = rest;
        let image = model::sheet::parse(sheet).map(|sheet| sheet.image);
        for _ in 0..u16::from_le_bytes(take(&mut input)) {
            let latitude = i32::from_le_bytes(take(&mut input));
            let column = u32::from_le_bytes(take(&mut input));
            let told = ask_sheet(sheet, latitude, column);
            assert_eq!(told, of_line(lines.next().unwrap()));
            if let Ok(image) = &image {
                assert_eq!(ask(image, latitude, column), told);
            }
            seen.count(told);
        }
    }
    while !input.is_empty() {
        let old = i32::from_le_bytes(take(&mut input));
        let new = i32::from_le_bytes(take(&mut input));
        assert_eq!(ask_change(old, new), of_line(lines.next().unwrap()));
    }
    assert_eq!(lines.next(), None);
    seen.assert_often(&[0, 4, 5, 12, 16, 17, 18, 19], 60);
}

// ---- the header

/// Each byte of sound headers, replaced by each of the 256, on page 1 and at
/// the end of its chain.
#[test]
fn every_byte_of_a_header() {
    let pages: Vec<u8> = (40..55).collect();
    let mut seen = Seen::default();
    for (rows, columns, edge, height) in [
        (1, 1, 0, 1),
        (6, 12, 600, 150),
        (15, 16, i16::MIN, u16::MAX),
    ] {
        let right = header_of(columns, edge, height, &pages[..rows]).bytes();
        for page in [1, 63] {
            let mut image = plug(&right);
            if page == 63 {
                put_page(&mut image, 63, &right);
                lead(&mut image, &[1, 9, 63]);
                // No header, and not asked.
                put_page(&mut image, 1, &[0; 32]);
            }
            let first = i32::from(edge);
            let latitudes = [first, first + i32::from(height), 0];
            for place in 0..32 {
                for byte in 0..=0xFF {
                    image[32 * page + place] = byte;
                    for latitude in latitudes {
                        for column in [0, u32::from(columns) - 1, columns.into()] {
                            seen.count(ask(&image, latitude, column));
                        }
                    }
                }
                image[32 * page + place] = right[place];
            }
        }
    }
    seen.assert_often(&[0, 16, 17, 18], 1000);
}

/// Each word of a header, replaced by each of the 65,536.
#[test]
fn every_word_of_a_header() {
    let right = header_of(3, -5, 10, &[2, 3]).bytes();
    let mut image = plug(&right);
    for place in [0, 2, 4, 6, 8] {
        for word in 0..=0xFFFFu16 {
            image[32 + place..34 + place].copy_from_slice(&word.to_le_bytes());
            let sound = match place {
                // Another count would not fit the two numbers.
                0 => word == 2,
                2 => (1..=16).contains(&word),
                4 => true,
                6 => word != 0,
                _ => word == 0,
            };
            assert_eq!(ask(&image, 0, 0) != refused(16), sound);
        }
        put_page(&mut image, 1, &right);
    }
}

/// Pages that are no header whatever they are asked.
#[test]
fn no_header_at_all() {
    let mut g = Generator::new(700);
    let mut pages = vec![[0xFF; 32], [0; 32]];
    pages.extend((0..3000).map(|_| g.bytes()));
    // More rows than there may be, each with its number.
    for rows in 16..=22 {
        let numbers: Vec<u8> = (0..rows).collect();
        pages.push(header_of(4, 0, 10, &numbers).bytes());
    }
    for page in pages {
        let image = plug(&page);
        for (latitude, column) in [(0, 0), (i32::MIN, u32::MAX), (i32::MAX, 16)] {
            assert_eq!(ask(&image, latitude, column), refused(16));
        }
    }
}

// ---- latitudes, columns, values

/// At each edge and beside it, at the ends of the type, and where sixteen bits
/// come round to a row.
#[test]
fn latitudes_at_edges() {
    let pages: Vec<u8> = (0..15).map(|row| 63 - 4 * row).collect();
    let mut round = Seen::default();
    for edge in [i16::MIN, -900, -1, 0, 255, i16::MAX] {
        for height in [1, 2, 150, 256, 0x8000, u16::MAX] {
            for rows in 1..=15 {
                let header = header_of(5, edge, height, &pages[..rows]);
                let image = plug(&header.bytes());
                let edges = (0..=rows).map(|row| header.lower_edge(row) as i32);
                let edges: Vec<i32> = edges.collect();
                for (row, &page) in pages[..rows].iter().enumerate() {
                    let there = Ok(value_on(page, 4));
                    assert_eq!(ask(&image, edges[row], 4), there);
                    assert_eq!(ask(&image, edges[row + 1] - 1, 4), there);
                    assert_eq!(ask(&image, edges[row], 5), refused(18));
                }
                let (first, last) = (edges[0], edges[rows]);
                for latitude in [i32::MIN, i32::MIN + 1, first - 2, first - 1]
                    .into_iter()
                    .chain([last, last + 1, i32::MAX - 1, i32::MAX])
                {
                    assert_eq!(ask(&image, latitude, 4), refused(17));
                    assert_eq!(ask(&image, latitude, u32::MAX), refused(17));
                }
                for latitude in [
                    first - 0x10000,
                    first + 0x10000,
                    last - 0x10001,
                    last + 0xFFFF,
                    first ^ i32::MIN,
                ] {
                    round.count(ask(&image, latitude, 4));
                }
            }
        }
    }
    // Rows that are high enough are there as well.
    round.assert_often(&[0, 17], 100);
}

/// Every latitude from well below the rows to well above them.
#[test]
fn every_latitude() {
    let image = plug(&header_of(1, -37, 23, &[5, 6, 7, 8]).bytes());
    for latitude in -70000..70000 {
        let told = ask(&image, latitude, 0);
        match (latitude + 37).div_euclid(23) {
            row @ 0..=3 => assert_eq!(told, Ok(value_on(5 + row as u8, 0))),
            _ => assert_eq!(told, refused(17)),
        }
    }
}

#[test]
fn columns() {
    for columns in 1..=16u32 {
        let image = plug(&header_of(columns as u16, 0, 10, &[2, 3]).bytes());
        for column in 0..columns {
            assert_eq!(ask(&image, 10, column), Ok(value_on(3, column)));
        }
        for column in (columns..300)
            .chain([0xFFFF, 0x10000, 0x10000 + columns - 1])
            .chain([i32::MAX as u32, 0x8000_0000, 0x8000_0000 + columns - 1])
            .chain([u32::MAX - 1, u32::MAX])
        {
            assert_eq!(ask(&image, 10, column), refused(18));
        }
    }
}

/// All 65,536 values in the first column and the last of a page, with none in
/// the other columns.
#[test]
fn every_value() {
    let mut image = plug(&header_of(16, 0, 1, &[63]).bytes());
    for column in [0, 15] {
        let none = std::array::from_fn(|place| [0xFF, 0x7F][place % 2]);
        put_page(&mut image, 63, &none);
        let place = 32 * 63 + 2 * column as usize;
        for value in i16::MIN..=i16::MAX {
            image[place..place + 2].copy_from_slice(&value.to_le_bytes());
            let there = (-1800..=1799).contains(&value);
            let expected = if there { Ok(value) } else { refused(19) };
            assert_eq!(ask(&image, 0, column), expected);
        }
        assert_eq!(ask(&image, 0, 7), refused(19));
    }
}

// ---- chains

/// The header and a row at the end of chains of every length, and chains with
/// no end.
#[test]
fn chains() {
    let header = header_of(4, 0, 1, &[0, 2]).bytes();
    for hops in 0..63u8 {
        let pages: Vec<u8> = (1..=1 + hops).collect();
        let last = 1 + hops;
        let mut image = plug(&[0xFF; 32]);
        lead(&mut image, &pages);
        put_page(&mut image, last, &header);
        assert_eq!(ask(&image, 0, 3), Ok(value_on(0, 3)));
        // Row 1 is page 2, which leads to the header if anything does.
        let second = if hops == 0 { value_on(2, 1) } else { 4 };
        assert_eq!(ask(&image, 1, 1), Ok(second));
        for (next, expected) in [
            (1, refused(4)),
            (last, refused(4)),
            (64, outside(64)),
            (200, outside(200)),
            (255, outside(255)),
        ] {
            lead(&mut image, &[last, next]);
            assert_eq!(ask(&image, 0, 3), expected);
            assert_eq!(ask(&image, i32::MIN, u32::MAX), expected);
        }

        let pages: Vec<u8> = [0].into_iter().chain(2..2 + hops).collect();
        let last = pages[usize::from(hops)];
        let mut image = plug(&header);
        lead(&mut image, &pages);
        assert_eq!(ask(&image, 0, 3), Ok(value_on(last, 3)));
        for (next, expected) in [
            // To the header, read as a row; its first word is 2.
            (1, Ok(2)),
            (64, outside(64)),
            (200, outside(200)),
            (255, outside(255)),
            // No byte leads to page 0.
            (last.max(1), if last == 0 { Ok(2) } else { refused(4) }),
        ] {
            lead(&mut image, &[last, next]);
            assert_eq!(ask(&image, 0, 0), expected);
            assert_eq!(ask(&image, 0, 4), refused(18));
            assert_eq!(ask(&image, 2, 0), refused(17));
        }
    }
}

/// Only the rows' own chains count, and of the status only redirection bytes.
#[test]
fn what_does_not_count() {
    let mut image = plug(&header_of(4, 0, 1, &[9, 8, 7]).bytes());
    lead(&mut image, &[9, 10, 9]);
    lead(&mut image, &[8, 99]);
    lead(&mut image, &[7, 30]);
    for fill in [0x00, 0x5A, 0xFF] {
        image[status(0x000)..status(0x100)].fill(fill);
        assert_eq!(ask(&image, 0, 0), refused(4));
        assert_eq!(ask(&image, 1, 0), outside(99));
        assert_eq!(ask(&image, 2, 0), Ok(value_on(30, 0)));
    }
}

// ---- drawn images

/// Images of all kinds, most of them with a drawn header where page 1's chain
/// ends and with values on many pages; their sheets too.
#[test]
fn drawn_images() {
    let mut g = Generator::new(701);
    let mut seen = Seen::default();
    let mut sheets = Seen::default();
    for _ in 0..4000 {
        let mut image = some_image(&mut g);
        for page in 0..64 {
            if g.bit() {
                let value = |_| (g.below(4000) as i16 - 2000).to_le_bytes();
                let bytes: Vec<u8> = (0..16).flat_map(value).collect();
                put_page(&mut image, page, &bytes.try_into().unwrap());
            }
        }
        let rows = g.below(16) as usize;
        let numbers: Vec<u8> = (0..rows).map(|_| g.below(64) as u8).collect();
        let edge = g.number() as i16 / 16;
        let height = g.below(200) as u16;
        if let Ok(model::walk::Verdict::Final(end)) = model::walk::walk(&image, 1) {
            let mut page = header_of(g.below(18) as u16, edge, height, &numbers).bytes();
            if g.once_in(12) {
                page[g.below(32) as usize] = g.byte();
            }
            if !g.once_in(12) {
                put_page(&mut image, end.page, &page);
            }
        }
        if g.bit() {
            blank_gaps(&mut image);
        }
        let sheet = sheet_write(&some_number(&mut g), &image).ok();
        for _ in 0..20 {
            let within = g.below(u64::from(height) * rows as u64 + 40) as i32 - 20;
            let latitude = match g.below(20) {
                0 => g.number() as i32,
                _ => i32::from(edge) + within,
            };
            let column = match g.below(20) {
                0 => g.number() as u32,
                _ => g.below(17) as u32,
            };
            let told = ask(&image, latitude, column);
            seen.count(told);
            if let Some(sheet) = &sheet {
                assert_eq!(ask_sheet(sheet, latitude, column), told);
                sheets.count(told);
            }
        }
    }
    assert_eq!(seen.0.values().sum::<usize>(), 80_000);
    seen.assert_often(&[0, 4, 5, 16, 17, 18, 19], 1000);
    sheets.assert_often(&[0, 4, 5, 16, 17, 18, 19], 500);
}

/// Each byte of a sheet damaged, in one bit and in all.
#[test]
fn damaged_sheets() {
    let mut g = Generator::new(702);
    let image = plug(&header_of(16, -100, 50, &[9, 8, 7]).bytes());
    let right = sheet_write(&some_number(&mut g), &image).unwrap();
    let mut faulty = 0;
    for place in 0..right.len() {
        for damage in [1 << g.below(8), 0xFF] {
            let mut sheet = right.clone();
            sheet[place] ^= damage;
            let mut again = Vec::new();
            for (latitude, column) in [(-100, 0), (-50, 15), (49, 3), (50, 16), (0, u32::MAX)] {
                again.push(ask_sheet(&sheet, latitude, column));
            }
            faulty += usize::from(again == [refused(12); 5]);
        }
    }
    // The sheet's header of 16 bytes and the gaps, each twice.
    assert_eq!(faulty, 2 * (16 + 320 - 24 - 64));
}

// ---- lengths

/// Images, sheets and answers of other lengths, with a good question and with
/// one for each refusal: 1 comes first, then 10, then 12, and nothing is
/// written.
#[test]
fn other_lengths() {
    let mut image = plug(&header_of(4, 0, 10, &[2, 3, 4, 5]).bytes());
    lead(&mut image, &[3, 3]);
    lead(&mut image, &[4, 200]);
    image[32 * 5..32 * 5 + 2].copy_from_slice(&[0xFF, 0x7F]);
    let sheet = sheet_write(&[7; 8], &image).unwrap();
    let mut faulty = image.clone();
    faulty[32] = 16;
    let faulty_sheet = sheet_write(&[7; 8], &faulty).unwrap();
    let mut seen = Seen::default();
    for (image, sheet) in [(image, sheet), (faulty, faulty_sheet)] {
        for (latitude, column) in [(0, 3), (10, 0), (20, 0), (30, 0), (40, 0), (0, 4)] {
            seen.count(ask(&image, latitude, column));
            seen.count(ask_sheet(&sheet, latitude, column));
            for length in (0..=80).chain([2040, 2048, 2367, 2369, 2392, 8704]) {
                let mut other = image.clone();
                other.resize(length, 0xFF);
                assert_eq!(ask(&other, latitude, column), refused(1));
            }
            for length in (0..=80).chain([2368, 2391, 2393, 8728]) {
                let mut other = sheet.clone();
                other.resize(length, 0xFF);
                assert_eq!(ask_sheet(&other, latitude, column), refused(12));
            }
            for length in (0..=15).chain(17..=40).chain([1000]) {
                let mark = vec![0xA5; length];
                let mut answer = mark.clone();
                for (bytes, first) in [(&image[..], 10), (&image[1..], 1), (&[], 1)] {
                    let code = calls::variation(bytes, latitude, column, &mut answer);
                    assert_eq!((code, &answer), (first, &mark));
                }
                for bytes in [&sheet[..], &sheet[1..], &[]] {
                    let code = calls::sheet_variation(bytes, latitude, column, &mut answer);
                    assert_eq!((code, &answer), (10, &mark));
                }
                for new in [0, 1800, i32::MAX] {
                    let code = calls::change(latitude, new, &mut answer);
                    assert_eq!((code, &answer), (10, &mark));
                }
            }
        }
    }
    seen.assert_often(&[0, 4, 5, 16, 17, 18, 19], 2);
}

// ---- changes

/// Every two values.
#[test]
fn every_change() {
    for old in -1800..=1799 {
        for new in -1800..=1799 {
            let mut answer = MARK;
            let code = calls::change(old, new, &mut answer);
            let expected = of_model(model::lookup::change(old, new));
            assert_eq!((code, answer), written(expected), "{old} {new}");
        }
    }
}

/// Around the ends of the range, of a turn and of the types, on either side or
/// on both.
#[test]
fn changes_at_ends() {
    let mut near = Vec::new();
    for end in [-3600, -1800, -900, 0, 900, 1800, 3600] {
        near.extend(end - 3..=end + 3);
    }
    for end in [0x7FFF, 0xFFFF, -0x8000, -0x10000, 0x10000 + 1000] {
        near.extend(end - 2..=end + 2);
    }
    for turns in [-596_522, -2, -1, 1, 2, 596_522] {
        near.extend([0, 1799, -1800].map(|value| 3600 * turns + value));
    }
    near.extend([i32::MIN, i32::MIN + 1, i32::MAX - 1, i32::MAX]);
    let in_range = |value: i32| (-1800..=1799).contains(&value);
    let mut seen = Seen::default();
    for &old in &near {
        for &new in &near {
            let told = ask_change(old, new);
            assert_eq!(told == refused(19), !(in_range(old) && in_range(new)));
        }
        for other in -2000..2000 {
            seen.count(ask_change(old, other));
            seen.count(ask_change(other, old));
        }
    }
    let mut g = Generator::new(703);
    for _ in 0..50_000 {
        seen.count(ask_change(g.number() as i32, g.number() as i32));
        seen.count(ask_change(g.number() as i32, g.below(3600) as i32 - 1800));
    }
    seen.assert_often(&[0, 19], 100_000);
}

#[test]
fn changes_by_hand() {
    for (old, new, expected) in [
        (0, 0, 0),
        (-123, -118, 5),
        (1799, -1800, 1),
        (-1800, 1799, -1),
        (0, -1800, -1800),
        (-1800, 0, -1800),
        (-900, 900, -1800),
        (900, -900, -1800),
        (-900, 899, 1799),
        (900, -901, 1799),
        (-1, 1799, -1800),
    ] {
        assert_eq!(ask_change(old, new), Ok(expected), "{old} {new}");
    }
    assert_eq!(ask_change(0, 0x7FFF), refused(19));
    assert_eq!(ask_change(0x7FFF, 0), refused(19));
    // -1 in sixteen bits, which a caller has not widened.
    assert_eq!(ask_change(0, 0xFFFF), refused(19));
}

// ---- after updates

const LATITUDES: [i32; 10] = [-21, -20, -11, -10, -1, 0, 9, 10, 19, 20];

/// All that a plug is asked around its rows and past its columns.
fn answers(ask: impl Fn(i32, u32) -> Told) -> Vec<Told> {
    let mut answers = Vec::new();
    for latitude in LATITUDES {
        answers.extend((0..=12).map(|column| ask(latitude, column)));
    }
    answers
}

fn image_answers(image: &[u8]) -> Vec<Told> {
    answers(|latitude, column| variation(image, latitude, column))
}

/// That the model tells the same, of the image and of its sheet.
fn assert_answers(image: &[u8], told: &[Told]) {
    let sheet = sheet_write(&[0; 8], image).unwrap();
    assert_eq!(
        answers(|latitude, column| ask(image, latitude, column)),
        told
    );
    assert_eq!(
        answers(|latitude, column| ask_sheet(&sheet, latitude, column)),
        told
    );
}

/// A plug of four rows, its pages marked used, the second row two hops away.
fn plug_to_update() -> Vec<u8> {
    let mut image = plug(&header_of(12, -20, 10, &[2, 3, 4, 5]).bytes());
    lead(&mut image, &[3, 9, 20]);
    for page in 0..64 {
        if page < 12 || page == 20 {
            clear_bit(&mut image, 0x040, usize::from(page));
        } else {
            put_page(&mut image, page, &[0xFF; 32]);
        }
    }
    image
}

/// A row of other values, with none in its fifth column.
fn new_row() -> [u8; 32] {
    let mut row: [u8; 32] = std::array::from_fn(|place| [7 * place as u8, 3][place % 2]);
    row[8..10].copy_from_slice(&[0xFF, 0x7F]);
    row
}

/// A row or the header superseded in each mode and cut after every event: the
/// old page's values before the visible event, the new one's from it on.
#[test]
fn updates_cut_after_every_event() {
    let row = new_row();
    let header = header_of(11, -10, 7, &[5, 4, 3]).bytes();
    let image = plug_to_update();
    let before = image_answers(&image);
    assert_answers(&image, &before);
    for (page, new, l) in [(2, row, 2), (3, row, 20), (1, header, 1)] {
        let pages = Published { l, t: 12 };
        // What it must be afterwards, without a publisher.
        let mut moved = image.clone();
        put_page(&mut moved, pages.t, &new);
        lead(&mut moved, &[pages.l, pages.t]);
        let after = image_answers(&moved);
        assert_answers(&moved, &after);
        assert_ne!(before, after);
        for mode in MODES {
            let visible = naming_pulse(mode) as u32;
            let all = all_events(mode) as u32;
            for cut in (0..=all + 2).chain([5000, u32::MAX]) {
                let mut left = image.clone();
                let told = update(&mut left, &[0; 8], &new, page, mode, cut);
                assert_eq!(told, Ok(pages));
                let now = image_answers(&left);
                let expected = if cut < visible { &before } else { &after };
                assert_eq!(now, *expected, "{mode:?}, page {page}, cut after {cut}");
                if cut.abs_diff(visible) < 12 || cut % 97 == 0 || cut >= all {
                    assert_answers(&left, &now);
                }
            }
        }
    }
}

/// The year's change of each column, from an image before an update of its row
/// and one after it.
#[test]
fn changes_of_an_update() {
    let image = plug_to_update();
    let row = new_row();
    for mode in MODES {
        let mut left = image.clone();
        update(&mut left, &[0; 8], &row, 2, mode, u32::MAX).unwrap();
        for column in 0..12 {
            let old = ask(&image, -20, column).unwrap();
            assert_eq!(old, value_on(2, column));
            let new = ask(&left, -20, column);
            if column == 4 {
                assert_eq!(new, refused(19));
                assert_eq!(ask_change(old.into(), 0x7FFF), refused(19));
            } else {
                let new = new.unwrap();
                assert_eq!(ask_change(old.into(), new.into()), Ok(new - old));
            }
        }
    }
}

/// A plug that is updated until no page is left, in both modes by turns: each
/// year's row is there at once.
#[test]
fn a_row_of_many_years() {
    let mut image = blank_image();
    put_page(&mut image, 1, &header_of(16, -100, 200, &[0]).bytes());
    for page in 0..2 {
        clear_bit(&mut image, 0x040, page);
    }
    put_page(&mut image, 0, &[0; 32]);
    for year in 1..=62i16 {
        let row = |column: i16| (30 * year - 5 * column).to_le_bytes();
        let new: Vec<u8> = (0..16).flat_map(row).collect();
        let mode = MODES[year as usize % 2];
        let told = update(&mut image, &[0; 8], &new, 0, mode, u32::MAX).unwrap();
        assert_eq!(told.t, year as u8 + 1);
        for column in 0..16 {
            let there = ask(&image, 99, column);
            match 30 * year - 5 * column as i16 {
                value @ -1800..=1799 => assert_eq!(there, Ok(value)),
                _ => assert_eq!(there, refused(19)),
            }
        }
        assert_eq!(ask(&image, 100, 0), refused(17));
    }
    let full = update(&mut image, &[0; 8], &[0; 32], 0, MODES[0], 1222);
    assert_eq!(full.unwrap_err().number, 8);
}
