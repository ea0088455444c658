//! Stored sheets with questions to be looked up in them, and pairs of values
//! whose change is asked for.

use crate::chip::WriteMode;
use crate::lookup::{change, change_line, line, sheet_value, Header};
use crate::memory::{blank_image, Page, DATA_LENGTH, PAGE_COUNT, PAGE_LENGTH};
use crate::publisher;
use crate::random::{any_image, used_image, Generator};
use crate::samples::{
    gaps_blank, put_page, redirect, row_of_values, stored, variation, variation_header,
    variation_row,
};
use crate::walk::{walk, Verdict};

/// What is asked of a sheet.
#[derive(Clone, Copy, Debug, PartialEq, Eq)]
pub struct Question {
    pub latitude: i32,
    pub column: u32,
}

/// A sheet and all that is asked of it.
#[derive(Clone, Debug, PartialEq, Eq)]
pub struct Case {
    pub sheet: Vec<u8>,
    pub questions: Vec<Question>,
}

/// Values at the ends of the range and just past them, and such as turn into
/// others when a byte or a sign of theirs is lost.
const VALUES: [i16; 20] = [
    -1801, -1800, -1799, 1798, 1799, 1800, 0x7FFF, 0x7FFE, -0x8000, -0x7FFF, -1, 0, 1, 0x7F, 0x80,
    0xFF, 0x100, -0x100, -0x80, -0xFF,
];

/// Bytes that stand where FFh should, or a page number.
const HOSTILE: [u8; 6] = [0xFE, 0x00, 0x7F, 0x05, 0xBF, 0x3F];

/// A header of so many rows, on pages 2 and on.
fn header(rows: u8, columns: u16, southern_edge: i16, row_height: u16) -> Header {
    Header {
        columns,
        southern_edge,
        row_height,
        pages: (2..2 + rows).filter_map(Page::new).collect(),
    }
}

fn drawn_value(generator: &mut Generator) -> i16 {
    match generator.below(10) {
        0 => generator.number() as i16,
        1 | 2 => VALUES[generator.below(20) as usize],
        _ => generator.below(3600) as i16 - 1800,
    }
}

/// Sixteen values on every page, whatever was there.
fn fill(image: &mut [u8], generator: &mut Generator) {
    for page in 0..PAGE_COUNT {
        let values: [i16; 16] = std::array::from_fn(|_| drawn_value(generator));
        put_page(image, page, &row_of_values(&values));
    }
}

/// A plug with this header on page 1 and values on all other pages.
fn plug(header: &[u8; PAGE_LENGTH], generator: &mut Generator) -> Vec<u8> {
    let mut image = blank_image();
    fill(&mut image, generator);
    put_page(&mut image, 1, header);
    image
}

/// A latitude within a row.
fn inside(header: &Header, row: usize, generator: &mut Generator) -> i32 {
    let above = generator.below(u64::from(header.row_height));
    (header.lower_edge(row) + above as i64) as i32
}

fn drawn_row(header: &Header, generator: &mut Generator) -> usize {
    generator.below(header.pages.len() as u64) as usize
}

fn drawn_column(header: &Header, generator: &mut Generator) -> u32 {
    generator.below(u64::from(header.columns)) as u32
}

/// At each edge, one below it and one above it, then far off: at the ends of
/// the type, and where 16 bits come round to an edge or to a row.
fn at_edges(header: &Header, generator: &mut Generator) -> Vec<Question> {
    let first = header.lower_edge(0) as i32;
    let within = inside(header, drawn_row(header, generator), generator);
    (0..=header.pages.len())
        .map(|row| header.lower_edge(row) as i32)
        .flat_map(|edge| [edge - 1, edge, edge + 1])
        .chain([i32::MIN, i32::MIN + 1, i32::MAX - 1, i32::MAX, 0])
        .chain([first - 0x10000, first + 0x10000])
        .chain([within - 0x10000, within + 0x10000, within ^ i32::MIN])
        .map(|latitude| Question {
            latitude,
            column: drawn_column(header, generator),
        })
        .collect()
}

/// Every column, then such as are too large, some of which have the low bits
/// of one that is not.
fn in_columns(header: &Header, latitude: i32) -> Vec<Question> {
    let columns = u32::from(header.columns);
    (0..columns)
        .chain([columns, columns + 1, 16, 17, 0xFF, 0x100, 0xFFFF, 0x10000])
        .chain([0x10000 + columns - 1, 0x8000_0000, u32::MAX - 1, u32::MAX])
        .map(|column| Question { latitude, column })
        .collect()
}

/// Every column of every row.
fn everywhere(header: &Header, generator: &mut Generator) -> Vec<Question> {
    let mut questions = Vec::new();
    for row in 0..header.pages.len() {
        let latitude = inside(header, row, generator);
        questions.extend((0..header.columns).map(|column| Question {
            latitude,
            column: u32::from(column),
        }));
    }
    questions
}

/// At all edges, in all columns, and with both wrong at once.
fn thorough(header: &Header, generator: &mut Generator) -> Vec<Question> {
    let mut questions = at_edges(header, generator);
    let latitude = inside(header, drawn_row(header, generator), generator);
    questions.extend(in_columns(header, latitude));
    questions.push(Question {
        latitude: header.lower_edge(0) as i32 - 1,
        column: u32::from(header.columns),
    });
    questions
}

/// For each row its lower edge, a drawn column and one too large.
fn row_by_row(header: &Header, generator: &mut Generator) -> Vec<Question> {
    let mut questions = Vec::new();
    for row in 0..header.pages.len() {
        let latitude = header.lower_edge(row) as i32;
        for column in [
            drawn_column(header, generator),
            u32::from(header.columns) - 1,
            u32::from(header.columns),
        ] {
            questions.push(Question { latitude, column });
        }
    }
    questions
}

/// What a sound header would answer: two values or none, 17 and 18.
fn few(header: &Header, generator: &mut Generator) -> Vec<Question> {
    let row = drawn_row(header, generator);
    vec![
        Question {
            latitude: inside(header, row, generator),
            column: drawn_column(header, generator),
        },
        Question {
            latitude: inside(header, 0, generator),
            column: 0,
        },
        Question {
            latitude: header.lower_edge(0) as i32 - 1,
            column: 0,
        },
        Question {
            latitude: inside(header, row, generator),
            column: u32::MAX,
        },
    ]
}

/// A plug with this first page. A sound header is asked for its own rows, a
/// faulty one where the header meant would have answered.
fn with_first_page(page: &[u8; PAGE_LENGTH], meant: &Header, generator: &mut Generator) -> Case {
    let image = plug(page, generator);
    let questions = match Header::read(page) {
        Some(header) => row_by_row(&header, generator),
        None => few(meant, generator),
    };
    Case {
        sheet: stored(&image),
        questions,
    }
}

/// A header with one byte replaced, for each of these places and bytes.
fn replaced(meant: &Header, bytes: &[(usize, u8)], generator: &mut Generator) -> Vec<Case> {
    let mut cases = Vec::new();
    for &(place, byte) in bytes {
        let mut page = meant.bytes();
        page[place] = byte;
        cases.push(with_first_page(&page, meant, generator));
    }
    cases
}

/// The bytes of counts, edge and height, each replaced: some are legal still.
fn fields(generator: &mut Generator) -> Vec<Case> {
    let bytes = [
        (0, &[0, 1, 14, 16, 23, 0xFF][..]),
        (1, &[1, 0x80, 0xFF]),
        (2, &[0, 1, 16, 17, 0x20, 0xFF]),
        (3, &[1, 0x80, 0xFF]),
        (4, &[0x7F, 0x80]),
        (5, &[0, 0x7F, 0x80]),
        (6, &[0, 1, 0x80, 0xFF]),
        (7, &[1, 0x80, 0xFF]),
        (8, &[1, 0x80, 0xFF]),
        (9, &[1, 0x80, 0xFF]),
    ];
    let bytes: Vec<(usize, u8)> = bytes
        .into_iter()
        .flat_map(|(place, values)| values.iter().map(move |&value| (place, value)))
        .collect();
    replaced(&header(15, 12, -300, 40), &bytes, generator)
}

/// A number above 63 for each of fifteen rows, and the highest page for the
/// first and the last.
fn numbers_too_high(generator: &mut Generator) -> Vec<Case> {
    let high = [0x40, 0xFF, 0x80, 0x41, 0xC0];
    let mut bytes: Vec<(usize, u8)> = (0..15).map(|row| (10 + row, high[row % 5])).collect();
    bytes.extend([(10, 63), (24, 63), (24, 0)]);
    replaced(&header(15, 16, -700, 100), &bytes, generator)
}

/// Another byte than FFh at each place after the numbers, of one row and of
/// fifteen.
fn tails(generator: &mut Generator) -> Vec<Case> {
    let mut cases = Vec::new();
    for rows in [1, 15] {
        let bytes: Vec<(usize, u8)> = (10 + usize::from(rows)..PAGE_LENGTH)
            .map(|place| (place, HOSTILE[place % 6]))
            .collect();
        cases.extend(replaced(&header(rows, 9, 0, 250), &bytes, generator));
    }
    cases
}

/// Counts that fit their numbers but not the paper, and the other way round.
fn counts(generator: &mut Generator) -> Vec<Case> {
    let meant = header(15, 10, 100, 30);
    let mut pages = vec![[0xFF; PAGE_LENGTH], [0; PAGE_LENGTH]];
    // No row, or more than fifteen, each with its number; 22 fill the page.
    for rows in [0, 16, 21, 22] {
        pages.push(header(rows, 10, 100, 30).bytes());
    }
    // A row more than there are numbers, and a row fewer.
    let mut too_few = header(3, 10, 100, 30).bytes();
    too_few[0] = 4;
    pages.push(too_few);
    let mut too_many = header(3, 10, 100, 30).bytes();
    too_many[0] = 2;
    pages.push(too_many);
    // The tail all zero.
    let mut zero = header(3, 10, 100, 30).bytes();
    zero[13..].fill(0);
    pages.push(zero);
    // Counts with the high byte first.
    let mut turned = header(3, 10, 100, 30).bytes();
    turned[..8]
        .chunks_exact_mut(2)
        .for_each(|word| word.swap(0, 1));
    pages.push(turned);
    pages
        .iter()
        .map(|page| with_first_page(page, &meant, generator))
        .collect()
}

/// Sound headers at the ends of what the paper allows.
fn extremes(generator: &mut Generator) -> Vec<Case> {
    [
        header(15, 16, i16::MIN, u16::MAX),
        header(15, 16, i16::MAX, u16::MAX),
        header(1, 1, i16::MIN, 1),
        header(1, 16, i16::MAX, 1),
        header(15, 1, -7, 1),
        header(1, 16, 0, u16::MAX),
        header(2, 2, -0x8000, 0x8000),
        header(15, 15, -1, 0x100),
        header(12, 8, -900, 150),
        header(9, 16, -900, 200),
    ]
    .iter()
    .map(|header| Case {
        sheet: stored(&plug(&header.bytes(), generator)),
        questions: thorough(header, generator),
    })
    .collect()
}

/// Redirection bytes by which each page of the list leads to the next.
fn lead(image: &mut [u8], pages: &[u8]) {
    for pair in pages.windows(2) {
        redirect(image, usize::from(pair[0]), 255 - pair[1]);
    }
}

/// Chains to the header, of several lengths, with the header's row for page 0.
/// Page 1 has a header of its own, which no longer counts. In the longest
/// chains most rows, or all, lead to the header, which is then read as a row.
fn header_chains(generator: &mut Generator) -> Vec<Case> {
    let old = header(4, 16, 0, 10).bytes();
    let every_page: Vec<u8> = (0..=63).collect();
    let mut cases = Vec::new();
    for chain in [&[1, 40][..], &[1, 63, 9, 30], &every_page[1..], &every_page] {
        let mut header = header(6, 12, 0, 90);
        header.pages[3] = Page::new(0).expect("it is a page");
        let mut image = plug(&old, generator);
        put_page(&mut image, chain[chain.len() - 1].into(), &header.bytes());
        lead(&mut image, chain);
        let mut questions = thorough(&header, generator);
        questions.extend(row_by_row(&header, generator));
        cases.push(Case {
            sheet: stored(&image),
            questions,
        });
    }
    cases
}

/// Chains from page 1 that never end or lead outside. The header on page 1
/// would be a sound one, and in one case is faulty too.
fn no_header(generator: &mut Generator) -> Vec<Case> {
    let header = header(6, 12, 0, 90);
    let longest: Vec<u8> = (1..=63).collect();
    let mut cases = Vec::new();
    for (chain, last) in [
        (&[1][..], 1),
        (&[1, 33], 1),
        (&[1, 33, 34], 33),
        (&longest, 1),
        (&longest, 63),
        (&[1], 64),
        (&[1], 255),
        (&[1, 33, 34], 200),
        (&longest, 64),
    ] {
        let mut image = plug(&header.bytes(), generator);
        lead(&mut image, &[chain, &[last]].concat());
        cases.push(Case {
            sheet: stored(&image),
            questions: few(&header, generator),
        });
    }
    let mut image = blank_image();
    lead(&mut image, &[1, 1]);
    cases.push(Case {
        sheet: stored(&image),
        questions: few(&header, generator),
    });
    cases
}

/// A plug whose rows go each another way: to their own page, over hops, into
/// loops, outside, and to the page of the header.
fn row_chains(generator: &mut Generator) -> Case {
    let header = header(12, 11, -500, 70);
    let mut image = plug(&header.bytes(), generator);
    let long: Vec<u8> = [3].into_iter().chain(20..=63).collect();
    for chain in [
        &[2, 14][..],
        &long,
        &[4, 4],
        &[5, 15, 16, 15],
        &[6, 4],
        &[7, 64],
        &[8, 17, 18, 200],
        &[9, 255],
        &[10, 1],
        &[11, 10],
    ] {
        lead(&mut image, chain);
    }
    let mut questions = everywhere(&header, generator);
    questions.extend(row_by_row(&header, generator));
    questions.extend(thorough(&header, generator));
    Case {
        sheet: stored(&image),
        questions,
    }
}

/// A plug in use, with a drawn header where page 1's chain ends, or with none
/// where it does not.
fn drawn(generator: &mut Generator) -> Case {
    let mut image = gaps_blank(used_image(generator));
    fill(&mut image, generator);
    let header = Header {
        columns: 1 + generator.below(16) as u16,
        southern_edge: generator.below(1800) as i16 - 900,
        row_height: 1 + generator.below(120) as u16,
        pages: (0..1 + generator.below(15))
            .filter_map(|_| Page::new(generator.below(64) as u8))
            .collect(),
    };
    if let Ok(Verdict::Final(reached)) = walk(&image, 1) {
        put_page(&mut image, reached.page.into(), &header.bytes());
    }
    let mut questions = thorough(&header, generator);
    questions.extend(row_by_row(&header, generator));
    Case {
        sheet: stored(&image),
        questions,
    }
}

/// Every row and every column of plugs with all kinds of values.
fn values(generator: &mut Generator) -> Vec<Case> {
    let header = header(15, 16, -750, 100);
    let mut cases = Vec::new();
    let drawn = plug(&header.bytes(), generator);
    let mut listed = drawn.clone();
    for row in 0..15 {
        let row_values: [i16; 16] = std::array::from_fn(|c| VALUES[(16 * row + c) % 20]);
        put_page(&mut listed, row + 2, &row_of_values(&row_values));
    }
    for image in [drawn, listed] {
        cases.push(Case {
            sheet: stored(&image),
            questions: everywhere(&header, generator),
        });
    }
    cases
}

/// Images of any bytes, and plugs in use that were never given a header.
fn any_bytes(generator: &mut Generator) -> Vec<Case> {
    let mut cases = Vec::new();
    for _ in 0..3 {
        for image in [any_image(generator), used_image(generator)] {
            cases.push(Case {
                sheet: stored(&gaps_blank(image)),
                questions: few(&header(6, 12, 0, 90), generator),
            });
        }
    }
    cases
}

/// A faulty sheet of each kind, made of the shipped one, which would answer,
/// and of one with a loop on page 1.
fn faulty_sheets(generator: &mut Generator) -> Vec<Case> {
    let right = stored(&variation());
    let mut sheets: Vec<Vec<u8>> = [0, 1, 2, 15, 16, 23, 24, 56, 88, 600, 2391]
        .into_iter()
        .map(|length| right[..length].to_vec())
        .collect();
    for length in [2393, 4000] {
        let mut long = right.clone();
        long.resize(length, 0xFF);
        sheets.push(long);
    }
    let status = 24 + DATA_LENGTH;
    for place in [0, 1, 8, 15, status + 0x008, status + 0x03F, status + 0x0FF] {
        let mut sheet = right.clone();
        sheet[place] ^= 0x10;
        sheets.push(sheet);
    }
    let mut looped = variation();
    lead(&mut looped, &[1, 1]);
    let mut looped = stored(&looped);
    looped[9] = 0;
    sheets.push(looped);
    // The registration number may be anything.
    let mut other_number = right;
    other_number[16..24].fill(0);
    sheets.push(other_number);
    sheets
        .into_iter()
        .map(|sheet| Case {
            sheet,
            questions: few(&variation_header(), generator),
        })
        .collect()
}

/// The shipped plug, everywhere.
fn shipped(generator: &mut Generator) -> Case {
    let header = variation_header();
    let mut questions = everywhere(&header, generator);
    questions.extend(thorough(&header, generator));
    Case {
        sheet: stored(&variation()),
        questions,
    }
}

/// The shipped plug after updates of a row that were cut around the visible
/// event and elsewhere, and after a whole update of its header.
fn after_updates(generator: &mut Generator) -> Vec<Case> {
    let header = variation_header();
    let image = variation();
    let mut left = Vec::new();
    for (mode, cuts) in [
        (WriteMode::Ordinary, [700, 1212, 1213]),
        (WriteMode::Quick, [400, 668, 669]),
    ] {
        for cut in cuts {
            left.push(publisher::update(
                &image,
                &variation_row(3, 9),
                5,
                mode,
                Some(cut),
            ));
        }
    }
    let mut turned = header.clone();
    turned.pages.reverse();
    turned.southern_edge = 590;
    left.push(publisher::update(
        &image,
        &turned.bytes(),
        1,
        WriteMode::Quick,
        None,
    ));
    left.into_iter()
        .map(|run| Case {
            sheet: stored(&run.expect("there is a free page").image),
            questions: [
                row_by_row(&header, generator),
                in_columns(&header, inside(&header, 3, generator)),
            ]
            .concat(),
        })
        .collect()
}

/// All sheets, each with its questions.
pub fn cases() -> Vec<Case> {
    let generator = &mut Generator::new(102);
    let mut cases = vec![shipped(generator), row_chains(generator)];
    cases.extend(fields(generator));
    cases.extend(numbers_too_high(generator));
    cases.extend(tails(generator));
    cases.extend(counts(generator));
    cases.extend(extremes(generator));
    cases.extend(header_chains(generator));
    cases.extend(no_header(generator));
    cases.extend(values(generator));
    cases.extend(any_bytes(generator));
    cases.extend(faulty_sheets(generator));
    cases.extend(after_updates(generator));
    cases.extend((0..30).map(|_| drawn(generator)));
    cases
}

/// Pairs of an old value and a new one: all of a list around the ends of the
/// range, of a turn and of the types, then drawn ones.
pub fn pairs() -> Vec<[i32; 2]> {
    let near = [
        i32::MIN,
        i32::MIN + 1,
        -0x10000,
        -0x8000,
        -3600,
        -1801,
        -1800,
        -1799,
        -901,
        -900,
        -1,
        0,
        1,
        899,
        900,
        1798,
        1799,
        1800,
        3599,
        3600,
        0x7FFE,
        0x7FFF,
        0xFFFF,
        i32::MAX,
    ];
    let mut pairs: Vec<[i32; 2]> = near
        .into_iter()
        .flat_map(|old| near.map(|new| [old, new]))
        .collect();
    let mut generator = Generator::new(3600);
    for round in 0..600 {
        // One pair in twelve is drawn from a little more than the range.
        let width = if round % 12 == 0 { 4000 } else { 3600 };
        let mut drawn = || generator.below(width) as i32 - width as i32 / 2;
        pairs.push([drawn(), drawn()]);
    }
    pairs
}

/// The cases as the program reads them: each sheet after its length, then how
/// many questions there are, and these; FFFFh; the pairs. All numbers low byte
/// first.
pub fn input() -> Vec<u8> {
    let mut bytes = Vec::new();
    for case in cases() {
        bytes.extend((case.sheet.len() as u16).to_le_bytes());
        bytes.extend(&case.sheet);
        bytes.extend((case.questions.len() as u16).to_le_bytes());
        for question in &case.questions {
            bytes.extend(question.latitude.to_le_bytes());
            bytes.extend(question.column.to_le_bytes());
        }
    }
    bytes.extend([0xFF; 2]);
    bytes.extend(pairs().into_iter().flatten().flat_map(i32::to_le_bytes));
    bytes
}

/// What the program must write: a line for each question, then one for each
/// pair.
pub fn output() -> String {
    let mut text = String::new();
    for case in cases() {
        for question in &case.questions {
            let answer = sheet_value(&case.sheet, question.latitude, question.column);
            text += &line(answer);
        }
    }
    for [old, new] in pairs() {
        text += &change_line(change(old, new));
    }
    text
}
