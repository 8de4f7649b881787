//! Files to be handed back tidy: one file of a draft, quoted in some way, with the faults that a file can
//! have alone, and a buffer around the length of the tidy file.

use super::draft::Draft;
use super::faults::{make_faults, spoil_draft, spoil_sheet};
use super::random::Random;
use super::sheet::{damage, disturb, drop_last_end, Sheet};
use crate::case::{Case, LONGEST_TIDY_BUFFER};
use crate::table::SUPPLY;
use crate::tidy::{tidy, FileKind};

/// The faults of a file: the refusals that it can have alone, those most often that can come about in the
/// most ways. Schedules have 7 and 9 too, which nobody can tell without the other files.
fn numbers(kind: FileKind) -> &'static [u64] {
    match kind {
        FileKind::Constraint => &[1, 2, 3, 4],
        FileKind::Supply => &[1, 2, 3, 3, 4, 5, 6, 6, 6],
        FileKind::Schedules => &[1, 2, 3, 3, 4, 6, 6, 6, 6, 7, 9],
    }
}

/// A file to be handed back tidy: many without a fault, some with one, some with two, and now and then a
/// file that isn't the one it is given for.
pub fn make_tidy(random: &mut Random) -> Case {
    let made = random.pick(&[
        FileKind::Constraint,
        FileKind::Supply,
        FileKind::Supply,
        FileKind::Schedules,
        FileKind::Schedules,
    ]);
    let file = if random.once_in(20) { make_stub(made, random) } else { make_file(made, random) };
    let kind = if random.once_in(50) { random.pick(&FileKind::ALL) } else { made };
    let buffer = make_buffer(kind, &file, random);
    Case::Tidy { kind, file, buffer }
}

/// A file with a header or less.
fn make_stub(kind: FileKind, random: &mut Random) -> Vec<u8> {
    let header = if random.percent(50) { kind.table().header().join(&b',') } else { Vec::new() };
    let end: &[u8] = random.pick(&[b"", b"", b"\r\n", b"\r\n", b"\r\n\r\n", b"\"\"", b",", b"\r"]);
    [&header, end].concat()
}

/// A file with faults in it.
fn make_file(kind: FileKind, random: &mut Random) -> Vec<u8> {
    let faults = make_faults(numbers(kind), random);
    let mut draft = make_draft(random);
    for &number in &faults {
        spoil_draft(number, &mut draft, random);
    }
    let mut sheet = match kind {
        FileKind::Constraint => Sheet::constraint(&draft.constraint),
        FileKind::Supply => Sheet::supply(&draft.supply),
        FileKind::Schedules => Sheet::schedules(&draft.schedules),
    };
    for &number in &faults {
        spoil_sheet(number, &mut sheet, random);
    }
    let mut file = write(&sheet, random);
    if faults.contains(&1) {
        damage(&mut file, random);
    }
    if random.once_in(40) {
        disturb(&mut file, random);
    }
    file
}

/// A draft of some size, sometimes at every limit, sometimes without rows, and often with a supply row
/// that is there twice.
fn make_draft(random: &mut Random) -> Draft {
    if random.once_in(40) {
        return Draft::make_brimming(random);
    }
    let mut draft = Draft::make(random);
    if random.once_in(20) {
        draft.supply.clear();
        draft.schedules.clear();
    }
    if (1..*SUPPLY.rows.end()).contains(&draft.supply.len()) && random.percent(25) {
        let row = random.pick(&draft.supply);
        let place = random.index(draft.supply.len() + 1);
        draft.supply.insert(place, row);
    }
    draft
}

/// The bytes, with quotes around the fields of the header alone, of the rows alone, or in some other way.
fn write(sheet: &Sheet, random: &mut Random) -> Vec<u8> {
    let names = sheet.table.columns.len();
    let mut file = match random.between(0, 9) {
        0 => sheet.join(|field| field < names),
        1 => sheet.join(|field| field >= names),
        _ => return sheet.write(random),
    };
    drop_last_end(&mut file, random);
    file
}

/// A buffer's length: right at the tidy file's own, ample, or short. For a refused file, its own length
/// is as good as any, and many a buffer would be too short for it as well.
fn make_buffer(kind: FileKind, file: &[u8], random: &mut Random) -> u64 {
    let mut ample = vec![0; LONGEST_TIDY_BUFFER as usize];
    let fitting = tidy(kind, file, &mut ample).unwrap_or(file.len()) as u64;
    let length = match random.between(0, 19) {
        0..=7 => fitting,
        8..=11 => fitting.saturating_sub(1),
        12 => fitting + 1,
        13 => fitting + random.between(2, 50),
        14 => 0,
        15 => random.pick(&[1, 20, 27, 28, 59, 60]),
        16 => fitting / 2,
        17 => random.between(0, fitting),
        18 => random.between(0, LONGEST_TIDY_BUFFER),
        _ => LONGEST_TIDY_BUFFER,
    };
    length.min(LONGEST_TIDY_BUFFER)
}
