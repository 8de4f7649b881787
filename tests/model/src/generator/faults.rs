//! Faults: what makes a study refused, number by number. Several may be laid over one draft.

use super::draft::{others_running, Draft};
use super::parents::{close_ring, give_twice};
use super::prices::HIGHEST;
use super::random::Random;
use super::sheet::{Sheet, LARGEST_FILE};
use crate::case::LONGEST_LIST;
use crate::csv::{Field, Record};
use crate::day::{Day, Running};
use crate::table::{Kind, Range, Schedule, Supply};

/// The refusals of a study, those most often that can come about in the most ways.
pub const NUMBERS: [u64; 32] = [
    1, 1, 2, 2, 3, 3, 3, 3, 4, 5, 6, 6, 7, 8, 9, 10, 20, 21, 22, 24, 32, 32, 33, 33, 33, 34, 34, 34, 35, 35,
    36, 36,
];

/// The refusals of the curves; 1 to 4 can be theirs as well.
const OF_CURVES: [u64; 10] = [1, 2, 3, 4, 32, 32, 33, 33, 34, 34];

/// The refusals around those of the curves in the order, and those of the curves themselves.
const AROUND_CURVES: [u64; 17] = [1, 1, 2, 2, 3, 3, 4, 5, 6, 7, 7, 8, 9, 32, 33, 34, 36];

/// None, one or two of several numbers.
pub fn make_faults(numbers: &[u64], random: &mut Random) -> Vec<u64> {
    let count = random.pick(&[0, 0, 0, 0, 0, 0, 1, 1, 1, 2, 2]);
    (0..count).map(|_| random.pick(numbers)).collect()
}

/// The faults of a study or a preview: at times one of the curves beside one around them in the order, to
/// see which of the two comes first.
pub fn make_study_faults(numbers: &[u64], random: &mut Random) -> Vec<u64> {
    if random.once_in(6) {
        return vec![random.pick(&OF_CURVES), random.pick(&AROUND_CURVES)];
    }
    make_faults(numbers, random)
}

/// Puts a fault into the rows or the day. The numbers 1 to 4 are faults of the text instead, and curves are
/// spoilt once the rows are.
pub fn spoil_draft(number: u64, draft: &mut Draft, random: &mut Random) {
    match number {
        5 => crowd(draft, random),
        6 if random.percent(40) => set_supply_at_odds(draft, random),
        6 => set_schedules_at_odds(draft, random),
        7 => add_stray(draft, random),
        8 => drop_schedules(draft, random),
        9 => drop_hours(draft, random),
        20 => draft.day.hour = Some(random.between(draft.constraint.hour, 23)),
        21 => take_cost_schedules(draft, random),
        22 => fill_day(draft, random),
        24 => spoil_day(&mut draft.day, random),
        35 => give_twice(draft, random),
        36 => close_ring(draft, random),
        _ => {}
    }
}

/// Puts a fault into the text of a file.
pub fn spoil_sheet(number: u64, sheet: &mut Sheet, random: &mut Random) {
    match number {
        2 => spoil_shape(sheet, random),
        3 => spoil_field(sheet, random),
        4 => spoil_row_count(sheet, random),
        _ => {}
    }
}

/// 5: units up to a 65th, or suppliers up to a 33rd.
fn crowd(draft: &mut Draft, random: &mut Random) {
    let by_supplier = random.percent(50);
    let mut supplier = random.between(1, 900);
    while draft.supply.len() < 256 && !crowded(&draft.supply, by_supplier) {
        let row = Supply {
            unit: draft.other_unit(random),
            supplier,
            mw: random.between(1, 1_000),
            cost: random.scaled(HIGHEST),
            dfax: random.pick(&[0, 1, -5_000, 10_000]),
        };
        draft.supply.push(row);
        if by_supplier {
            supplier += 1;
        }
    }
    if random.percent(50) {
        random.shuffle(&mut draft.supply);
    }
}

fn crowded(rows: &[Supply], by_supplier: bool) -> bool {
    let mut numbers: Vec<u64> =
        rows.iter().map(|row| if by_supplier { row.supplier } else { row.unit }).collect();
    numbers.sort();
    numbers.dedup();
    numbers.len() > if by_supplier { 32 } else { 64 }
}

/// 6 in supply: a unit's row with another supplier or dfax than an earlier one.
fn set_supply_at_odds(draft: &mut Draft, random: &mut Random) {
    if draft.supply.is_empty() {
        return;
    }
    let mut row = random.pick(&draft.supply);
    match random.between(0, 2) {
        0 => row.supplier = row.supplier % 999 + 1,
        1 => row.dfax = -row.dfax,
        _ => row.dfax = if row.dfax == 10_000 { 9_999 } else { row.dfax + 1 },
    }
    let place = random.index(draft.supply.len() + 1);
    draft.supply.insert(place, row);
}

/// 6 in schedules: a row that doesn't share, repeats an hour or adds a second M schedule.
fn set_schedules_at_odds(draft: &mut Draft, random: &mut Random) {
    if draft.schedules.is_empty() {
        return;
    }
    let mut row = random.pick(&draft.schedules);
    let other_hour = (row.hour + random.between(1, 23)) % 24;
    let other_kind = if row.kind == Kind::M { Kind::C } else { Kind::M };
    match random.between(0, 5) {
        0 => row = Schedule { kind: other_kind, hour: other_hour, ..row },
        1 => row = Schedule { startup: (row.startup + 1) % 100_000_001, hour: other_hour, ..row },
        2 => row = Schedule { minrun: row.minrun % 24 + 1, hour: other_hour, ..row },
        3 => row = Schedule { price: random.scaled(HIGHEST), ..row },
        4 => row = Schedule { kind: Kind::M, schedule: row.schedule % 99 + 1, ..row },
        _ => {}
    }
    if random.percent(20) {
        // Rows of a unit that isn't in supply take part as well.
        row.unit = draft.other_unit(random);
        let place = random.index(draft.schedules.len() + 1);
        draft.schedules.insert(place, row);
    }
    let place = random.index(draft.schedules.len() + 1);
    draft.schedules.insert(place, row);
}

/// 7: rows of a unit that isn't in supply.
fn add_stray(draft: &mut Draft, random: &mut Random) {
    let unit = draft.other_unit(random);
    for _ in 0..random.between(1, 2) {
        let row = Schedule {
            unit,
            schedule: random.between(1, 99),
            kind: random.pick(&[Kind::M, Kind::C]),
            hour: random.between(0, 23),
            ecomin: 1,
            price: 1,
            noload: 1,
            startup: 1,
            minrun: 1,
        };
        let place = random.index(draft.schedules.len() + 1);
        draft.schedules.insert(place, row);
    }
}

/// 8: a unit or two without a schedule.
fn drop_schedules(draft: &mut Draft, random: &mut Random) {
    let units = draft.units();
    if units.is_empty() {
        return;
    }
    let (one, two) = (random.pick(&units), random.pick(&units));
    draft.schedules.retain(|row| row.unit != one && row.unit != two);
}

/// 9: schedules without a needed hour.
fn drop_hours(draft: &mut Draft, random: &mut Random) {
    for _ in 0..random.between(1, 3) {
        drop_hour(draft, random);
    }
}

/// A schedule without a needed hour.
fn drop_hour(draft: &mut Draft, random: &mut Random) {
    if draft.schedules.is_empty() {
        return;
    }
    let row = random.pick(&draft.schedules);
    let same = |other: &Schedule| other.unit == row.unit && other.schedule == row.schedule;
    let h = draft.constraint.hour;
    let longer = row.minrun + random.between(1, 3);
    if h + longer - 1 <= 23 && longer <= 24 && random.percent(40) {
        draft.schedules.iter_mut().filter(|other| same(other)).for_each(|other| other.minrun = longer);
        return;
    }
    if draft.schedules.iter().filter(|other| same(other)).count() == 1 {
        let other_hour = (h + random.between(1, 23)) % 24;
        draft.schedules.iter_mut().filter(|other| same(other)).for_each(|other| other.hour = other_hour);
        return;
    }
    let needed = random.between(h, (h + row.minrun - 1).min(23));
    draft.schedules.retain(|other| !(same(other) && other.hour == needed));
}

/// 21: a unit that runs on cost and has only its M schedule.
fn take_cost_schedules(draft: &mut Draft, random: &mut Random) {
    let units = draft.units();
    if units.is_empty() {
        return;
    }
    for _ in 0..random.between(1, 2) {
        let unit = random.pick(&units);
        let of_unit = |row: &&Schedule| row.unit == unit;
        let m = draft.schedules.iter().filter(of_unit).find(|row| row.kind == Kind::M);
        let Some(kept) = m.or(draft.schedules.iter().find(of_unit)).map(|row| row.schedule) else { continue };
        draft.schedules.retain(|row| row.unit != unit || row.schedule == kept);
        draft.schedules.iter_mut().filter(|row| row.unit == unit).for_each(|row| row.kind = Kind::M);
        draft.day.running.retain(|running| running.unit != unit);
        draft.day.running.push(Running { unit, kind: Kind::C, schedule: kept });
        draft.day.running.sort_by_key(|running| running.unit);
        draft.day.running.truncate(Day::UNITS);
    }
}

/// 22: so many other units running that there is no room for those of the files, or only just.
fn fill_day(draft: &mut Draft, random: &mut Random) {
    let units = draft.units();
    let beyond = random.between(0, 3) as usize;
    let count = (Day::UNITS + beyond).saturating_sub(units.len()).min(Day::UNITS);
    draft.day.running.retain(|running| units.contains(&running.unit));
    let room = Day::UNITS - draft.day.running.len().min(Day::UNITS);
    draft.day.running.extend(others_running(count.min(room), &units, random));
    draft.day.running.sort_by_key(|running| running.unit);
}

/// 24: a day that is ill-formed in one way.
pub fn spoil_day(day: &mut Day, random: &mut Random) {
    if day.running.is_empty() {
        day.running.push(Running { unit: random.between(1, 9_999), kind: Kind::M, schedule: 1 });
    }
    let place = random.index(day.running.len());
    let huge = random.pick(&[100_000, u64::from(u32::MAX) + 2, u64::MAX - 9_999, u64::MAX]);
    match random.between(0, 8) {
        0 => day.hour = Some(random.pick(&[24, 25, 256, huge])),
        1 => day.running[place].unit = random.pick(&[0, 10_000, 65_537, huge]),
        2 => day.running[place].schedule = random.pick(&[0, 100, 257, huge]),
        3 => day.running.insert(place, day.running[place]),
        4 => day.running.push(day.running[0]),
        5 => {
            day.running = others_running(2, &[], random);
            day.running.sort_by_key(|running| std::cmp::Reverse(running.unit));
        }
        6 => {
            day.running = others_running(random.pick(&[65, 66, 128, 1_000]), &[], random);
            day.running.sort_by_key(|running| running.unit);
        }
        7 => day.running[place].unit = day.running[0].unit.wrapping_sub(1),
        _ => {
            // A 65th unit, and nothing else that is wrong.
            day.running = others_running(65, &[], random);
            day.running.sort_by_key(|running| running.unit);
            day.hour = Some(random.between(0, 23));
        }
    }
    day.running.truncate(LONGEST_LIST);
}

/// 2: another header, or a record with another field count.
fn spoil_shape(sheet: &mut Sheet, random: &mut Random) {
    let place = random.index(sheet.records.len());
    let record = &mut sheet.records[place];
    match random.between(0, 9) {
        0 => record.push(b"1".to_vec()),
        1 => drop(record.pop()),
        2 => record.push(Vec::new()),
        3 => sheet.records.push(vec![Vec::new()]),
        4 => sheet.records.insert(place, vec![Vec::new()]),
        5 => sheet.records = vec![vec![Vec::new()]],
        6 => drop(sheet.records.remove(0)),
        7 => spoil_header(&mut sheet.records[0], random),
        8 => sheet.records[0].reverse(),
        _ => sheet.records[0] = vec![sheet.records[0].join(&b',')],
    }
    if sheet.records.iter().any(Vec::is_empty) || sheet.records.is_empty() {
        sheet.records = vec![vec![Vec::new()]];
    }
}

/// A name in the header that is almost right.
fn spoil_header(header: &mut [Field], random: &mut Random) {
    let column = random.index(header.len());
    let name = &mut header[column];
    match random.between(0, 5) {
        0 => name.make_ascii_uppercase(),
        1 => name.push(b' '),
        2 => name.insert(0, b' '),
        3 => drop(name.pop()),
        4 => name.push(b'"'),
        _ => name.extend(b"\r\n"),
    }
}

/// 3: a field that is ill-formed or out of range.
fn spoil_field(sheet: &mut Sheet, random: &mut Random) {
    let Some(place) = sheet.some_row(random) else { return };
    let width = sheet.records[place].len().min(sheet.table.columns.len());
    let priced = sheet.table.priced_column().filter(|&column| column < width);
    if let Some(column) = priced.filter(|_| random.once_in(4)) {
        sheet.records[place][column] = (HIGHEST + 1).to_string().into_bytes();
        return;
    }
    let last = random.once_in(4);
    let column = if last { width - 1 } else { random.index(width) };
    let field = &mut sheet.records[place][column];
    *field = match sheet.table.columns[column].range {
        Range::Kind => {
            random.pick::<&[u8]>(&[b"m", b"c", b"X", b"MC", b"", b" M", b"M ", b"1", b"\"M\""]).to_vec()
        }
        Range::Numeral(min, max) if random.percent(60) => out_of_range(min, max, field, random),
        Range::Numeral(..) => ill_formed(field, random),
    };
}

/// A well-formed numeral outside the range, right beside it or one that wraps back into it.
fn out_of_range(min: i64, max: i64, field: &Field, random: &mut Random) -> Field {
    let value: i128 = String::from_utf8_lossy(field).parse().unwrap_or(1);
    let modulus: i128 = random.pick(&[1 << 8, 1 << 16, 1 << 31, 1 << 32, 1 << 63, 1 << 64, 1 << 64, 3 << 64]);
    let number = match random.between(0, 9) {
        0..=3 => i128::from(max) + 1,
        4..=5 => i128::from(min) - 1,
        6 => i128::from(max) * 10,
        7 => return b"9".repeat(random.between(7, 60) as usize),
        _ => value + modulus,
    };
    number.to_string().into_bytes()
}

/// The field in a form that no numeral has.
fn ill_formed(field: &Field, random: &mut Random) -> Field {
    let before: &[u8] =
        random.pick(&[b"0", b"+", b"-", b" ", b"-0", b"--", b"00", b"\"", b",", b"\r\n", b"x"]);
    let after: &[u8] = random.pick(&[b" ", b"x", b".0", b"e1", b"\"", b",", b"\n", b"-", b"_0"]);
    match random.between(0, 9) {
        0 => Field::new(),
        1 => b"-0".to_vec(),
        2 => [b"+", field.as_slice()].concat(),
        3 => [b"0", field.as_slice()].concat(),
        4..=6 => [field.as_slice(), after].concat(),
        _ => [before, field.as_slice()].concat(),
    }
}

/// 4: more rows than the table has room for, or none where there must be one.
fn spoil_row_count(sheet: &mut Sheet, random: &mut Random) {
    let most = *sheet.table.rows.end();
    if most == 1 && random.percent(50) {
        sheet.records.truncate(1);
        return;
    }
    let shortest = vec![b"1".to_vec(); sheet.table.columns.len()];
    let row = sheet.some_row(random).map_or(shortest.clone(), |place| sheet.records[place].clone());
    let missing = (most + random.pick(&[1, 1, 2])).saturating_sub(sheet.records.len() - 1);
    let length = |row: &Record| row.iter().map(|field| field.len() + 1).sum::<usize>() + 1;
    let taken: usize = sheet.records.iter().map(length).sum();
    let fits = taken + missing * length(&row) <= LARGEST_FILE;
    sheet.records.extend(vec![if fits { row } else { shortest }; missing]);
}

#[cfg(test)]
mod tests {
    use super::*;

    #[test]
    fn a_spoilt_day_can_still_be_written_as_a_case() {
        for index in 0..1_000 {
            let random = &mut Random::of(1, index);
            let mut day = Day::fresh();
            (0..3).for_each(|_| spoil_day(&mut day, random));
            assert!(day.running.len() <= LONGEST_LIST);
        }
    }
}
