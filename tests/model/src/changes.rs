//! Answers with one thing changed: a byte, a field, a row, or one claim throughout. A judge of the
//! true answer has to reject every one of them.

use std::collections::BTreeSet;
use std::ops::Range;

use crate::judge::Judge;

/// Columns of the answer file.
const SUPPLIER: usize = 1;
const VERDICT: usize = 2;
const LEFT: usize = 3;
const SCHEDULE: usize = 4;
const COST: usize = 6;

/// Where the fields of a row stand in the answer.
type Row = Vec<Range<usize>>;

/// Every changed answer, none of them equal to the true one.
pub fn changed(answer: &[u8], judge: &Judge) -> Vec<Vec<u8>> {
    let rows = rows(answer);
    let mut changes = bytes_changed(answer);
    for (index, row) in rows.iter().enumerate() {
        changes.extend(fields_changed(answer, row, index, judge));
        changes.extend(choices_changed(answer, row, index, judge));
    }
    changes.extend(records_changed(answer));
    changes.extend(verdicts_changed(answer, &rows));
    changes.retain(|change| change != answer);
    changes
}

/// Each byte changed or left out, and one byte more at the end.
fn bytes_changed(answer: &[u8]) -> Vec<Vec<u8>> {
    let mut changes = Vec::new();
    for (place, &byte) in answer.iter().enumerate() {
        let at = place..place + 1;
        changes.push(with(answer, at.clone(), &[byte ^ 1]));
        changes.push(with(answer, at, &[]));
    }
    let end = answer.len()..answer.len();
    changes.extend([b"\0", b"0", b"\n"].map(|byte| with(answer, end.clone(), byte)));
    changes
}

/// Each field of a row as others near it, as others elsewhere, and in another form.
fn fields_changed(answer: &[u8], row: &Row, index: usize, judge: &Judge) -> Vec<Vec<u8>> {
    let mut changes = Vec::new();
    for (column, at) in row.iter().enumerate() {
        let field = &answer[at.clone()];
        let mut others = other_forms(field);
        others.extend(neighbours(field));
        others.extend(elsewhere(column, index, judge).iter().map(|number| number.to_string().into_bytes()));
        changes.extend(others.iter().map(|other| with(answer, at.clone(), other)));
    }
    changes
}

/// The field's value in a form that isn't the layout's, and no value at all.
fn other_forms(field: &[u8]) -> BTreeSet<Vec<u8>> {
    let quoted = [b"\"", field, b"\""].concat();
    let spaced = [b" ", field].concat();
    let padded = [b"0", field].concat();
    let signed = [b"+", field].concat();
    BTreeSet::from([quoted, spaced, padded, signed, Vec::new(), field.to_ascii_lowercase()])
}

/// The numbers next to a number, and one that is the same to whoever lets numerals wrap; the other
/// letters for a letter.
fn neighbours(field: &[u8]) -> Vec<Vec<u8>> {
    let number: Option<u128> = std::str::from_utf8(field).ok().and_then(|text| text.parse().ok());
    match number {
        Some(number) => [number + 1, number.saturating_sub(1), 0, number * 10, number + (1 << 64)]
            .map(|number| number.to_string().into_bytes())
            .to_vec(),
        None => [b"U", b"P", b"F", b"M", b"C"].map(|letter| letter.to_vec()).to_vec(),
    }
}

/// Numbers that would be true of another member of the group, another removal, another schedule, another
/// price or another offer.
fn elsewhere(column: usize, index: usize, judge: &Judge) -> BTreeSet<u64> {
    match column {
        SUPPLIER => judge.group(index).clone(),
        LEFT => judge.removals(index).into_iter().collect(),
        SCHEDULE => judge.schedules(index).iter().map(|schedule| schedule.number).collect(),
        COST => judge.schedules(index).iter().map(|schedule| schedule.cost).collect(),
        _ => BTreeSet::new(),
    }
}

/// A row with another schedule of its unit, under its own kind and cost.
fn choices_changed(answer: &[u8], row: &Row, index: usize, judge: &Judge) -> Vec<Vec<u8>> {
    let at = row[SCHEDULE].start..row[COST].end;
    let choices = judge.schedules(index).into_iter();
    let texts = choices.map(|other| format!("{},{},{}", other.number, other.kind.letter(), other.cost));
    texts.map(|text| with(answer, at.clone(), text.as_bytes())).collect()
}

/// Each record left out, doubled, blank or in another's place, the header among them, and the answer
/// cut short there.
fn records_changed(answer: &[u8]) -> Vec<Vec<u8>> {
    let records: Vec<&[u8]> = answer.split_inclusive(|&byte| byte == b'\n').collect();
    let mut changes = Vec::new();
    for (place, record) in records.iter().enumerate() {
        let (before, after) = (&records[..place], &records[place + 1..]);
        changes.push(before.concat());
        changes.push([before, after].concat().concat());
        changes.push([before, &[record, record], after].concat().concat());
        changes.push([before, &[b"\r\n"], after].concat().concat());
        for other in 0..place {
            let mut swapped = records.clone();
            swapped.swap(place, other);
            changes.push(swapped.concat());
        }
    }
    changes
}

/// One verdict for every row, with the amounts left as they are and with 0.
fn verdicts_changed(answer: &[u8], rows: &[Row]) -> Vec<Vec<u8>> {
    let mut changes = Vec::new();
    for letter in [b"U", b"P", b"F"] {
        let mut claimed = answer.to_vec();
        rows.iter().for_each(|row| claimed[row[VERDICT].start] = letter[0]);
        let nothing_left =
            rows.iter().rev().fold(claimed.clone(), |bytes, row| with(&bytes, row[LEFT].clone(), b"0"));
        changes.extend([claimed, nothing_left]);
    }
    changes
}

/// The answer with other bytes in a place.
fn with(answer: &[u8], at: Range<usize>, bytes: &[u8]) -> Vec<u8> {
    [&answer[..at.start], bytes, &answer[at.end..]].concat()
}

/// The rows of an answer in the fixed layout, without its header.
fn rows(answer: &[u8]) -> Vec<Row> {
    let mut rows = Vec::new();
    let mut start = 0;
    for record in answer.split_inclusive(|&byte| byte == b'\n') {
        let mut row = Row::new();
        for field in record[..record.len() - 2].split(|&byte| byte == b',') {
            row.push(start..start + field.len());
            start += field.len() + 1;
        }
        start += 1;
        rows.push(row);
    }
    rows.split_off(1)
}

#[cfg(test)]
mod tests {
    use super::*;
    use crate::answer::LONGEST;
    use crate::day::Day;
    use crate::study::tests::Bytes;

    #[test]
    fn every_change_of_the_starred_answer_is_rejected() {
        let (parents, curves) = (&["1,2", "4,900"], &["11,2,5,100,2000", "12,1,5,100,4000"]);
        let with_all = Bytes::starred().with_curves(curves).with_parents(parents);
        for bytes in [Bytes::starred(), Bytes::starred().with_parents(parents), with_all] {
            let mut buffer = [0; LONGEST];
            let length = Day::fresh().study(&bytes.files(), &mut buffer).1.unwrap();
            let judge = Judge::of(&bytes.files(), &Day::fresh()).unwrap();
            assert_eq!(judge.weigh(&buffer[..length]), Ok(()));
            let changes = changed(&buffer[..length], &judge);
            assert!(changes.len() > 500, "{}", changes.len());
            for change in changes {
                assert!(judge.weigh(&change).is_err(), "{}", String::from_utf8_lossy(&change));
            }
        }
    }

    #[test]
    fn the_head_and_the_amount_without_groups_are_among_the_changes() {
        let bytes = Bytes::starred().with_parents(&["1,2", "4,900"]);
        let mut buffer = [0; LONGEST];
        let length = Day::fresh().study(&bytes.files(), &mut buffer).1.unwrap();
        let judge = Judge::of(&bytes.files(), &Day::fresh()).unwrap();
        let changes = changed(&buffer[..length], &judge);
        for row in ["\r\n14,900,F,0,1,M,500000\r\n", "\r\n14,4,F,5000000,1,M,500000\r\n"] {
            assert!(changes.iter().any(|change| change.ends_with(row.as_bytes())), "{row}");
        }
    }

    #[test]
    fn the_cost_by_the_price_column_is_among_the_changes() {
        let bytes = Bytes::starred().with_curves(&["11,2,5,100,2000"]);
        let judge = Judge::of(&bytes.files(), &Day::fresh()).unwrap();
        let changes = changed(b"header\r\n11,1,F,0,2,C,920000\r\n", &judge);
        assert!(changes.iter().any(|change| change == b"header\r\n11,1,F,0,2,C,1030000\r\n"));
    }

    #[test]
    fn the_cost_with_the_ceiling_kept_is_among_the_changes() {
        let bytes = Bytes::starred().with_curves(&["11,1,5,100,200002", "11,2,5,100,200001"]);
        let judge = Judge::of(&bytes.files(), &Day::fresh()).unwrap();
        let changes = changed(b"header\r\n11,1,F,0,2,C,20700100\r\n", &judge);
        assert!(changes.iter().any(|change| change == b"header\r\n11,1,F,0,2,C,20700000\r\n"));
    }

    #[test]
    fn rows_are_found_in_their_places() {
        let answer = b"a,b\r\n11,22\r\n3,\r\n";
        assert_eq!(rows(answer), [vec![5..7, 8..10], vec![12..13, 14..14]]);
    }
}
