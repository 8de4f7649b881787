//! A file handed back tidy (document 02, F-1): "unquoted, CR LF after each record, header, then rows in
//! their order".

use crate::csv::{Record, CRLF};
use crate::refusal::{refuse_if, Refusal};
use crate::rules::{read_schedules_alone, read_supply_alone};
use crate::table::{read_constraint, Schedule, Supply, Table, CONSTRAINT, SCHEDULES, SUPPLY};

/// The files that sellers get back: "their three files as the engine understood them".
#[derive(Clone, Copy, Debug, PartialEq, Eq)]
pub enum FileKind {
    Constraint,
    Supply,
    Schedules,
}

impl FileKind {
    pub const ALL: [FileKind; 3] = [FileKind::Constraint, FileKind::Supply, FileKind::Schedules];

    /// The file of a number: "1 constraint, 2 supply, 3 schedules".
    pub fn numbered(number: u64) -> Option<FileKind> {
        FileKind::ALL.into_iter().find(|kind| kind.number() == number)
    }

    pub fn number(self) -> u64 {
        self.table().file
    }

    pub fn table(self) -> &'static Table {
        match self {
            FileKind::Constraint => &CONSTRAINT,
            FileKind::Supply => &SUPPLY,
            FileKind::Schedules => &SCHEDULES,
        }
    }
}

/// Writes the tidy file from the start of the lent buffer, and says how long it is. "It refuses with 30
/// when the lent buffer is shorter than the tidy file, after every refusal of reading."
///
/// A refused call "leaves its lent buffer" as it was, and bytes past the tidy file stay.
pub fn tidy(kind: FileKind, file: &[u8], buffer: &mut [u8]) -> Result<usize, Refusal> {
    let tidy = tidy_bytes(kind, &rows(kind, file)?);
    refuse_if(tidy.len() > buffer.len(), Refusal::nowhere(30))?;
    buffer[..tidy.len()].copy_from_slice(&tidy);
    Ok(tidy.len())
}

/// The rows of a file "that 1 to 6 pass on its own", as they are written; 7 to 9 ask for other files.
fn rows(kind: FileKind, file: &[u8]) -> Result<Vec<Record>, Refusal> {
    Ok(match kind {
        FileKind::Constraint => vec![read_constraint(file)?.fields()],
        FileKind::Supply => read_supply_alone(file)?.iter().map(Supply::fields).collect(),
        FileKind::Schedules => read_schedules_alone(file)?.iter().map(Schedule::fields).collect(),
    })
}

/// The bytes of the tidy file with these rows.
fn tidy_bytes(kind: FileKind, rows: &[Record]) -> Vec<u8> {
    let mut bytes = Vec::new();
    for record in [&[kind.table().header()], rows].concat() {
        bytes.extend(record.join(&b','));
        bytes.extend(CRLF);
    }
    bytes
}

#[cfg(test)]
mod tests {
    use super::*;
    use crate::case::Case;
    use crate::csv::records;
    use crate::generator;
    use crate::study::tests::Bytes;

    /// The tidy file, in a buffer that holds every one.
    fn tidied(kind: FileKind, file: &[u8]) -> Result<Vec<u8>, Refusal> {
        let mut buffer = vec![0; 65_536];
        let length = tidy(kind, file, &mut buffer)?;
        Ok(buffer[..length].to_vec())
    }

    const HEADER: &str = "unit,supplier,mw,cost,dfax";

    /// What stands under the header of a tidy supply file, or the number and place of its refusal.
    fn supply(rows: &str) -> Result<String, (u64, u64)> {
        let tidy = tidied(FileKind::Supply, format!("{HEADER}\r\n{rows}").as_bytes());
        let bytes = tidy.map_err(|refusal| (refusal.number, refusal.place))?;
        let text = String::from_utf8(bytes).unwrap();
        Ok(text.strip_prefix(HEADER).unwrap().strip_prefix("\r\n").unwrap().to_string())
    }

    #[test]
    fn the_starred_files_are_tidy() {
        for (kind, file) in FileKind::ALL.into_iter().zip(Bytes::starred().three()) {
            assert_eq!(tidied(kind, file).as_deref(), Ok(file));
            assert_eq!(tidied(kind, &file[..file.len() - 2]).as_deref(), Ok(file));
        }
    }

    #[test]
    fn quotes_go_and_signs_order_and_repeated_rows_stay() {
        let rows = "9,1,1,1,-5000\r\n7,1,1,1,0\r\n9,1,1,1,-5000\r\n";
        assert_eq!(supply(rows).as_deref(), Ok(rows));
        let quoted = "\"9\",\"1\",1,1,\"-5000\"\r\n7,1,1,1,\"0\"\r\n9,1,1,1,-5000";
        assert_eq!(supply(quoted).as_deref(), Ok(rows));
    }

    #[test]
    fn a_file_is_refused_as_if_it_were_alone() {
        assert_eq!(supply("1,1,1,1,5000\r\n1,1,1,1,-5000"), Err((6, 2)));
        let many: String = (1..=65).map(|unit| format!("{unit},1,1,1,1\r\n")).collect();
        assert_eq!(supply(&many), Err((5, 65)));
        for kind in FileKind::ALL {
            assert_eq!(tidied(kind, b""), Err(Refusal::at(2, kind.number(), 0)));
        }
    }

    #[test]
    fn thirty_comes_after_reading_and_changes_nothing() {
        let write = |file: &str, lent: usize| {
            let mut buffer = vec![7; lent];
            let result = tidy(FileKind::Supply, file.as_bytes(), &mut buffer);
            assert!(result.is_ok() || buffer.iter().all(|&byte| byte == 7));
            result.map_err(|refusal| (refusal.number, refusal.file, refusal.place))
        };
        assert_eq!(write(HEADER, 28), Ok(28));
        assert_eq!(write(HEADER, 27), Err((30, 0, 0)));
        assert_eq!(write(&format!("{HEADER}\r\n1,1,1,1,5\r\n1,2,1,1,5"), 0), Err((6, 2, 2)));
        let mut longer = [7; 30];
        assert_eq!(tidy(FileKind::Supply, HEADER.as_bytes(), &mut longer), Ok(28));
        assert_eq!(longer[28..], [7, 7]);
    }

    /// Made files that are accepted, each with its tidy form.
    fn made() -> Vec<(FileKind, Vec<u8>, Vec<u8>)> {
        let cases = (0..4_000).filter_map(|index| Case::read(&generator::make(1, index).bytes));
        let accepted = cases.filter_map(|case| match case {
            Case::Tidy { kind, file, .. } => tidied(kind, &file).ok().map(|tidy| (kind, file, tidy)),
            _ => None,
        });
        accepted.collect()
    }

    /// "Reading its output yields the same rows": every numeral has one form, so the fields are the same
    /// once they are unquoted, and a tidy file is its own tidy form.
    #[test]
    fn a_tidy_file_reads_as_the_file_and_stays_as_it_is() {
        let made = made();
        assert!(made.len() > 200, "{}", made.len());
        for (kind, file, tidy) in &made {
            assert_eq!(records(tidy), records(file));
            assert!(!tidy.contains(&b'"') && tidy.ends_with(CRLF));
            assert_eq!(tidied(*kind, tidy).as_ref(), Ok(tidy));
        }
    }

    /// "Two such files of one kind have the same tidy bytes exactly when their rows agree."
    #[test]
    fn tidy_bytes_are_the_same_exactly_when_the_rows_agree() {
        let made: Vec<_> =
            made().into_iter().map(|(kind, file, tidy)| (kind, records(&file), tidy)).collect();
        let (mut same, mut different) = (0, 0);
        for (index, (kind, rows, tidy)) in made.iter().enumerate() {
            for (_, other_rows, other_tidy) in made[..index].iter().filter(|(other, ..)| other == kind) {
                let agree = rows == other_rows;
                assert_eq!(tidy == other_tidy, agree);
                *(if agree { &mut same } else { &mut different }) += 1;
            }
        }
        assert!(same > 10 && different > 1_000, "{same} {different}");
    }
}
