//! The offer capping engine as Rust programs call it: check three files, study files on a fresh day or on one that goes on, look
//! at the choice for one unit before, release a unit, hand a file back tidy, test one supplier on a list of amounts or fed one by
//! one. The engine keeps nothing, and a day or a fed test is its caller's own, so threads may call at the same time. A call takes
//! up to 136 KiB of stack, and one with curves up to 328 KiB.
//!
//! ```
//! use capping::Files;
//!
//! let [c, s, h, k, p] = ["constraint.csv", "supply.csv", "schedules.csv", "curves.csv", "parents.csv"]
//!     .map(|name| std::fs::read(name).unwrap_or_default());
//! match capping::study(Files::new(&c, &s, &h).with_curves(&k).with_parents(&p)) {
//!     Ok(answer) => print!("{}", String::from_utf8_lossy(&answer)),
//!     Err(refusal) => println!("{refusal}"),
//! }
//! ```
//!
//! A day goes from one study to the next. A refused call leaves it as it was. A study without curves or parents just doesn't name them.
//!
//! ```
//! use capping::{Day, Files};
//!
//! # let [c, s, h] = ["hour,relief,cutoff\r\n5,1000,300\r\n", "unit,supplier,mw,cost,dfax\r\n11,1,1000,3000,5000\r\n",
//! #     "unit,schedule,kind,hour,ecomin,price,noload,startup,minrun\r\n11,2,C,5,100,3000,50000,20000,1\r\n"].map(str::as_bytes);
//! let mut day = Day::fresh();
//! let row = day.preview(Files::new(c, s, h), 11)?;
//! assert_eq!(row.to_string(), "11,1,U,0,2,C,1030000"); // the day is still fresh
//! let answer = day.study(Files::new(c, s, h))?;
//! let words = day.to_string(); // "5;11:C:2": hour 5, and unit 11 runs on its cost-based schedule 2
//!
//! let mut day: Day = words.parse()?;
//! day.release(11)?;
//! assert_eq!(day.to_string(), "5;");
//! assert_eq!(day.release(11).unwrap_err().number, 23);
//! # assert_eq!(words, "5;11:C:2");
//! # Ok::<(), Box<dyn std::error::Error>>(())
//! ```
mod day;
mod engine;
mod fed;
mod files;
mod refusal;
mod row;
mod running;
mod words;

pub use day::{Day, DAY_CELLS};
pub use fed::{FedTest, FED_CELLS};
pub use files::{File, Files};
pub use refusal::Refusal;
pub use row::{Row, Verdict};
pub use running::{Kind, Running};
pub use words::ParseDayError;

/// How many bytes the longest answer file has.
pub const LONGEST_ANSWER: usize = 2799;

/// Checks three files of a study, each as its bytes: the number of the first refusal, 1 to 9, that a study of these three alone
/// gives.
pub fn check(constraint: &[u8], supply: &[u8], schedules: &[u8]) -> Result<(), u64> {
    match engine::check(constraint, supply, schedules) {
        0 => Ok(()),
        number => Err(number),
    }
}

/// Studies the files on a fresh day, and answers the answer file.
pub fn study(files: Files) -> Result<Vec<u8>, Refusal> {
    written_in(LONGEST_ANSWER, |answer| study_into(files, answer))
}

/// Studies the files on a fresh day, writes the answer file from the start of the buffer, and answers its length. Bytes past the
/// answer stay, and a refused study changes none.
pub fn study_into(files: Files, answer: &mut [u8]) -> Result<usize, Refusal> {
    engine::study(files, answer)
}

/// Reads one file alone, and hands it back tidy, as the engine understood it: unquoted, CR LF after each record, the header, then
/// the rows in their order.
///
/// ```
/// use capping::File;
///
/// let quoted = b"hour,relief,cutoff\r\n\"5\",\"1000\",\"300\"";
/// assert_eq!(capping::tidy(File::Constraint, quoted)?, b"hour,relief,cutoff\r\n5,1000,300\r\n");
/// # Ok::<(), capping::Refusal>(())
/// ```
pub fn tidy(file: File, bytes: &[u8]) -> Result<Vec<u8>, Refusal> {
    written_in(file.longest_tidy(), |tidy| tidy_into(file, bytes, tidy))
}

/// The same, with the tidy file written from the start of the buffer: answers its length. Bytes past the tidy file stay, and a
/// refused file changes none.
pub fn tidy_into(file: File, bytes: &[u8], tidy: &mut [u8]) -> Result<usize, Refusal> {
    engine::tidy(file, bytes, tidy)
}

/// Tests the supplier at `place`, counted from 0: what is left without it and its two largest others, and the verdict, which is
/// never `U`.
pub fn test(amounts: &[u64], place: usize, need: u64) -> Result<(u64, Verdict), Refusal> {
    engine::test(amounts, place as u64, need)
}

/// What a call writes into a buffer of a length.
fn written_in(
    length: usize,
    call: impl FnOnce(&mut [u8]) -> Result<usize, Refusal>,
) -> Result<Vec<u8>, Refusal> {
    let mut buffer = vec![0; length];
    let count = call(&mut buffer)?;
    buffer.truncate(count);
    Ok(buffer)
}
