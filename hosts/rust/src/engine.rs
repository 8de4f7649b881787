//! The engine's own functions, each behind a call that no safe program can misuse.
use crate::row::{Row, ROW_CELLS};
use crate::{File, Files, Refusal, Verdict, DAY_CELLS, FED_CELLS};

/// The cells of a day.
pub type Cells = [u64; DAY_CELLS];

/// The cells of a test that is fed.
pub type FedCells = [u64; FED_CELLS];

/// The cells of a row of the answer file.
type RowCells = [u64; ROW_CELLS];

/// Number, file and place of a refusal; all 0 where a call is accepted.
type Report = [u64; 3];

extern "C" {
    fn capping_check(
        constraint: *const u8,
        constraint_len: usize,
        supply: *const u8,
        supply_len: usize,
        schedules: *const u8,
        schedules_len: usize,
    ) -> u64;

    fn capping_study(
        constraint: *const u8,
        constraint_len: usize,
        supply: *const u8,
        supply_len: usize,
        schedules: *const u8,
        schedules_len: usize,
        curves: *const u8,
        curves_len: usize,
        parents: *const u8,
        parents_len: usize,
        answer: *mut u8,
        answer_len: usize,
        report: *mut Report,
    ) -> u64;

    fn capping_tidy(
        file: u64,
        bytes: *const u8,
        bytes_len: usize,
        tidy: *mut u8,
        tidy_len: usize,
        report: *mut Report,
    ) -> u64;

    fn capping_test(
        amounts: *const u64,
        amounts_len: usize,
        place: u64,
        need: u64,
        left: *mut u64,
    ) -> u64;

    fn capping_fed_begin(fed: *mut FedCells, place: u64, need: u64);

    fn capping_fed_feed(fed: *mut FedCells, amount: u64);

    fn capping_fed_ask(fed: *const FedCells, left: *mut u64) -> u64;

    fn capping_day_fresh(day: *mut Cells);

    fn capping_day_study(
        day: *mut Cells,
        constraint: *const u8,
        constraint_len: usize,
        supply: *const u8,
        supply_len: usize,
        schedules: *const u8,
        schedules_len: usize,
        curves: *const u8,
        curves_len: usize,
        parents: *const u8,
        parents_len: usize,
        answer: *mut u8,
        answer_len: usize,
        report: *mut Report,
    ) -> u64;

    fn capping_preview(
        day: *const Cells,
        constraint: *const u8,
        constraint_len: usize,
        supply: *const u8,
        supply_len: usize,
        schedules: *const u8,
        schedules_len: usize,
        curves: *const u8,
        curves_len: usize,
        parents: *const u8,
        parents_len: usize,
        unit: u64,
        row: *mut RowCells,
        report: *mut Report,
    ) -> u64;

    fn capping_day_release(day: *mut Cells, unit: u64, report: *mut Report) -> u64;
}

/// Calls a function that takes the files of a study between its other arguments.
macro_rules! with_files {
    ($function:ident, [$($before:expr),*], $files:ident, [$($after:expr),*]) => {
        $function(
            $($before,)*
            $files.constraint.as_ptr(),
            $files.constraint.len(),
            $files.supply.as_ptr(),
            $files.supply.len(),
            $files.schedules.as_ptr(),
            $files.schedules.len(),
            $files.curves.as_ptr(),
            $files.curves.len(),
            $files.parents.as_ptr(),
            $files.parents.len(),
            $($after),*
        )
    };
}

// SAFETY, for each call: a pointer is a slice's or a reference's, so it isn't null, as much as its length says stands there
// during the call, and what is written overlaps nothing else. That is all that the engine asks; it keeps nothing.

pub fn check(constraint: &[u8], supply: &[u8], schedules: &[u8]) -> u64 {
    unsafe {
        capping_check(
            constraint.as_ptr(),
            constraint.len(),
            supply.as_ptr(),
            supply.len(),
            schedules.as_ptr(),
            schedules.len(),
        )
    }
}

pub fn study(files: Files, answer: &mut [u8]) -> Result<usize, Refusal> {
    let mut report = [0; 3];
    let count = unsafe {
        with_files!(
            capping_study,
            [],
            files,
            [answer.as_mut_ptr(), answer.len(), &mut report]
        )
    };
    written(count, report)
}

pub fn tidy(file: File, bytes: &[u8], tidy: &mut [u8]) -> Result<usize, Refusal> {
    let mut report = [0; 3];
    let count = unsafe {
        capping_tidy(
            file.number(),
            bytes.as_ptr(),
            bytes.len(),
            tidy.as_mut_ptr(),
            tidy.len(),
            &mut report,
        )
    };
    written(count, report)
}

pub fn test(amounts: &[u64], place: u64, need: u64) -> Result<(u64, Verdict), Refusal> {
    let mut left = 0;
    let answer = unsafe { capping_test(amounts.as_ptr(), amounts.len(), place, need, &mut left) };
    tested(answer, left)
}

pub fn fed_begin(place: u64, need: u64) -> FedCells {
    let mut fed = [0; FED_CELLS];
    unsafe { capping_fed_begin(&mut fed, place, need) };
    fed
}

pub fn fed_feed(fed: &mut FedCells, amount: u64) {
    unsafe { capping_fed_feed(fed, amount) };
}

pub fn fed_ask(fed: &FedCells) -> Result<(u64, Verdict), Refusal> {
    let mut left = 0;
    let answer = unsafe { capping_fed_ask(fed, &mut left) };
    tested(answer, left)
}

pub fn day_fresh() -> Cells {
    let mut day = [0; DAY_CELLS];
    unsafe { capping_day_fresh(&mut day) };
    day
}

pub fn day_study(day: &mut Cells, files: Files, answer: &mut [u8]) -> Result<usize, Refusal> {
    let mut report = [0; 3];
    let count = unsafe {
        with_files!(
            capping_day_study,
            [day],
            files,
            [answer.as_mut_ptr(), answer.len(), &mut report]
        )
    };
    written(count, report)
}

pub fn preview(day: &Cells, files: Files, unit: u64) -> Result<Row, Refusal> {
    let mut row = [0; ROW_CELLS];
    let mut report = [0; 3];
    unsafe { with_files!(capping_preview, [day], files, [unit, &mut row, &mut report]) };
    accepted(report)?;
    Ok(Row::stored(row))
}

pub fn day_release(day: &mut Cells, unit: u64) -> Result<(), Refusal> {
    let mut report = [0; 3];
    unsafe { capping_day_release(day, unit, &mut report) };
    accepted(report)
}

/// What came of a test, by the number that it answers and what it stored.
fn tested(answer: u64, left: u64) -> Result<(u64, Verdict), Refusal> {
    match answer {
        0 => Ok((left, Verdict::P)),
        1 => Ok((left, Verdict::F)),
        number => Err(Refusal {
            number,
            file: 0,
            place: 0,
        }),
    }
}

/// How many bytes a call wrote, by its report.
fn written(count: u64, report: Report) -> Result<usize, Refusal> {
    accepted(report)?;
    Ok(usize::try_from(count).expect("no more bytes are written than the buffer has"))
}

/// Whether a call was accepted, by its report.
fn accepted([number, file, place]: Report) -> Result<(), Refusal> {
    match number {
        0 => Ok(()),
        _ => Err(Refusal {
            number,
            file,
            place,
        }),
    }
}
