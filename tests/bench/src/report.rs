//! What was measured as plain tables: a table for each call on studies, then how its time grows with the rows; and a table of the
//! test, listed and fed.

use std::fmt::Write;

use crate::amounts::{self, Given, AMOUNTS, LISTS};
use crate::engine::{Call, Engine};
use crate::timing::{Measured, Times};

/// Nanoseconds of what times are shown in.
pub const MICROSECOND: f64 = 1_000.0;
const NANOSECOND: f64 = 1.0;

/// The engine that the others are held against.
const OURS: usize = 0;

/// The report on studies.
pub fn of(engines: &[Engine], measured: &[Measured]) -> String {
    let tables = Call::ALL.map(|call| times(call, engines, measured) + "\n").concat();
    tables + &growth(engines, measured)
}

/// The times of a call on all studies that it takes.
fn times(call: Call, engines: &[Engine], measured: &[Measured]) -> String {
    let engines: Vec<(usize, &Engine)> =
        engines.iter().enumerate().filter(|(_, one)| one.has(call)).collect();
    let calls = counts(&engines, |index| measured[0].times(index, call));
    let mut table = format!("{}: microseconds of a call, median and least (calls: {calls})\n", call.name());
    let _ = write!(table, "{:<10}{:>6}{:>10}{:>8}{:>8}", "layout", "supply", "schedules", "points", "bytes");
    let _ = writeln!(table, "{}{:>12}", heads(&engines), "ns/byte");
    for measured in measured.iter().filter(|one| engines[OURS].1.makes(call, one.study)) {
        table += &line(call, &engines, measured);
    }
    table
}

/// A study's line.
fn line(call: Call, engines: &[(usize, &Engine)], measured: &Measured) -> String {
    let study = measured.study;
    let (layout, supply, schedules) = (study.layout.name(), study.supply_rows, study.schedule_rows);
    let (points, bytes) = (study.points, call.bytes(study));
    let made =
        |&(index, engine): &(usize, &Engine)| engine.makes(call, study).then(|| measured.times(index, call));
    let ours = measured.times(OURS, call);
    let others: Vec<Option<&Times>> = engines[1..].iter().map(made).collect();
    let columns = columns(ours, &others, MICROSECOND);
    let a_byte = ours.median() / bytes as f64;
    format!("{layout:<10}{supply:>6}{schedules:>10}{points:>8}{bytes:>8}{columns}{a_byte:>12.2}\n")
}

/// The report on the test, listed and fed.
pub fn of_tests(engines: &[Engine], measured: &amounts::Measured) -> String {
    let engines: Vec<(usize, &Engine)> = engines.iter().enumerate().collect();
    let means = counts(&engines, |index| measured.times(index, Given::Listed));
    let mut table = format!(
        "test of {AMOUNTS} amounts, as a list and fed one a call: nanoseconds, median and least of means over {LISTS} \
         lists (means: {means})\n"
    );
    let _ = writeln!(table, "{:<10}{}", "call", heads(&engines));
    for given in Given::ALL {
        let times = |&(index, _): &(usize, &Engine)| Some(measured.times(index, given));
        let others: Vec<Option<&Times>> = engines[1..].iter().map(times).collect();
        let columns = columns(measured.times(OURS, given), &others, NANOSECOND);
        let _ = writeln!(table, "{:<10}{columns}", given.name());
    }
    table
}

/// How many times each engine has.
fn counts<'a>(engines: &[(usize, &Engine)], times: impl Fn(usize) -> &'a Times) -> String {
    let count = |&(index, engine): &(usize, &Engine)| format!("{} of {}", times(index).count(), engine.name);
    engines.iter().map(count).collect::<Vec<String>>().join(", ")
}

/// The heads of the columns.
fn heads(engines: &[(usize, &Engine)]) -> String {
    let own = engines.iter().map(|(_, engine)| format!("{:>12}{:>10}", engine.name, "least"));
    let beside = engines[1..].iter().map(|(_, engine)| format!("{:>12}", format!("ours/{}", engine.name)));
    own.chain(beside).collect()
}

/// The columns of a line: the median and the least of each engine that makes the call, then what ours is beside the
/// others.
fn columns(ours: &Times, others: &[Option<&Times>], unit: f64) -> String {
    let own = |times: &Option<&Times>| match times {
        Some(times) => format!("{:>12.2}{:>10.2}", times.median() / unit, times.least() / unit),
        None => format!("{:>12}{:>10}", "-", "-"),
    };
    let beside = |times: &Option<&Times>| match times {
        Some(times) => format!("{:>12.3}", ours.median() / times.median()),
        None => format!("{:>12}", "-"),
    };
    own(&Some(ours)) + &others.iter().map(own).chain(others.iter().map(beside)).collect::<String>()
}

/// How the times grow, layout by layout of several sizes.
fn growth(engines: &[Engine], measured: &[Measured]) -> String {
    let name = |one: &Measured| one.study.layout.name();
    let layouts = measured.chunk_by(|a, b| name(a) == name(b)).filter(|sizes| sizes.len() > 1);
    let tables: String = layouts.map(|sizes| growth_in_layout(engines, sizes)).collect();
    format!("growth: the power of the rows by which the median grows from size to size\n{tables}")
}

/// How the times of each engine and call grow over the sizes of a layout.
fn growth_in_layout(engines: &[Engine], sizes: &[Measured]) -> String {
    let line = |name: String, column: &dyn Fn(&Measured, &Measured) -> String| {
        let columns: String = sizes.windows(2).map(|pair| column(&pair[0], &pair[1])).collect();
        format!("{name:<22}{columns}\n")
    };
    let mut table = line(format!("{}, rows", sizes[0].study.layout.name()), &|from, to| {
        format!("{:>12}", format!("{}-{}", from.study.rows(), to.study.rows()))
    });
    for (index, engine) in engines.iter().enumerate() {
        let makes_all = |&call: &Call| sizes.iter().all(|one| engine.makes(call, one.study));
        for call in Call::ALL.into_iter().filter(makes_all) {
            table += &line(format!("  {} {}", engine.name, call.name()), &|from, to| {
                format!("{:>12.2}", power(index, call, from, to))
            });
        }
    }
    table
}

/// The power of the rows by which a time grows from one size to another.
fn power(engine: usize, call: Call, from: &Measured, to: &Measured) -> f64 {
    let times = to.times(engine, call).median() / from.times(engine, call).median();
    let rows = to.study.rows() as f64 / from.study.rows() as f64;
    times.log(rows)
}
