//! What the tests share: the headers, the files of a study as text, the starred example of document 01 with its answers, and days.
#![allow(dead_code)] // No test uses all of it.
use capping::{Day, Refusal};

pub const CONSTRAINT: &str = "hour,relief,cutoff\r\n";
pub const SUPPLY: &str = "unit,supplier,mw,cost,dfax\r\n";
pub const SCHEDULES: &str = "unit,schedule,kind,hour,ecomin,price,noload,startup,minrun\r\n";
pub const CURVES: &str = "unit,schedule,hour,mw,price\r\n";
pub const PARENTS: &str = "supplier,parent\r\n";

pub const STARRED_ANSWER: &str = "unit,supplier,verdict,left,schedule,kind,cost\r\n\
    11,1,F,0,2,C,1030000\r\n12,2,F,0,1,M,330000\r\n13,3,F,0,1,C,890000\r\n14,4,F,5000000,1,M,500000\r\n";

/// The same where any two of its suppliers are affiliated: unit 14's own group and two others are then all that supply.
pub const AFFILIATED_ANSWER: &str = "unit,supplier,verdict,left,schedule,kind,cost\r\n\
    11,1,F,0,2,C,1030000\r\n12,2,F,0,1,M,330000\r\n13,3,F,0,1,C,890000\r\n14,4,F,0,1,M,500000\r\n";

/// Points of a curve of unit 11's C schedule, and the starred answer with it: the first point at or above ecomin, 100, is the
/// second, so the price is 2000 and capped 2200, and the cost 100 * 2200 + 10 * 50000 + 10 * 20000.
pub const CURVE_11: &str = "11,2,5,50,1000\r\n11,2,5,100,2000\r\n";
pub const CURVE_11_ANSWER: &str = "unit,supplier,verdict,left,schedule,kind,cost\r\n\
    11,1,F,0,2,C,920000\r\n12,2,F,0,1,M,330000\r\n13,3,F,0,1,C,890000\r\n14,4,F,5000000,1,M,500000\r\n";

/// The day after a study of the starred files.
pub const STARRED_DAY: &str = "5;11:C:2,12:M:1,13:C:1,14:M:1";

/// The largest amount that a test takes.
pub const MOST_AMOUNT: u64 = 1_000_000_000_000;

// Where in a day's cells what stands.
pub const HAS_HOUR: usize = 0;
pub const HOUR: usize = 1;
pub const COUNT: usize = 2;
pub const PLACES: usize = 3;
pub const PLACE_CELLS: usize = 3;

/// Stands where a day has nothing of its own.
pub const JUNK: u64 = 77_777;

/// What a buffer is filled with before it is lent. No answer file has this byte.
pub const PATTERN: u8 = 0xA5;

/// The files of a study.
pub struct Files {
    pub constraint: String,
    pub supply: String,
    pub schedules: String,
    pub curves: String,
    pub parents: String,
}

impl Files {
    /// Without curves and parents.
    pub fn starred() -> Files {
        let supply = "11,1,1000,3000,5000\r\n12,2,1000,3000,-5000\r\n13,3,1000,4000,5000\r\n14,4,2000,2000,200\r\n";
        let schedules = "11,1,M,5,100,4000,50000,20000,1\r\n11,2,C,5,100,3000,50000,20000,1\r\n\
            12,1,M,5,100,3300,0,0,1\r\n12,2,C,5,100,3000,0,0,1\r\n13,1,C,5,200,4000,0,1000,1\r\n\
            14,1,M,5,100,5000,0,0,1\r\n14,2,C,5,100,2000,0,0,1\r\n";
        Files {
            constraint: format!("{CONSTRAINT}5,1000,300\r\n"),
            supply: format!("{SUPPLY}{supply}"),
            schedules: format!("{SCHEDULES}{schedules}"),
            curves: String::new(),
            parents: String::new(),
        }
    }

    /// The starred files with these rows of parents.
    pub fn starred_with_parents(parents: &str) -> Files {
        Files {
            parents: format!("{PARENTS}{parents}"),
            ..Files::starred()
        }
    }

    /// The starred files with these points of curves.
    pub fn starred_with_curves(points: &str) -> Files {
        Files {
            curves: format!("{CURVES}{points}"),
            ..Files::starred()
        }
    }

    /// Constraint, supply and schedules as a check takes them.
    pub fn checked(&self) -> [&[u8]; 3] {
        [&self.constraint, &self.supply, &self.schedules].map(|file| file.as_bytes())
    }

    /// All of them as a study takes them.
    pub fn studied(&self) -> capping::Files<'_> {
        let [constraint, supply, schedules] = self.checked();
        capping::Files::new(constraint, supply, schedules)
            .with_curves(self.curves.as_bytes())
            .with_parents(self.parents.as_bytes())
    }
}

pub fn refused(number: u64, file: u64, place: u64) -> Refusal {
    Refusal {
        number,
        file,
        place,
    }
}

pub fn day(words: &str) -> Day {
    words.parse().expect("words of a day")
}

/// The same day in other cells: something stands behind its count and for the hour where it has none, and where it has one,
/// another number than 1 says so.
pub fn with_junk(day: &Day) -> Day {
    let mut cells = *day.cells();
    match cells[HAS_HOUR] {
        0 => cells[HOUR] = JUNK,
        _ => cells[HAS_HOUR] = JUNK,
    }
    let behind = PLACES + PLACE_CELLS * day.running().count();
    cells[behind..].fill(JUNK);
    Day::from_cells(cells)
}

/// Units one after the other, from 101 on, each on its market-based schedule 1.
pub fn crowd(count: u64) -> String {
    let units: Vec<String> = (101..101 + count)
        .map(|unit| format!("{unit}:M:1"))
        .collect();
    units.join(",")
}
