//! Cases of studies with offer curves. What each must answer was worked from documents 01 and 02.
mod common;

use capping::{study, study_into, Refusal, LONGEST_ANSWER};
use common::{refused, Files, CURVE_11, CURVE_11_ANSWER, PATTERN, SCHEDULES, STARRED_ANSWER};

/// The most points that a study may have, and that a curve may.
const MOST_POINTS: u64 = 4096;
const POINTS_OF_A_CURVE: u64 = 10;

/// Studies files: the answer, or the refusal, which changes no byte of the buffer.
fn studied(files: &Files) -> Result<String, Refusal> {
    let mut buffer = [PATTERN; LONGEST_ANSWER];
    match study_into(files.studied(), &mut buffer) {
        Ok(count) => Ok(String::from_utf8_lossy(&buffer[..count]).into_owned()),
        Err(refusal) => {
            assert!(buffer.iter().all(|&byte| byte == PATTERN), "{refusal}");
            Err(refusal)
        }
    }
}

/// Studies the starred files with these points.
fn with_points(points: &str) -> Result<String, Refusal> {
    studied(&Files::starred_with_curves(points))
}

/// The starred answer with another row of unit 11.
fn answer_with(row: &str) -> Result<String, Refusal> {
    Ok(STARRED_ANSWER.replace("11,1,F,0,2,C,1030000", row))
}

/// The starred files with this curve of unit 11's C schedule, whose ecomin is another.
fn at_ecomin(ecomin: u64, points: &str) -> Files {
    let files = Files::starred_with_curves(points);
    let row = format!("11,2,C,5,{ecomin},3000");
    Files {
        schedules: files.schedules.replace("11,2,C,5,100,3000", &row),
        ..files
    }
}

/// Rising points of unit 11's C schedule, up to ecomin at the tenth.
fn rising(count: u64) -> String {
    let point = |nth: u64| format!("11,2,5,{},{}\r\n", 10 * nth, 200 * nth);
    (1..=count).map(point).collect()
}

#[test]
fn no_curves() {
    let files = Files::starred();
    let [c, s, h] = files.checked();
    let unnamed = study(capping::Files::new(c, s, h));
    assert_eq!(unnamed.as_deref(), Ok(STARRED_ANSWER.as_bytes()));
    assert_eq!(study(files.studied()), unnamed);
    assert_eq!(with_points("").as_deref(), Ok(STARRED_ANSWER));
}

#[test]
fn the_price_at_ecomin() {
    assert_eq!(with_points(CURVE_11).as_deref(), Ok(CURVE_11_ANSWER));
    for points in [
        "11,2,5,100,2000",
        "11,2,5,99,1000\r\n11,2,5,101,2000\r\n",
        "11,2,5,100,2000\r\n11,2,5,200,9000\r\n",
        "11,2,5,0,0\r\n\"11\",2,5,100,\"2000\"\r\n",
    ] {
        assert_eq!(with_points(points).as_deref(), Ok(CURVE_11_ANSWER));
    }
    let at = |ecomin| studied(&at_ecomin(ecomin, CURVE_11));
    assert_eq!(at(0), answer_with("11,1,F,0,2,C,700000"));
    assert_eq!(at(50), answer_with("11,1,F,0,2,C,755000"));
    assert_eq!(at(51), answer_with("11,1,F,0,2,C,812200"));
    assert_eq!(at(101), Err(refused(34, 4, 2)));
}

#[test]
fn a_curve_stands_in_place_of_the_column() {
    let dearer = with_points("11,2,5,100,9000\r\n");
    assert_eq!(dearer, answer_with("11,1,F,0,1,M,1100000"));
    let market_based = with_points("11,1,5,100,2000\r\n");
    assert_eq!(market_based, answer_with("11,1,F,0,1,M,900000"));
}

#[test]
fn curves_may_be_interleaved() {
    let both = "11,2,5,50,1000\r\n14,1,5,10,4000\r\n11,2,5,100,2000\r\n14,1,5,100,6000\r\n";
    let answer = CURVE_11_ANSWER.replace("1,M,500000", "1,M,600000");
    assert_eq!(with_points(both), Ok(answer));
}

#[test]
fn curves_beside_parents() {
    let files = Files {
        curves: Files::starred_with_curves(CURVE_11).curves,
        ..Files::starred_with_parents("1,2\r\n")
    };
    let answer = CURVE_11_ANSWER.replace("14,4,F,5000000,", "14,4,F,0,");
    assert_eq!(studied(&files), Ok(answer));
}

#[test]
fn refused_curves() {
    let cases = [
        ("11,2,5,100,2000\n", refused(1, 4, 0)),
        ("11,2,5,100\r\n", refused(2, 4, 1)),
        ("11,2,5,100001,2000\r\n", refused(3, 4, 1)),
        (&rising(MOST_POINTS + 1), refused(4, 4, 0)),
        ("15,1,5,100,2000\r\n", refused(32, 4, 1)),
        ("11,3,5,100,2000\r\n", refused(32, 4, 1)),
        ("11,2,5,100,2000\r\n11,2,6,100,2000\r\n", refused(32, 4, 2)),
        (
            "11,2,5,50,1\r\n11,2,5,50,1\r\n11,2,6,1,1\r\n",
            refused(32, 4, 3),
        ),
        ("11,2,5,100,1\r\n11,2,5,100,2\r\n", refused(33, 4, 2)),
        ("11,2,5,50,2\r\n11,2,5,100,2\r\n", refused(33, 4, 2)),
        (
            "11,2,5,50,1\r\n12,2,5,9,9\r\n11,2,5,50,2\r\n",
            refused(33, 4, 3),
        ),
        (&rising(POINTS_OF_A_CURVE + 1), refused(33, 4, 11)),
        ("11,2,5,50,1\r\n11,2,5,99,2\r\n", refused(34, 4, 2)),
        (
            "11,2,5,9,1\r\n12,2,5,9,1\r\n11,2,5,10,2\r\n",
            refused(34, 4, 2),
        ),
    ];
    for (points, refusal) in cases {
        assert_eq!(with_points(points), Err(refusal), "{points}");
    }
    let ten = with_points(&rising(POINTS_OF_A_CURVE));
    assert_eq!(ten.as_deref(), Ok(CURVE_11_ANSWER));
    let blank_line = Files {
        curves: "\r\n".to_string(),
        ..Files::starred()
    };
    assert_eq!(studied(&blank_line), Err(refused(2, 4, 0)));
}

#[test]
fn hours_outside_the_run() {
    let hour_6 = |points| {
        let files = Files::starred_with_curves(points);
        studied(&Files {
            schedules: files.schedules + "11,2,C,6,100,3000,50000,20000,1\r\n",
            ..files
        })
    };
    assert_eq!(hour_6("11,2,6,100,1\r\n").as_deref(), Ok(STARRED_ANSWER));
    assert_eq!(hour_6("11,2,6,99,1\r\n"), Err(refused(34, 4, 1)));
}

#[test]
fn the_order_of_files() {
    let low = || Files::starred_with_curves("11,2,5,99,1\r\n");
    let stray_unit = Files {
        schedules: low().schedules + "15,1,C,5,1,1,1,1,1\r\n",
        curves: "\t".to_string(),
        ..Files::starred()
    };
    assert_eq!(studied(&stray_unit), Err(refused(7, 3, 8)));
    let bad_parents = Files {
        parents: "\t".to_string(),
        ..low()
    };
    assert_eq!(studied(&bad_parents), Err(refused(34, 4, 1)));
    let one_unit = |files| Files {
        schedules: format!("{SCHEDULES}11,2,C,5,100,3000,50000,20000,1\r\n"),
        ..files
    };
    assert_eq!(studied(&one_unit(low())), Err(refused(34, 4, 1)));
    let sound = Files::starred_with_curves(CURVE_11);
    assert_eq!(studied(&one_unit(sound)), Err(refused(8, 3, 12)));
}

#[test]
fn refused_curves_in_plain_words() {
    let told = |points| with_points(points).expect_err("refused").to_string();
    assert_eq!(
        told("11,3,5,100,2000\r\n"),
        "refusal 32: a point of a curve has no row in schedules (curves, record 1)"
    );
    assert_eq!(
        told("11,2,5,100,1\r\n11,2,5,100,2\r\n"),
        "refusal 33: a curve doesn't rise from point to point, or has more than ten (curves, record 2)"
    );
    assert_eq!(
        told("11,2,5,50,1\r\n11,2,5,99,2\r\n"),
        "refusal 34: a curve ends below ecomin (curves, record 2)"
    );
    assert_eq!(
        told("\t"),
        "refusal 1: the file isn't CSV by RFC 4180 (curves)"
    );
}
