//! Cases of costs and prices above 2,000 dollars, where the capped offer is the cost alone. What each must answer was worked from
//! documents 01 and 02.
mod common;

use capping::{study, Day, Refusal};
use common::{refused, Files, AFFILIATED_ANSWER, STARRED_ANSWER};

/// The starred files with other schedules.
fn with_schedules(from: &str, to: &str) -> Files {
    let files = Files::starred();
    let schedules = files.schedules.replace(from, to);
    Files { schedules, ..files }
}

/// The starred files with another price of unit 13, which has a C schedule alone.
fn price_13(price: u64) -> Files {
    with_schedules("13,1,C,5,200,4000,", &format!("13,1,C,5,200,{price},"))
}

/// The starred files with another price of unit 14's market-based schedule.
fn price_14(price: u64) -> Files {
    with_schedules("14,1,M,5,100,5000,", &format!("14,1,M,5,100,{price},"))
}

/// The starred files where units 11 and 12 clear at 200001, and unit 13 has another cost.
fn cost_13(cost: u64) -> Files {
    let files = Files::starred();
    let supply = files
        .supply
        .replace(",1000,3000,", ",1000,200001,")
        .replace("13,3,1000,4000,", &format!("13,3,1000,{cost},"));
    Files { supply, ..files }
}

fn answered(files: &Files) -> Result<String, Refusal> {
    study(files.studied()).map(|answer| String::from_utf8(answer).expect("an answer is ASCII"))
}

/// The starred answer with another cost of unit 13.
fn answer_at(cost: u64) -> String {
    STARRED_ANSWER.replace("890000", &cost.to_string())
}

#[test]
fn a_cost_based_price() {
    let costs = [
        (195_000, 40_010_000),
        (200_000, 40_010_000),
        (200_001, 40_010_200),
        (370_000, 74_010_000),
    ];
    for (price, cost) in costs {
        assert_eq!(answered(&price_13(price)), Ok(answer_at(cost)), "{price}");
        let row = Day::fresh().preview(price_13(price).studied(), 13);
        assert_eq!(row.map(|row| row.cost), Ok(cost), "{price}");
    }
    assert_eq!(answered(&price_13(370_001)), Err(refused(3, 3, 5)));
}

#[test]
fn a_market_based_price_is_not_capped() {
    for (price, cost) in [(200_001, 20_000_100), (370_000, 37_000_000)] {
        let answer = STARRED_ANSWER.replace("1,M,500000", &format!("1,M,{cost}"));
        assert_eq!(answered(&price_14(price)), Ok(answer), "{price}");
    }
    assert_eq!(answered(&price_14(370_001)), Err(refused(3, 3, 6)));
}

#[test]
fn the_price_of_a_curve() {
    let with_point = |price| {
        answered(&Files::starred_with_curves(&format!(
            "13,1,5,200,{price}\r\n"
        )))
    };
    assert_eq!(with_point(200_000), Ok(answer_at(40_010_000)));
    assert_eq!(with_point(200_001), Ok(answer_at(40_010_200)));
    assert_eq!(with_point(370_000), Ok(answer_at(74_010_000)));
    assert_eq!(with_point(370_001), Err(refused(3, 4, 1)));
}

/// Where unit 13 isn't relevant, what the others supply is all that a removal takes away, so that nothing is left for unit 14.
#[test]
fn the_market_by_costs() {
    assert_eq!(answered(&cost_13(300_001)).as_deref(), Ok(STARRED_ANSWER));
    for cost in [300_002, 370_000] {
        assert_eq!(answered(&cost_13(cost)).as_deref(), Ok(AFFILIATED_ANSWER));
    }
    assert_eq!(answered(&cost_13(370_001)), Err(refused(3, 2, 3)));
}
