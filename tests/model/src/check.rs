//! The check for host programs.

use crate::rules::{Files, Filing};

/// "A check for host programs in C or Rust takes the three files as bytes and answers 0 or the
/// number of the first refusal, as far as 9 in the order below, that a study of them gives."
///
/// It "goes on taking three", and a study of three files is one without curves and parents.
pub fn check([constraint, supply, schedules]: [&[u8]; 3]) -> u64 {
    match Filing::read(&Files { constraint, supply, schedules, curves: b"", parents: b"" }) {
        Ok(_) => 0,
        Err(refusal) => refusal.number,
    }
}

#[cfg(test)]
mod tests {
    use super::*;
    use crate::study::tests::Bytes;

    #[test]
    fn the_check_ends_with_nine() {
        assert_eq!(check(Bytes::starred().three()), 0);
        assert_eq!(check(Bytes::of("24,1,1", &["x"], &[]).three()), 3);
        assert_eq!(check(Bytes::of("5,1,1", &["x"], &[]).three()), 2);
        assert_eq!(check(Bytes::of("5,1,1", &["1,1,1,1,1"], &[]).three()), 8);
        assert_eq!(check(Bytes::of("5,1,1", &["1,1,1,1,1"], &["1,1,C,6,0,0,0,0,1"]).three()), 9);
        assert_eq!(check([b""; 3]), 2);
    }
}
