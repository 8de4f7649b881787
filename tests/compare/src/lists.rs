//! Every list that the test was fed with, tested at once: an engine has to answer what it did when it was fed.

use capping_model::case::Case;

use crate::beside::Beside;
use crate::run::Asked;

/// One more list, refused or not, where the test is fed; none where it isn't.
pub fn add(lists: &mut Beside, fed: &Asked, answer: &str) {
    if let Some(Case::Fed(lone)) = Case::read(&fed.line) {
        lists.add(fed.index, Case::Test(lone).to_string(), answer.to_string());
    }
}

#[cfg(test)]
mod tests {
    use capping_model::case;

    use super::*;
    use crate::beside::tests::ask;

    #[test]
    fn the_model_answers_its_own_lists_alike() {
        let count = ask(add, case::answer).unwrap();
        assert!(count > 10, "{count}");
    }

    #[test]
    fn another_answer_is_reported() {
        let more = |line: &[u8]| case::answer(line).replace("ok ", "ok 1");
        assert!(ask(add, more).unwrap_err().starts_with("case "));
        assert!(ask(add, |_| "ok 0 P".to_string()).unwrap_err().starts_with("case "));
    }

    #[test]
    fn only_fed_tests_call_for_lists() {
        let mut lists = Beside::default();
        let mut case = |line: &str, answer: &str| {
            add(&mut lists, &Asked { index: 0, line: line.as_bytes().to_vec() }, answer);
        };
        case("test 1 0 5,5", "ok 0 F");
        case("fed 1 0", "unreadable case");
        case("fed 1 0 5,5", "ok 0 F");
        case("fed 1 0 .", "no 11 0 0");
        let called_for = [("test 1 0 5,5".to_string(), "ok 0 F"), ("test 1 0 .".to_string(), "no 11 0 0")];
        assert_eq!(lists.pairs(), called_for);
    }
}
