//! Every unit of an accepted study, previewed: an engine has to show the row that stands in the answer.

use capping_model::case::read_hex;

use crate::beside::Beside;
use crate::run::Asked;

/// One more preview for each unit of a study that is answered so; none where it is no study, or refused.
pub fn add(previews: &mut Beside, study: &Asked, answer: &str) {
    let line = String::from_utf8_lossy(&study.line);
    let Some((given, _)) = line.strip_prefix("study ").and_then(|words| words.rsplit_once(' ')) else {
        return;
    };
    for row in rows_of(answer) {
        let unit = row.split(',').next().unwrap_or_default();
        previews.add(study.index, format!("preview {given} {unit}"), format!("ok {row}"));
    }
}

/// The rows of an accepted study's answer file.
fn rows_of(answer: &str) -> Vec<String> {
    let hex = answer.strip_prefix("ok ").and_then(|rest| rest.split(' ').next());
    let text = hex.and_then(read_hex).unwrap_or_default();
    String::from_utf8_lossy(&text).lines().skip(1).map(str::to_string).collect()
}

#[cfg(test)]
mod tests {
    use capping_model::case;

    use super::*;
    use crate::beside::tests::ask;

    #[test]
    fn the_model_shows_its_own_rows() {
        let count = ask(add, case::answer).unwrap();
        assert!(count > 200, "{count}");
    }

    #[test]
    fn another_row_is_reported() {
        let dearer = |line: &[u8]| case::answer(line) + "0";
        assert!(ask(add, dearer).unwrap_err().starts_with("case "));
        assert!(ask(add, |_| "no 31 0 0".to_string()).unwrap_err().starts_with("case "));
    }

    #[test]
    fn only_accepted_studies_call_for_previews() {
        let mut previews = Beside::default();
        let refused = Asked { index: 0, line: b"study - . . . . . 0".to_vec() };
        add(&mut previews, &refused, "no 2 1 0");
        add(&mut previews, &Asked { index: 1, line: b"release - 1".to_vec() }, "ok -");
        assert!(previews.pairs().is_empty());
        let header_and_row = "ok 680d0a37382c390d0a 5;78:M:1";
        add(&mut previews, &Asked { index: 2, line: b"study - 61 62 63 64 . 9".to_vec() }, header_and_row);
        assert_eq!(previews.pairs(), [("preview - 61 62 63 64 . 78".to_string(), "ok 78,9")]);
    }
}
