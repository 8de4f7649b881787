//! What the parents of an accepted study brought about, for the tally.

use std::collections::BTreeSet;

use crate::case::{Case, StudyFiles, LONGEST_BUFFER};
use crate::parents::{chain, head};
use crate::rules::Filing;

/// What there is to say of an accepted study with rows of parents.
#[derive(Debug, PartialEq, Eq)]
pub struct Grouping {
    /// The steps of the longest chain that was followed from a supplier of the supply file.
    pub longest_chain: u64,
    /// Some suppliers are one group under a head that the supply file doesn't have.
    pub absent_head: bool,
    /// Some group has no member in the supply file.
    pub absent_group: bool,
    /// What the study answers when it has no parents.
    pub without_parents: String,
}

impl Grouping {
    /// The grouping of a case, or `None` where it isn't a study that can be read, with rows of parents.
    pub fn of(line: &[u8]) -> Option<Grouping> {
        let Case::Study { day, files, .. } = Case::read(line)? else { return None };
        let filing = Filing::read(&files.lend()).ok().filter(|filing| !filing.parents.is_empty())?;
        let alone = Case::Study { day, files: files.without(StudyFiles::PARENTS), buffer: LONGEST_BUFFER };
        Some(Grouping {
            longest_chain: longest_chain(&filing),
            absent_head: has_absent_head(&filing),
            absent_group: has_absent_group(&filing),
            without_parents: alone.answer(),
        })
    }
}

fn longest_chain(filing: &Filing) -> u64 {
    let suppliers = filing.suppliers().into_iter();
    suppliers.map(|supplier| chain(supplier, &filing.parents).len() as u64).max().unwrap_or(0)
}

fn has_absent_head(filing: &Filing) -> bool {
    let (suppliers, heads) = (filing.suppliers(), filing.heads());
    let under = |head: &u64| heads.values().filter(|other| *other == head).count();
    heads.values().any(|head| !suppliers.contains(head) && under(head) > 1)
}

fn has_absent_group(filing: &Filing) -> bool {
    let present: BTreeSet<u64> = filing.heads().into_values().collect();
    filing.parents.iter().any(|row| !present.contains(&head(row.supplier, &filing.parents)))
}

#[cfg(test)]
mod tests {
    use super::*;
    use crate::study::tests::Bytes;

    /// The grouping of the starred files with parents.
    fn grouping(rows: &[&str]) -> Option<Grouping> {
        let bytes = Bytes::starred().with_parents(rows);
        Grouping::of(format!("study - {} 138", bytes.words()).as_bytes())
    }

    #[test]
    fn chains_heads_and_groups_are_found() {
        let found = |rows: &[&str]| {
            let Grouping { longest_chain, absent_head, absent_group, .. } = grouping(rows).unwrap();
            (longest_chain, absent_head, absent_group)
        };
        assert_eq!(found(&["1,2"]), (1, false, false));
        assert_eq!(found(&["4,900", "1,900"]), (1, true, false));
        assert_eq!(found(&["4,900", "900,901"]), (2, false, false));
        assert_eq!(found(&["900,901", "901,902"]), (0, false, true));
    }

    #[test]
    fn only_accepted_parents_with_rows_have_a_grouping() {
        assert_eq!(grouping(&[]), None);
        assert_eq!(grouping(&["1,1"]), None);
        assert!(grouping(&["1,2"]).unwrap().without_parents.starts_with("ok "));
        assert_eq!(Grouping::of(b"release - 1"), None);
    }
}
