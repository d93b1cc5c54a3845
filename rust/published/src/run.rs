//! Comparisons of one case.

use crate::answers::{proved, reference_answers, Answers, LISTS};
use crate::cases::Case;

/// Names of the answers that are not the same.
fn differing(one: &Answers, other: &Answers) -> Vec<&'static str> {
    let lists = LISTS.iter().zip(one.lists.iter().zip(&other.lists));
    let wrong = lists.filter(|(_, (one, other))| one != other);
    let mut names: Vec<&str> = wrong.map(|(name, _)| *name).collect();
    if one.equal != other.equal {
        names.push("key equality");
    }
    names
}

/// Compares these answers of the published views with the proved library's and the reference's; the error says what differs.
pub fn compare(case: &Case, published: &Answers) -> Result<(), String> {
    let ours = proved(case);
    let plain = reference_answers(case);
    for (name, other) in [
        ("the published views", published),
        ("the reference", &plain),
    ] {
        let names = differing(&ours, other);
        if !names.is_empty() {
            return Err(format!(
                "the proved library and {name} differ in {names:?}\n{case}proved {ours:x?}\n{name} {other:x?}"
            ));
        }
    }
    Ok(())
}
