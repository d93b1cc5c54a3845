//! The stored answers of the published views are the proved library's, and a changed one would be noticed.

use published::{compare, stored};

/// The stored sample.
fn sample() -> Vec<stored::Stored> {
    let text = include_str!("../../../vectors/published.txt");
    stored::read(text).expect("the file is well written")
}

#[test]
fn the_stored_answers_are_ours() {
    let list = sample();
    assert_eq!(list.len(), 300);
    for stored in &list {
        compare(&stored.case, &stored.answers).expect("they agree");
    }
}

#[test]
fn a_changed_answer_is_noticed() {
    let mut changes = [0; 6];
    for mut stored in sample() {
        for list in 0..5 {
            let Some(record) = stored.answers.lists[list].last_mut() else {
                continue;
            };
            record[list] ^= 1;
            changes[list] += 1;
            assert!(compare(&stored.case, &stored.answers).is_err());
            stored.answers.lists[list].last_mut().expect("it is there")[list] ^= 1;
        }
        stored.answers.equal ^= true;
        changes[5] += 1;
        assert!(compare(&stored.case, &stored.answers).is_err());
    }
    assert!(changes.iter().all(|count| *count > 50), "{changes:?}");
}

#[test]
fn the_cases_are_written_as_they_are_read() {
    for stored in sample() {
        let again = stored::read(&stored::write(&stored)).expect("it is well written");
        assert_eq!(again, [stored]);
    }
}

/// The published files are here: their answers are as stored, and so are those of further cases.
#[cfg(published)]
#[test]
fn the_published_views_answer_as_stored() {
    for (case, stored) in published::sample().into_iter().zip(sample()) {
        assert_eq!(case, stored.case);
        assert_eq!(published::views(&case), stored.answers);
    }
}

/// A run of this name says that only stored answers were compared.
#[cfg(not(published))]
#[test]
fn the_published_files_are_not_here_and_only_stored_answers_were_compared() {
    eprintln!("the published files are not here: only their stored answers were compared");
}
