//! The committed list: made again byte by byte, within its bounds, covering what it must.

use list::planting::told_apart;
use list::{making, reading};
use planted::planted::Planted;
use scenarios::coverage::Coverage;
use scenarios::validity::{check, STACK_BYTES};

const COMMITTED: &[u8] = include_bytes!("../oracle.list");

#[test]
fn made_twice_it_is_the_same_and_the_committed_one() {
    let made = making::bytes();
    assert!(made == making::bytes(), "two runs differ");
    assert!(
        made == COMMITTED,
        "the committed list is not what make-list writes"
    );
}

#[test]
fn it_keeps_its_bounds() {
    let entries = reading::list(COMMITTED).unwrap();
    assert!(COMMITTED.len() <= 1_000_000);
    assert!(entries.len() >= 300);
    for entry in &entries {
        assert_eq!(check(&entry.scenario), Ok(()));
        assert!(entry.scenario.params.table_bytes() <= STACK_BYTES);
    }
}

/// What was written is what is read: scenario by scenario, with its answers.
#[test]
fn it_reads_back() {
    let made = making::entries();
    let read = reading::list(COMMITTED).unwrap();
    assert_eq!(made.len(), read.len());
    for (made, read) in made.iter().zip(&read) {
        assert_eq!((&made.0, &made.1), (&read.scenario, &read.answers));
    }
}

#[test]
fn a_list_cut_short_is_no_list() {
    for length in [0, 7, 11, 12, 100, COMMITTED.len() - 1] {
        assert!(reading::list(&COMMITTED[..length]).is_err());
    }
    assert!(reading::list(&[COMMITTED, &[0]].concat()).is_err());
}

#[test]
fn it_covers_every_kind() {
    let mut coverage = Coverage::default();
    for entry in reading::list(COMMITTED).unwrap() {
        coverage.take(&entry.scenario, &entry.answers);
    }
    assert_eq!(coverage.missing(), Vec::<&str>::new());
}

#[test]
fn it_tells_every_planted_error() {
    let entries = reading::list(COMMITTED).unwrap();
    assert_eq!(told_apart(Planted::None, &entries), 0);
    for error in Planted::ERRORS {
        assert!(told_apart(error, &entries) > 0, "{}", error.words());
    }
}
