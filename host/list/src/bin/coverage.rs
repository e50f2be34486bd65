//! `coverage LIST` prints how often the list meets each kind of thing it must meet.

use list::reading;
use scenarios::coverage::{Coverage, NAMES};

fn main() -> Result<(), String> {
    let path = std::env::args().nth(1).ok_or("usage: coverage LIST")?;
    let bytes = std::fs::read(&path).map_err(|e| e.to_string())?;
    let mut coverage = Coverage::default();
    for entry in reading::list(&bytes)? {
        coverage.take(&entry.scenario, &entry.answers);
    }
    for name in NAMES {
        println!("{:6} {name}", coverage.counts[name]);
    }
    Ok(())
}
