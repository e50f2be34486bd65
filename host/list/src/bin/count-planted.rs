//! `count-planted LIST` counts how many planted errors the list tells from the true oracle.

use list::planting::told_apart;
use list::reading;
use planted::planted::Planted;
use std::process::ExitCode;

fn main() -> ExitCode {
    let Some(path) = std::env::args().nth(1) else {
        eprintln!("usage: count-planted LIST");
        return ExitCode::from(2);
    };
    match count(&path) {
        Ok(true) => ExitCode::SUCCESS,
        Ok(false) => ExitCode::from(1),
        Err(message) => {
            eprintln!("{path}: {message}");
            ExitCode::from(2)
        }
    }
}

/// Whether every error was told apart. A line for each.
fn count(path: &str) -> Result<bool, String> {
    let bytes = std::fs::read(path).map_err(|e| e.to_string())?;
    let entries = reading::list(&bytes)?;
    let none = told_apart(Planted::None, &entries);
    if none != 0 {
        return Err(format!("{none} scenarios differ with no error planted"));
    }
    let mut told = 0;
    for error in Planted::ERRORS {
        let count = told_apart(error, &entries);
        let verdict = if count > 0 {
            "told apart"
        } else {
            "NOT told apart"
        };
        println!(
            "{}: {verdict}, in {count} of {} scenarios",
            error.words(),
            entries.len()
        );
        told += (count > 0) as usize;
    }
    println!("{told} of {} told apart", Planted::ERRORS.len());
    Ok(told == Planted::ERRORS.len())
}
