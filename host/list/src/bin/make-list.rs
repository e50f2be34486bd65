//! `make-list PATH` writes the fixed list to PATH; without a path, to the standard output.

use std::io::Write;

fn main() -> std::io::Result<()> {
    let bytes = list::making::bytes();
    match std::env::args().nth(1) {
        Some(path) => std::fs::write(path, bytes),
        None => std::io::stdout().write_all(&bytes),
    }
}
