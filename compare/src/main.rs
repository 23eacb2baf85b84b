//! The program. Without the original it says so and ends with a status of its own.

#[cfg(original)]
mod commands;

fn main() {
    std::process::exit(run());
}

#[cfg(original)]
fn run() -> i32 {
    let words: Vec<String> = std::env::args().skip(1).collect();
    commands::run(&words)
}

#[cfg(not(original))]
fn run() -> i32 {
    let folder = comparison::ORIGINAL;
    eprintln!("compare: the original Rust is not in {folder}: set COBRWYDD_RUST to its folder and build again");
    3
}
