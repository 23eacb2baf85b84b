//! Instructions by `valgrind --tool=callgrind`, under which this program runs again for one side of one benchmark.

use std::env::current_exe;
use std::process::Command;

/// Whether valgrind can be run here.
pub fn there() -> bool {
    Command::new("valgrind").arg("--version").output().is_ok_and(|said| said.status.success())
}

/// The instructions of `bench_region` and all that it calls, and what the run gave.
pub fn count(side: &str, name: &str) -> Result<(u64, String), String> {
    let program = current_exe().map_err(|why| why.to_string())?;
    let said = Command::new("valgrind")
        .args(["--tool=callgrind", "--toggle-collect=bench_region", "--callgrind-out-file=/dev/null"])
        .arg(program)
        .args(["--bench-once", side, name])
        .output()
        .map_err(|why| format!("valgrind: {why}"))?;
    let told = String::from_utf8_lossy(&said.stderr);
    let collected = told.lines().find_map(|line| line.split_once("Collected : ")?.1.trim().parse().ok());
    match collected {
        Some(collected) if said.status.success() && collected > 0 => {
            Ok((collected, String::from_utf8_lossy(&said.stdout).trim_end().to_string()))
        }
        _ => Err(format!("callgrind counted nothing\n{told}")),
    }
}
