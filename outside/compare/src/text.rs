//! The text of the program `showrun`, held against the plain listing.

use std::io::{Read, Write};
use std::path::Path;
use std::process::{Command, Stdio};

/// Says how the program's text differs from the plain listing, if it does.
pub fn compare(showrun: &Path, file: &[u8]) -> Result<(), String> {
    let printed = print(showrun, file).map_err(|e| format!("{}: {e}", showrun.display()))?;
    let expected = plain::listing(file);
    if printed == expected.as_bytes() {
        return Ok(());
    }
    Err(format!("showrun printed\n{}\nand not\n{expected}", String::from_utf8_lossy(&printed)))
}

fn print(showrun: &Path, file: &[u8]) -> std::io::Result<Vec<u8>> {
    let mut child = Command::new(showrun).stdin(Stdio::piped()).stdout(Stdio::piped()).spawn()?;
    let mut stdin = child.stdin.take().expect("a pipe");
    // a program that has refused may close its input before all of it is written
    let _ = stdin.write_all(file);
    drop(stdin);
    let mut printed = Vec::new();
    child.stdout.take().expect("a pipe").read_to_end(&mut printed)?;
    child.wait()?;
    Ok(printed)
}
