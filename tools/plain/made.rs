//! A file that is made whole or not at all, as siman makes it: beside its place, on the disk, and then put there.

use std::fs::{self, File, OpenOptions};
use std::io::{self, Write};
use std::path::Path;

pub fn make(name: &str, pieces: &[&[u8]]) -> io::Result<()> {
    let part = format!("{name}.part");
    let mut file = OpenOptions::new().write(true).create_new(true).open(&part)?;
    for piece in pieces {
        file.write_all(piece)?;
    }
    file.sync_all()?;
    fs::rename(&part, name)?;
    let folder = Path::new(name).parent().filter(|it| !it.as_os_str().is_empty());
    File::open(folder.unwrap_or(Path::new(".")))?.sync_all()
}
