//! Files written: whole, or not at all.

use std::fs::{self, File};
use std::io::{self, Read as _, Seek as _, Write as _};
use std::path::{Path, PathBuf};

/// Writes a file beside its place and then puts it there, so that nobody sees half of it. A link stays a link, and a file
/// keeps who may read it.
pub fn whole(file: &str, bytes: &[u8]) -> io::Result<()> {
    // A device or a pipe is written to, and not replaced.
    if fs::metadata(file).is_ok_and(|meta| !meta.is_file()) {
        return fs::write(file, bytes);
    }
    let place = fs::canonicalize(file).unwrap_or_else(|_| PathBuf::from(file));
    let mut name = place.file_name().map(|name| name.to_os_string()).unwrap_or_default();
    name.push(format!(".{}.new", std::process::id()));
    let beside = place.with_file_name(name);
    let written = write_beside(&beside, &place, bytes);
    if written.is_err() {
        let _ = fs::remove_file(&beside);
    }
    written
}

fn write_beside(beside: &Path, place: &Path, bytes: &[u8]) -> io::Result<()> {
    File::create_new(beside)?.write_all(bytes)?;
    if let Ok(before) = fs::metadata(place) {
        fs::set_permissions(beside, before.permissions())?;
    }
    fs::rename(beside, place)
}

/// Whether two names are those of one file that is there.
pub fn same(one: &str, other: &str) -> bool {
    matches!((fs::canonicalize(one), fs::canonicalize(other)), (Ok(one), Ok(other)) if one == other)
}

/// A ledger's file that nobody else changes meanwhile: another request waits until this one is done.
pub struct Held(File);

impl Held {
    /// Opens a ledger's file, and waits for it. The bytes behind the longest ledger are of no interest.
    pub fn open(file: &str, most: usize) -> io::Result<(Held, Vec<u8>)> {
        let mut held = File::options().read(true).write(true).open(file)?;
        held.lock()?;
        let mut bytes = Vec::new();
        (&mut held).take(most as u64).read_to_end(&mut bytes)?;
        Ok((Held(held), bytes))
    }

    /// Puts other bytes, as many as were there, in the place of those that were read.
    pub fn put(mut self, bytes: &[u8]) -> io::Result<()> {
        self.0.rewind()?;
        self.0.write_all(bytes)?;
        self.0.sync_all()
    }
}
