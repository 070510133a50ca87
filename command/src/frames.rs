//! New captures with the frames that passed, or with those that were dropped.

use crate::endings;
use crate::progress::Progress;
use crate::say::reason;
use bromaveluth::capture::{records, Counts, HEADER};
use bromaveluth::run;
use std::fs::{self, File, OpenOptions};
use std::io::{self, BufWriter, ErrorKind, Write};
use std::path::{Path, PathBuf};

/// A capture that is being written, under a temporary name in the folder where it will stand.
struct New {
    path: PathBuf,
    temporary: PathBuf,
    out: BufWriter<File>,
    /// Its number among those that a signal removes.
    slot: Option<usize>,
}

fn cannot(path: &Path, error: &io::Error) -> String {
    let why = match error.kind() {
        ErrorKind::AlreadyExists => "it is there already, and nothing is written over".to_string(),
        _ => reason(error),
    };
    format!("{}: cannot be written: {why}", path.display())
}

/// Fails if something stands under this name, a broken link too.
pub fn is_free(path: &Path) -> Result<(), String> {
    match path.symlink_metadata() {
        Ok(_) => Err(cannot(path, &ErrorKind::AlreadyExists.into())),
        Err(error) if error.kind() == ErrorKind::NotFound => Ok(()),
        Err(error) => Err(cannot(path, &error)),
    }
}

impl New {
    fn begun(path: &Path, header: &[u8]) -> Result<New, String> {
        is_free(path)?;
        let name = path.file_name().ok_or_else(|| format!("{}: cannot be written: this names no file", path.display()))?;
        let mut temporary_name = std::ffi::OsString::from(".");
        temporary_name.push(name);
        temporary_name.push(format!(".{}.part", std::process::id()));
        let temporary = path.with_file_name(temporary_name);
        // Remembered before it is there, so that no signal finds it forgotten.
        let slot = endings::remember(&temporary);
        let file = match OpenOptions::new().write(true).create_new(true).open(&temporary) {
            Ok(file) => file,
            Err(error) => {
                if let Some(slot) = slot {
                    endings::forget(slot);
                }
                return Err(cannot(if error.kind() == ErrorKind::AlreadyExists { &temporary } else { path }, &error));
            }
        };
        let mut new = New { path: path.to_owned(), temporary, out: BufWriter::with_capacity(1 << 18, file), slot };
        new.add(header)?;
        Ok(new)
    }

    fn add(&mut self, bytes: &[u8]) -> Result<(), String> {
        self.out.write_all(bytes).map_err(|error| cannot(&self.path, &error))
    }

    /// Gives the file its name, once all of it is on the disk.
    fn placed(mut self) -> Result<(), String> {
        let done =
            self.out.flush().and_then(|()| self.out.get_ref().sync_all()).and_then(|()| named(&self.temporary, &self.path));
        done.map_err(|error| cannot(&self.path, &error))
    }
}

/// A second name for the file, which fails if that name is taken; the first one goes with `New`.
fn named(temporary: &Path, path: &Path) -> io::Result<()> {
    match fs::hard_link(temporary, path) {
        Err(error) if error.kind() != ErrorKind::AlreadyExists => {
            // A file system without second names: rename would write over a file that came meanwhile, so that is looked for once more.
            match path.symlink_metadata() {
                Ok(_) => Err(ErrorKind::AlreadyExists.into()),
                Err(_) => fs::rename(temporary, path),
            }
        }
        done => done,
    }
}

impl Drop for New {
    fn drop(&mut self) {
        _ = fs::remove_file(&self.temporary);
        if let Some(slot) = self.slot {
            endings::forget(slot);
        }
    }
}

/// What is written, and where to.
pub struct Wanted<'a> {
    pub passed: Option<&'a Path>,
    pub dropped: Option<&'a Path>,
}

/// Writes the frames of a file that was counted, each judged again by the proved machine; the classes must be as large as they were.
pub fn write(file: &[u8], program: &[u8], counts: Counts, wanted: &Wanted, name: &str) -> Result<(), String> {
    let begun = |path: Option<&Path>| path.map(|path| New::begun(path, &file[..HEADER])).transpose();
    let (mut passed, mut dropped) = (begun(wanted.passed)?, begun(wanted.dropped)?);
    let (mut found, mut progress) = (Counts::default(), Progress::of(name));
    for record in records(file) {
        progress.at(record.at as u64, file.len() as u64);
        if record.is_cut() {
            found.cut += 1;
            continue;
        }
        let verdict = run(program, record.frame, 0, program.len() as u64 / 8).verdict();
        let (class, new) = match verdict.ok_or_else(|| format!("the program does not end on the frame at byte {}", record.at))? {
            true => (&mut found.passed, &mut passed),
            false => (&mut found.dropped, &mut dropped),
        };
        *class += 1;
        if let Some(new) = new {
            new.add(record.whole)?;
        }
    }
    if found != counts {
        return Err(format!("the frames found now are not those counted before ({found:?}, {counts:?}): did the file change?"));
    }
    passed.into_iter().chain(dropped).try_for_each(New::placed)
}
