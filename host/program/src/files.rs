//! Files of the program; their forms are in host/README.md.

use crate::Failure;
use plan::{script_file, Edition};
use std::fs::{self, File};
use std::io::{self, BufWriter, Write};
use std::path::{Path, PathBuf};
use std::sync::Mutex;

pub fn read(path: &str) -> Result<Vec<u8>, Failure> {
    fs::read(path).map_err(|error| Failure::Failed(format!("{} cannot be read: {}", path, error)))
}

pub fn text(path: &str) -> Result<String, Failure> {
    String::from_utf8(read(path)?).map_err(|_| Failure::Failed(format!("{} is no text", path)))
}

/// The words of a file: a state, a gate list, or a read set.
pub fn words(path: &str) -> Result<Vec<u32>, Failure> {
    let bytes = read(path)?;
    if bytes.len() % 4 != 0 {
        let length = crate::say::many(bytes.len() as u64, "byte");
        return Err(Failure::Failed(format!("{} is no list of words: it has {}", path, length)));
    }
    Ok(script_file::words_of(&bytes))
}

/// Sees that a plan record is of this edition, where one is asked for and the record names one.
pub fn is_of(path: &str, record: &[u8], asked: Option<Edition>) -> Result<(), Failure> {
    let word = record.get(4 * plan::EDITION_WORD..).and_then(|rest| rest.get(..4));
    let number = word.map(|word| u32::from_le_bytes([word[0], word[1], word[2], word[3]]));
    match (number.and_then(Edition::numbered), asked) {
        (Some(of), Some(asked)) if of != asked => Err(Failure::Failed(format!(
            "{} is a plan of the {} edition, not of the {} one",
            path, of, asked
        ))),
        _ => Ok(()),
    }
}

/// The script of a file that `juolgesot build` wrote.
pub fn script(path: &str) -> Result<plan::Script, Failure> {
    script_file::read(&read(path)?)
        .map_err(|what| Failure::Failed(format!("{} is no script file: {}", path, what)))
}

pub fn write(path: &str, bytes: &[u8]) -> Result<(), Failure> {
    let mut writing = Writing::begin(path)?;
    writing.write(bytes)?;
    writing.finish()
}

/// Files that are being written, where they lie.
static BEGUN: Mutex<Vec<PathBuf>> = Mutex::new(Vec::new());

/// Removes what is not finished, before the program ends early.
pub fn give_up() {
    if let Ok(mut begun) = BEGUN.lock() {
        for path in begun.drain(..) {
            let _ = fs::remove_file(path);
        }
    }
}

fn change_begun(change: impl FnOnce(&mut Vec<PathBuf>)) {
    if let Ok(mut begun) = BEGUN.lock() {
        change(&mut begun);
    }
}

/// A file that is being written. It appears under its name whole, or not at all: what is written lies beside it before.
pub struct Writing {
    path: String,
    file: BufWriter<File>,
    /// Where it lies, and the name that it is to have; none for what is no plain file (a pipe, a device).
    moves: Option<(PathBuf, PathBuf)>,
}

impl Writing {
    pub fn begin(path: &str) -> Result<Self, Failure> {
        let begun = match place(path) {
            Some(to) => {
                let beside = beside(&to);
                File::create(&beside).map(|file| {
                    change_begun(|begun| begun.push(beside.clone()));
                    (file, Some((beside, to)))
                })
            }
            None => File::options().write(true).open(path).map(|file| (file, None)),
        };
        match begun {
            Ok((file, moves)) => Ok(Writing { path: path.to_string(), file: BufWriter::new(file), moves }),
            Err(error) => Err(failed(path, error)),
        }
    }

    pub fn write(&mut self, bytes: &[u8]) -> Result<(), Failure> {
        self.file.write_all(bytes).map_err(|error| failed(&self.path, error))
    }

    /// Gives it its name.
    pub fn finish(mut self) -> Result<(), Failure> {
        self.file.flush().map_err(|error| failed(&self.path, error))?;
        match &self.moves {
            Some((from, to)) => fs::rename(from, to).map_err(|error| failed(&self.path, error)),
            None => Ok(()),
        }
    }
}

impl Drop for Writing {
    fn drop(&mut self) {
        if let Some((from, _)) = &self.moves {
            // It is not there where it got its name.
            let _ = fs::remove_file(from);
            change_begun(|begun| begun.retain(|path| path != from));
        }
    }
}

fn failed(path: &str, error: io::Error) -> Failure {
    Failure::Failed(format!("{} cannot be written: {}", path, error))
}

/// Where a plain file of this name is, or would be, links being followed; none where something else has the name.
fn place(path: &str) -> Option<PathBuf> {
    match fs::metadata(path) {
        Ok(found) if found.is_file() => Some(fs::canonicalize(path).unwrap_or_else(|_| path.into())),
        Ok(_) => None,
        Err(_) => Some(path.into()),
    }
}

/// The name beside a file under which it is written.
fn beside(path: &Path) -> PathBuf {
    let mut name = path.file_name().unwrap_or_default().to_os_string();
    name.push(format!(".{}.part", std::process::id()));
    path.with_file_name(name)
}
