//! The files that paths on the command line stand for.

use std::fs;
use std::io;
use std::path::{Path, PathBuf};

use crate::trouble::Trouble;

#[derive(Default)]
pub struct Files {
    pub paths: Vec<PathBuf>,
    /// Whether there is, by the words alone, just one.
    pub alone: bool,
    /// The folders that can't be read.
    pub troubles: Vec<Trouble>,
}

impl Files {
    /// In the order of the words, and in a folder by name, with what is in its folders.
    pub fn of(words: &[PathBuf]) -> Self {
        let mut files = Files::default();
        for word in words {
            if word.is_dir() {
                files.add_folder(word);
            } else {
                files.paths.push(word.clone());
            }
        }
        files.alone = matches!(words, [word] if !word.is_dir());
        files
    }

    fn add_folder(&mut self, folder: &Path) {
        match entries(folder) {
            Ok(entries) => entries.into_iter().for_each(|entry| self.add(entry)),
            Err(error) => self.troubles.push(Trouble::failed(folder, error)),
        }
    }

    /// A link to a folder may lead back here, and is not followed. Pipes, sockets and devices are
    /// not looked into; whatever else can't be read is told when it is its turn.
    fn add(&mut self, entry: PathBuf) {
        match fs::metadata(&entry) {
            Ok(there) if there.is_dir() => {
                if !entry.is_symlink() {
                    self.add_folder(&entry);
                }
            }
            Ok(there) if !there.is_file() => {}
            _ => self.paths.push(entry),
        }
    }
}

fn entries(folder: &Path) -> io::Result<Vec<PathBuf>> {
    let entries = fs::read_dir(folder)?.map(|entry| Ok(entry?.path()));
    let mut entries = entries.collect::<io::Result<Vec<_>>>()?;
    entries.sort();
    Ok(entries)
}
