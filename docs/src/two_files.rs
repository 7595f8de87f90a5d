//! Programs on two files: a table and a list, in a folder of the run's own.

use crate::compare::{printed, Printed};
use std::path::PathBuf;
use std::process::Stdio;

/// The folder; it is taken away with all that is in it.
pub struct Folder(PathBuf);

impl Drop for Folder {
    fn drop(&mut self) {
        let _ = std::fs::remove_dir_all(&self.0);
    }
}

impl Folder {
    pub fn new() -> Result<Folder, String> {
        let path = std::env::temp_dir().join(format!("danyeokpi-chains-{}", std::process::id()));
        let made = std::fs::create_dir(&path);
        made.map_err(|error| format!("{}: {error}", path.display()))?;
        Ok(Folder(path))
    }

    /// What a program prints, given two files of these bytes; none if it does not end in time, or with another status than 0.
    /// The files have a case's number in their names, so that each worker has its own.
    pub fn ask(
        &self,
        program: &str,
        number: usize,
        contents: [&[u8]; 2],
    ) -> Result<Option<Printed>, String> {
        let paths = ["table", "list"].map(|kind| self.0.join(format!("{number}.{kind}")));
        let mut words = String::from(program);
        for (path, bytes) in paths.iter().zip(contents) {
            let written = std::fs::write(path, bytes);
            written.map_err(|error| format!("{}: {error}", path.display()))?;
            words += &format!("\n{}", path.display());
        }
        let printed = printed(&words, Stdio::piped(), &[]);
        for path in paths {
            let _ = std::fs::remove_file(path);
        }
        printed
    }
}
