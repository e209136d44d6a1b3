//! Manifests and their program files.

use crate::sys;
use std::fs;
use std::io;
use std::path::Path;

/// Which maps a store has and which programs it offers: a text (docs/FORMATS.md), and the program files that it names.
#[derive(Clone, Debug, Default, PartialEq, Eq)]
pub struct Manifest {
    text: Vec<u8>,
    files: Vec<(Vec<u8>, Vec<u8>)>,
}

impl Manifest {
    /// A manifest of this text, without any file.
    pub fn new(text: impl Into<Vec<u8>>) -> Manifest {
        Manifest { text: text.into(), files: Vec::new() }
    }

    /// The same with a program file: its name as the manifest has it, and its hexadecimal digits.
    #[must_use]
    pub fn file(mut self, name: impl Into<Vec<u8>>, text: impl Into<Vec<u8>>) -> Manifest {
        self.files.push((name.into(), text.into()));
        self
    }

    /// Reads a manifest and the files that it names, which are paths from the working folder.
    ///
    /// # Errors
    ///
    /// One of them can't be read.
    pub fn read(path: impl AsRef<Path>) -> io::Result<Manifest> {
        Manifest::read_in(".", path)
    }

    /// The same with paths from another folder.
    ///
    /// # Errors
    ///
    /// One of them can't be read.
    pub fn read_in(folder: impl AsRef<Path>, path: impl AsRef<Path>) -> io::Result<Manifest> {
        let folder = folder.as_ref();
        let mut read = Manifest::new(fs::read(folder.join(path))?);
        let mut names: Vec<String> =
            read.lines().filter(|words| words.len() == 5 && words[0] == "program").map(|words| words[4].clone()).collect();
        names.sort();
        names.dedup();
        for name in names {
            let text = fs::read(folder.join(&name)).map_err(|why| io::Error::new(why.kind(), format!("{name}: {why}")))?;
            read.files.push((name.into_bytes(), text));
        }
        Ok(read)
    }

    /// The words of each line.
    fn lines(&self) -> impl Iterator<Item = Vec<String>> + '_ {
        let words = |line: &[u8]| String::from_utf8_lossy(line).split(' ').map(str::to_owned).collect();
        self.text.split(|&byte| byte == b'\n').map(words)
    }

    /// Makes a call of the library on this manifest.
    pub(crate) fn with<T>(&self, call: impl FnOnce(&[u8], &[sys::nrbpf_file]) -> T) -> T {
        let file = |(name, text): &(Vec<u8>, Vec<u8>)| sys::nrbpf_file {
            name: name.as_ptr().cast(),
            name_len: name.len(),
            text: text.as_ptr().cast(),
            text_len: text.len(),
        };
        let files: Vec<sys::nrbpf_file> = self.files.iter().map(file).collect();
        call(&self.text, &files)
    }
}
