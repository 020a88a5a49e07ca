//! The texts of a program with their names and lines, by the names of upstream's module.

use crate::codegen::Prefix;
use std::io;
use std::ops::Index;
use std::path::{Path, PathBuf};

/// Files, by their numbers: each has a name, a text and a line map.
#[derive(Clone, Debug, Default, PartialEq, Eq)]
pub struct Files {
    /// The names.
    pub file_names: Vec<String>,
    /// The texts.
    pub file_texts: Vec<String>,
    /// The line maps.
    pub file_line_maps: Vec<LineMap>,
}

impl Files {
    /// Reads files. A name is its path, in which the first of the prefixes that it begins with is
    /// replaced.
    ///
    /// # Errors
    ///
    /// The path and the system's error of the first file that can't be read, or is not UTF-8.
    pub fn from_paths<P: AsRef<Path>>(
        paths: impl IntoIterator<Item = P>,
        prefixes: &[Prefix],
    ) -> Result<Self, (PathBuf, io::Error)> {
        let mut files = Files::default();
        for path in paths {
            let path = path.as_ref();
            let text = std::fs::read_to_string(path).map_err(|error| (path.to_owned(), error))?;
            files.push(shortened(path.display().to_string(), prefixes), text);
        }
        Ok(files)
    }

    /// Makes files of pairs of a name and a text, numbered in order.
    pub fn from_names_and_contents(files: impl IntoIterator<Item = (String, String)>) -> Self {
        let mut made = Files::default();
        for (name, text) in files {
            made.push(name, text);
        }
        made
    }

    /// The name of the file with this number.
    pub fn file_name(&self, file: usize) -> Option<&str> {
        self.file_names.get(file).map(String::as_str)
    }

    /// The text of the file with this number.
    pub fn file_text(&self, file: usize) -> Option<&str> {
        self.file_texts.get(file).map(String::as_str)
    }

    /// The line map of the file with this number.
    pub fn file_line_map(&self, file: usize) -> Option<&LineMap> {
        self.file_line_maps.get(file)
    }

    fn push(&mut self, name: String, text: String) {
        self.file_line_maps.push(LineMap::from_str(&text));
        self.file_names.push(name);
        self.file_texts.push(text);
    }
}

/// A path, in which the first of these prefixes that it begins with is replaced.
fn shortened(path: String, prefixes: &[Prefix]) -> String {
    let mut rests = prefixes
        .iter()
        .map(|it| (it, path.strip_prefix(&it.prefix)));
    match rests.find_map(|(it, rest)| Some(format!("{}{}", it.name, rest?))) {
        Some(short) => short,
        None => path,
    }
}

/// Where each line of a text ends. `map[line]` is the offset behind the line feed of the line with
/// this number, counted from 0.
#[derive(Clone, Debug, Default, PartialEq, Eq)]
pub struct LineMap {
    ends: Vec<usize>,
}

impl LineMap {
    /// Makes the line map of a text.
    #[expect(clippy::should_implement_trait, reason = "upstream's name")]
    pub fn from_str(text: &str) -> Self {
        let feeds = text.bytes().enumerate().filter(|(_, byte)| *byte == b'\n');
        LineMap {
            ends: feeds.map(|(offset, _)| offset + 1).collect(),
        }
    }

    /// The number of the line that has this offset, from 0.
    pub fn line(&self, pos: usize) -> usize {
        self.ends.partition_point(|&end| end <= pos)
    }

    /// The offset behind the line feed of the line with this number, from 0, if it has one.
    pub fn get(&self, line: usize) -> Option<&usize> {
        self.ends.get(line)
    }
}

impl Index<usize> for LineMap {
    type Output = usize;

    fn index(&self, line: usize) -> &usize {
        &self.ends[line]
    }
}
