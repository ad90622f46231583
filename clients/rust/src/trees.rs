use crate::answers::{number, Lines};
use crate::names::{read_path, FilePath, Line};
use std::collections::BTreeMap;
use std::fmt;

/// The files of a branch, each with its lines.
#[derive(Clone, Debug, Default, PartialEq, Eq)]
pub struct Tree {
    /// The files, in the order of their paths.
    pub files: BTreeMap<FilePath, Vec<Line>>,
}

impl Tree {
    /// The lines of a file, where there is one.
    pub fn lines(&self, path: &str) -> Option<&[Line]> {
        self.files
            .get(&FilePath::new(path).ok()?)
            .map(Vec::as_slice)
    }

    // So many files: `file PATH LINES`, and the lines after `=`.
    pub(crate) fn read(count: u64, lines: &mut Lines) -> Option<Tree> {
        let file = |_| match lines.words()?.as_slice() {
            [b"file", path, count] => {
                let read = lines.signed(number(count)?, b"=")?;
                Some((read_path(path)?, read))
            }
            _ => None,
        };
        let files = (0..count).map(file).collect::<Option<BTreeMap<_, _>>>()?;
        Some(Tree { files })
    }
}

impl fmt::Display for Tree {
    fn fmt(&self, f: &mut fmt::Formatter<'_>) -> fmt::Result {
        for (path, lines) in &self.files {
            writeln!(f, "{path}")?;
            for line in lines {
                writeln!(f, "  {line}")?;
            }
        }
        Ok(())
    }
}
