use crate::answers::{number, Lines};
use crate::names::{read_path, FilePath, Line, Malformed, Name};
use std::fmt;

/// A change of a patch.
#[derive(Clone, Debug, PartialEq, Eq)]
pub enum Change {
    /// A file without lines is there now.
    Add(FilePath),
    /// A file without lines is gone.
    Remove(FilePath),
    /// Lines of a file, from this one on, counted from 1, are replaced by others.
    Edit {
        /// The file.
        path: FilePath,
        /// The first line.
        line: u32,
        /// The lines that stand there.
        old: Vec<Line>,
        /// Those that come in their place.
        new: Vec<Line>,
    },
}

impl Change {
    /// Adds a file.
    pub fn add(path: &str) -> Result<Change, Malformed> {
        Ok(Change::Add(FilePath::new(path)?))
    }

    /// Removes a file, which has to have no lines.
    pub fn remove(path: &str) -> Result<Change, Malformed> {
        Ok(Change::Remove(FilePath::new(path)?))
    }

    /// Puts new lines in the place of old ones, of which the first is this line of the file.
    pub fn edit(path: &str, line: u32, old: &[&str], new: &[&str]) -> Result<Change, Malformed> {
        let lines = |texts: &[&str]| {
            texts
                .iter()
                .map(|text| Line::new(*text))
                .collect::<Result<Vec<Line>, Malformed>>()
        };
        Ok(Change::Edit {
            path: FilePath::new(path)?,
            line,
            old: lines(old)?,
            new: lines(new)?,
        })
    }

    // Appends the text of the change, as a command has it.
    pub(crate) fn append_to(&self, text: &mut Vec<u8>) {
        match self {
            Change::Add(path) => text.extend(format!("add {path}\n").bytes()),
            Change::Remove(path) => text.extend(format!("remove {path}\n").bytes()),
            Change::Edit {
                path,
                line,
                old,
                new,
            } => {
                text.extend(format!("edit {path} {line}\n").bytes());
                for (sign, lines) in [(b'-', old), (b'+', new)] {
                    for line in lines {
                        text.push(sign);
                        text.extend(line.as_bytes());
                        text.push(b'\n');
                    }
                }
                text.extend(b"end\n");
            }
        }
    }

    // The changes of a group.
    pub(crate) fn read_all(lines: &mut Lines) -> Option<Vec<Change>> {
        let mut changes = Vec::new();
        while let Some(words) = lines.words() {
            changes.push(match words.as_slice() {
                [b"add", path] => Change::Add(read_path(path)?),
                [b"remove", path] => Change::Remove(read_path(path)?),
                [b"edit", path, line] => read_edit(path, line, lines)?,
                _ => return None,
            });
        }
        Some(changes)
    }
}

// An edit, whose body follows: old lines after `-`, new ones after `+`, and `end`.
fn read_edit(path: &[u8], line: &[u8], lines: &mut Lines) -> Option<Change> {
    let (mut old, mut new) = (Vec::new(), Vec::new());
    loop {
        match lines.next()?.split_first() {
            Some((b'-', line)) if new.is_empty() => old.push(Line::new(line).ok()?),
            Some((b'+', line)) => new.push(Line::new(line).ok()?),
            Some((b'e', b"nd")) => break,
            _ => return None,
        }
    }
    Some(Change::Edit {
        path: read_path(path)?,
        line: u32::try_from(number(line)?).ok()?,
        old,
        new,
    })
}

impl fmt::Display for Change {
    fn fmt(&self, f: &mut fmt::Formatter<'_>) -> fmt::Result {
        let mut text = Vec::new();
        self.append_to(&mut text);
        f.write_str(&String::from_utf8_lossy(&text))
    }
}

// The command that records changes.
pub(crate) fn record_command(branch: &Name, name: &Name, changes: &[Change]) -> Vec<u8> {
    let mut text = format!("record {branch} {name} ").into_bytes();
    if let [change] = changes {
        change.append_to(&mut text);
    } else {
        text.extend(b"group\n");
        for change in changes {
            change.append_to(&mut text);
        }
        text.extend(b"done\n");
    }
    text
}
