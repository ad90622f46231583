use crate::answers::{number, Lines};
use crate::changes::Change;
use crate::conflicts::Conflict;
use crate::names::{read_name, Line, Name};
use crate::trees::Tree;

/// A line of a file, and the patch that put it there.
#[derive(Clone, Debug, PartialEq, Eq)]
pub struct AnnotatedLine {
    /// The patch.
    pub name: Name,
    /// The line.
    pub line: Line,
}

impl AnnotatedLine {
    // `NAME =LINE`.
    pub(crate) fn read(line: &[u8]) -> Option<AnnotatedLine> {
        let blank = line.iter().position(|byte| *byte == b' ')?;
        let (name, rest) = line.split_at(blank);
        Some(AnnotatedLine {
            name: read_name(name)?,
            line: Line::new(rest.strip_prefix(b" =")?).ok()?,
        })
    }
}

/// A patch as it stands in a branch.
#[derive(Clone, Debug, PartialEq, Eq)]
pub struct Shown {
    /// Its catches, in camp's notation.
    pub catches: Vec<String>,
    /// What they change there.
    pub changes: Vec<Change>,
}

impl Shown {
    // The catches, each of which begins with a bracket, and then the changes.
    pub(crate) fn read(lines: &mut Lines) -> Option<Shown> {
        let mut catches = Vec::new();
        while matches!(lines.0.first(), Some(b'[' | b'(')) {
            catches.push(String::from_utf8(lines.next()?.to_vec()).ok()?);
        }
        let changes = Change::read_all(lines)?;
        Some(Shown { catches, changes })
    }
}

/// An accepted call.
#[derive(Clone, Debug, PartialEq, Eq)]
pub struct AcceptedCall {
    /// Its number, counted from 1.
    pub number: u64,
    /// The seat that asked it.
    pub seat: u64,
    /// The command; of a body the numbers of its lines or changes.
    pub command: String,
}

impl AcceptedCall {
    // `NUMBER SEAT COMMAND`.
    pub(crate) fn read(line: &[u8]) -> Option<AcceptedCall> {
        let mut parts = line.splitn(3, |byte| *byte == b' ');
        Some(AcceptedCall {
            number: number(parts.next()?)?,
            seat: number(parts.next()?)?,
            command: String::from_utf8(parts.next()?.to_vec()).ok()?,
        })
    }
}

/// What a call would do.
#[derive(Clone, Debug, PartialEq, Eq)]
pub struct Outcome {
    /// The number that it would have.
    pub number: u64,
    /// The conflicts of its branch after it.
    pub conflicts: Vec<Conflict>,
    /// Those that are unresolved after it, and not before.
    pub opened: Vec<Conflict>,
    /// Those that are unresolved before it, and not after.
    pub resolved: Vec<Conflict>,
    /// The files of its branch after it.
    pub tree: Tree,
}

impl Outcome {
    // `ok NUMBER`, and parts that say how many lines they have; the last one is the tree. Parts of later versions are
    // passed over.
    pub(crate) fn read(lines: &mut Lines) -> Option<Outcome> {
        let accepted = match lines.words()?.as_slice() {
            [b"ok", accepted] => number(accepted)?,
            _ => return None,
        };
        let (mut conflicts, mut opened, mut resolved) = (Vec::new(), Vec::new(), Vec::new());
        loop {
            match lines.words()?.as_slice() {
                [b"conflicts", count] => conflicts = Conflict::read_some(number(count)?, lines)?,
                [b"opened", count] => opened = Conflict::read_some(number(count)?, lines)?,
                [b"resolved", count] => resolved = Conflict::read_some(number(count)?, lines)?,
                [b"tree", count] => {
                    let tree = Tree::read(number(count)?, lines)?;
                    return Some(Outcome {
                        number: accepted,
                        conflicts,
                        opened,
                        resolved,
                        tree,
                    });
                }
                [_, count] => (0..number(count)?).try_for_each(|_| lines.next().map(drop))?,
                _ => return None,
            }
        }
    }
}
