use crate::answers::{number, words, Lines};
use crate::names::{read_name, Line, Name};

/// Two patches in conflict: they contradict each other, and neither has an effect. The lesser name stands first.
#[derive(Clone, Debug, PartialEq, Eq, PartialOrd, Ord, Hash)]
pub struct Conflict {
    /// The lesser name.
    pub left: Name,
    /// The other.
    pub right: Name,
}

impl Conflict {
    // So many pairs of names.
    pub(crate) fn read_some(count: u64, lines: &mut Lines) -> Option<Vec<Conflict>> {
        let pair = |_| match lines.words()?.as_slice() {
            [left, right] => Some(Conflict {
                left: read_name(left)?,
                right: read_name(right)?,
            }),
            _ => None,
        };
        (0..count).map(pair).collect()
    }
}

/// A part of a file that is shown with its unresolved sides.
#[derive(Clone, Debug, PartialEq, Eq)]
pub enum Part {
    /// A line outside of conflicts.
    Line(Line),
    /// Lines where sides differ.
    Hunk(Hunk),
}

/// Lines of a file where unresolved sides differ.
#[derive(Clone, Debug, PartialEq, Eq)]
pub struct Hunk {
    /// The lines that stand there now.
    pub lines: Vec<Line>,
    /// What each side has instead, in the order of the branch.
    pub sides: Vec<HunkSide>,
}

/// The lines that an unresolved patch would put in the place of a hunk's.
#[derive(Clone, Debug, PartialEq, Eq)]
pub struct HunkSide {
    /// The patch.
    pub name: Name,
    /// Its lines.
    pub lines: Vec<Line>,
}

impl Part {
    // All parts: lines after `=`, and hunks.
    pub(crate) fn read_all(lines: &mut Lines) -> Option<Vec<Part>> {
        let mut parts = Vec::new();
        while let Some(first) = lines.next() {
            parts.push(match first.strip_prefix(b"=") {
                Some(line) => Part::Line(Line::new(line).ok()?),
                None => Part::Hunk(Hunk::read(first, lines)?),
            });
        }
        Some(parts)
    }
}

impl Hunk {
    // `conflict SIDES LINES`, the lines, and the sides.
    fn read(first: &[u8], lines: &mut Lines) -> Option<Hunk> {
        match words(first).as_slice() {
            [b"conflict", sides, count] => {
                let here = lines.signed(number(count)?, b"=")?;
                let sides = (0..number(sides)?).map(|_| HunkSide::read(lines));
                Some(Hunk {
                    lines: here,
                    sides: sides.collect::<Option<_>>()?,
                })
            }
            _ => None,
        }
    }
}

impl HunkSide {
    // `side NAME LINES`, and its lines.
    fn read(lines: &mut Lines) -> Option<HunkSide> {
        match lines.words()?.as_slice() {
            [b"side", name, count] => Some(HunkSide {
                name: read_name(name)?,
                lines: lines.signed(number(count)?, b"+")?,
            }),
            _ => None,
        }
    }
}
