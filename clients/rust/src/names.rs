use std::fmt;
use std::str::FromStr;

/// A text that is no name, path or line.
#[derive(Clone, Debug, PartialEq, Eq)]
pub struct Malformed {
    /// What it should be.
    pub wanted: &'static str,
    /// The text, as far as it can be shown.
    pub text: String,
}

impl Malformed {
    pub(crate) fn new(wanted: &'static str, text: &[u8]) -> Malformed {
        Malformed {
            wanted,
            text: String::from_utf8_lossy(text).into_owned(),
        }
    }
}

impl fmt::Display for Malformed {
    fn fmt(&self, f: &mut fmt::Formatter<'_>) -> fmt::Result {
        write!(f, "{:?} is no {}", self.text, self.wanted)
    }
}

impl std::error::Error for Malformed {}

/// The name of a branch or a patch: 1 to 40 bytes of `a` to `z`, `0` to `9` and `-`, the first not `-`.
#[derive(Clone, Debug, PartialEq, Eq, PartialOrd, Ord, Hash)]
pub struct Name(String);

impl Name {
    /// A name, where the text is one.
    pub fn new(text: &str) -> Result<Name, Malformed> {
        let is_sign = |byte: u8| byte.is_ascii_lowercase() || byte.is_ascii_digit() || byte == b'-';
        if (1..=40).contains(&text.len()) && !text.starts_with('-') && text.bytes().all(is_sign) {
            Ok(Name(text.to_owned()))
        } else {
            Err(Malformed::new("name", text.as_bytes()))
        }
    }

    /// The text of the name.
    pub fn as_str(&self) -> &str {
        &self.0
    }
}

impl FromStr for Name {
    type Err = Malformed;

    fn from_str(text: &str) -> Result<Name, Malformed> {
        Name::new(text)
    }
}

impl fmt::Display for Name {
    fn fmt(&self, f: &mut fmt::Formatter<'_>) -> fmt::Result {
        f.write_str(&self.0)
    }
}

/// The path of a file: 1 to 200 bytes of printing ASCII without a space, in parts between `/` that are not empty, `.` or
/// `..`. Paths are unrelated keys: `d` and `d/e` may both be files.
#[derive(Clone, Debug, PartialEq, Eq, PartialOrd, Ord, Hash)]
pub struct FilePath(String);

impl FilePath {
    /// A path, where the text is one.
    pub fn new(text: &str) -> Result<FilePath, Malformed> {
        let is_part = |part: &str| !matches!(part, "" | "." | "..");
        let is_path = (1..=200).contains(&text.len())
            && text.bytes().all(|byte| byte.is_ascii_graphic())
            && text.split('/').all(is_part);
        if is_path {
            Ok(FilePath(text.to_owned()))
        } else {
            Err(Malformed::new("path", text.as_bytes()))
        }
    }

    /// The text of the path.
    pub fn as_str(&self) -> &str {
        &self.0
    }
}

impl FromStr for FilePath {
    type Err = Malformed;

    fn from_str(text: &str) -> Result<FilePath, Malformed> {
        FilePath::new(text)
    }
}

impl fmt::Display for FilePath {
    fn fmt(&self, f: &mut fmt::Formatter<'_>) -> fmt::Result {
        f.write_str(&self.0)
    }
}

/// A line of a file, without its line feed: up to 4,096 bytes of any kind but that.
#[derive(Clone, PartialEq, Eq, PartialOrd, Ord, Hash)]
pub struct Line(Vec<u8>);

impl Line {
    /// A line, where the bytes are one.
    pub fn new(bytes: impl Into<Vec<u8>>) -> Result<Line, Malformed> {
        let bytes = bytes.into();
        if bytes.len() > 4096 || bytes.contains(&b'\n') {
            return Err(Malformed::new("line", &bytes));
        }
        Ok(Line(bytes))
    }

    /// The bytes of the line.
    pub fn as_bytes(&self) -> &[u8] {
        &self.0
    }
}

impl fmt::Display for Line {
    fn fmt(&self, f: &mut fmt::Formatter<'_>) -> fmt::Result {
        f.write_str(&String::from_utf8_lossy(&self.0))
    }
}

impl fmt::Debug for Line {
    fn fmt(&self, f: &mut fmt::Formatter<'_>) -> fmt::Result {
        fmt::Debug::fmt(&String::from_utf8_lossy(&self.0), f)
    }
}

// The name that a word is.
pub(crate) fn read_name(word: &[u8]) -> Option<Name> {
    Name::new(std::str::from_utf8(word).ok()?).ok()
}

// The path that a word is.
pub(crate) fn read_path(word: &[u8]) -> Option<FilePath> {
    FilePath::new(std::str::from_utf8(word).ok()?).ok()
}
