//! Kaldi's archives of matrices: a key, a blank and a matrix, one after the other, each in text or in binary.
//!
//! Text: `key  [`, rows of numbers that end at a line's end or a `;`, `]`. Binary: the bytes 0 and `B` after the key's blank, `FM ` or
//! `DM `, rows and columns (a byte 4 and an i32 each), then the numbers, little-endian, row by row. Rows are given out as they are read, so
//! that a matrix of any length takes the memory of a row.
use std::fmt;
use std::io::{self, Read, Write};

/// Why an archive is read no further.
#[derive(Debug)]
pub enum ArchiveError {
    /// It can't be read.
    Unread(io::Error),
    /// It breaks its form, at this byte, counted from 0.
    Damaged(u64, String),
}

impl fmt::Display for ArchiveError {
    fn fmt(&self, f: &mut fmt::Formatter) -> fmt::Result {
        match self {
            ArchiveError::Unread(e) => write!(f, "{e}"),
            ArchiveError::Damaged(at, what) => write!(f, "byte {at}: {what}"),
        }
    }
}

impl std::error::Error for ArchiveError {}

impl From<io::Error> for ArchiveError {
    fn from(e: io::Error) -> Self {
        ArchiveError::Unread(e)
    }
}

/// What is left of the matrix that is being read.
enum Matrix {
    /// No row.
    Ended,
    /// Rows of text, `columns` numbers each once the first is read.
    Text { columns: Option<usize> },
    /// So many rows of so many numbers of 4 or 8 bytes.
    Binary { rows: usize, columns: usize, width: usize },
}

/// An archive that is read from the front.
pub struct Archive<R: Read> {
    input: R,
    /// Bytes that were read, so many.
    buffer: Box<[u8]>,
    filled: usize,
    /// The next byte's place in the buffer, and how many bytes came before the buffer's.
    at: usize,
    dropped: u64,
    key: Vec<u8>,
    matrix: Matrix,
    row: u64,
}

const BUFFER: usize = 1 << 16;
/// A key or a number of text that is longer is none.
const WORD: usize = 4096;

fn blank(c: u8) -> bool {
    c == b' ' || (9..=13).contains(&c)
}

/// Room for more numbers of a row, which may be as long as a file.
fn reserve(row: &mut Vec<f32>, more: usize) -> Result<(), ArchiveError> {
    row.try_reserve(more).map_err(|_| ArchiveError::Unread(io::ErrorKind::OutOfMemory.into()))
}

impl<R: Read> Archive<R> {
    /// An archive from its first byte on.
    pub fn new(input: R) -> Archive<R> {
        Archive { input, buffer: vec![0; BUFFER].into(), filled: 0, at: 0, dropped: 0, key: Vec::new(), matrix: Matrix::Ended, row: 0 }
    }

    /// How many bytes are read.
    pub fn position(&self) -> u64 {
        self.dropped + self.at as u64
    }

    fn damaged<T>(&self, at: u64, what: impl Into<String>) -> Result<T, ArchiveError> {
        Err(ArchiveError::Damaged(at, what.into()))
    }

    fn inside(&self) -> String {
        format!("inside utterance {}, row {}", String::from_utf8_lossy(&self.key), self.row)
    }

    /// The next byte, left where it is; nothing at the end.
    fn peek(&mut self) -> Result<Option<u8>, ArchiveError> {
        if self.at == self.filled {
            self.dropped += self.at as u64;
            (self.at, self.filled) = (0, 0);
            self.filled = loop {
                match self.input.read(&mut self.buffer) {
                    Err(e) if e.kind() == io::ErrorKind::Interrupted => (),
                    other => break other?,
                }
            };
        }
        Ok(self.buffer[..self.filled].get(self.at).copied())
    }

    fn byte(&mut self) -> Result<Option<u8>, ArchiveError> {
        let c = self.peek()?;
        self.at += usize::from(c.is_some());
        Ok(c)
    }

    /// Appends `n` bytes as they arrive.
    fn bytes(&mut self, mut n: usize, to: &mut Vec<u8>) -> Result<(), ArchiveError> {
        while n > 0 {
            if self.peek()?.is_none() {
                return self.damaged(self.position(), format!("the archive ends {}", self.inside()));
            }
            let k = n.min(self.filled - self.at);
            to.extend_from_slice(&self.buffer[self.at..self.at + k]);
            self.at += k;
            n -= k;
        }
        Ok(())
    }

    /// The next utterance's key, the archive standing at its matrix; nothing at the archive's end. Rows that were not asked for are passed over.
    pub fn next_key(&mut self) -> Result<Option<&[u8]>, ArchiveError> {
        let mut row = Vec::new();
        while self.next_row(&mut row)? {}
        while self.peek()?.is_some_and(blank) {
            self.at += 1;
        }
        self.key.clear();
        self.row = 0;
        let start = self.position();
        while let Some(c) = self.peek()?.filter(|&c| !blank(c)) {
            if c == 0 || self.key.len() == WORD {
                return self.damaged(start, "no key: an archive has a word and a blank before each matrix");
            }
            self.key.push(c);
            self.at += 1;
        }
        if self.key.is_empty() {
            return Ok(None);
        }
        let Some(c) = self.peek()? else {
            return self.damaged(self.position(), format!("the archive ends after the key {}", String::from_utf8_lossy(&self.key)));
        };
        if c != b'\n' {
            self.at += 1;
        }
        self.matrix = if self.peek()? == Some(0) { self.binary_head()? } else { self.text_head()? };
        Ok(Some(&self.key))
    }

    fn text_head(&mut self) -> Result<Matrix, ArchiveError> {
        while self.peek()?.is_some_and(blank) {
            self.at += 1;
        }
        let at = self.position();
        match self.byte()? {
            Some(b'[') => Ok(Matrix::Text { columns: None }),
            Some(_) => self.damaged(at, format!("no matrix after the key {}: neither [ nor binary", String::from_utf8_lossy(&self.key))),
            None => self.damaged(at, format!("the archive ends after the key {}", String::from_utf8_lossy(&self.key))),
        }
    }

    fn binary_head(&mut self) -> Result<Matrix, ArchiveError> {
        let at = self.position();
        let mut b = Vec::new();
        self.bytes(5, &mut b)?;
        let width = match &b[..] {
            b"\0BFM " => 4,
            b"\0BDM " => 8,
            [0, b'B', b'C', b'M', _] => return self.damaged(at, "a compressed matrix, which is not read: write the archive with --compress=false"),
            _ => return self.damaged(at, "no matrix of floats or doubles: neither FM nor DM"),
        };
        let (rows, columns) = (self.dimension()?, self.dimension()?);
        if (rows == 0) != (columns == 0) {
            return self.damaged(at, format!("a matrix of {rows} rows and {columns} columns"));
        }
        Ok(Matrix::Binary { rows, columns, width })
    }

    fn dimension(&mut self) -> Result<usize, ArchiveError> {
        let at = self.position();
        let mut b = Vec::new();
        self.bytes(5, &mut b)?;
        match usize::try_from(i32::from_le_bytes([b[1], b[2], b[3], b[4]])) {
            Ok(n) if b[0] == 4 => Ok(n),
            _ => self.damaged(at, "no number of rows or columns"),
        }
    }

    /// The next row of the matrix; false where it has no more. A double is narrowed to the nearest float.
    pub fn next_row(&mut self, row: &mut Vec<f32>) -> Result<bool, ArchiveError> {
        row.clear();
        let got = match self.matrix {
            Matrix::Ended => false,
            Matrix::Binary { rows: 0, .. } => false,
            Matrix::Binary { rows, columns, width } => {
                self.matrix = Matrix::Binary { rows: rows - 1, columns, width };
                self.binary_row(columns, width, row)?;
                true
            }
            Matrix::Text { columns } => self.text_row(columns, row)?,
        };
        if got {
            self.row += 1;
        } else {
            self.matrix = Matrix::Ended;
        }
        Ok(got)
    }

    fn binary_row(&mut self, columns: usize, width: usize, row: &mut Vec<f32>) -> Result<(), ArchiveError> {
        // in parts, so that a length alone buys no memory
        let mut part = Vec::new();
        let mut left = columns;
        while left > 0 {
            let n = left.min(1024);
            part.clear();
            self.bytes(n * width, &mut part)?;
            reserve(row, n)?;
            if width == 4 {
                row.extend(part.chunks_exact(4).map(|c| f32::from_le_bytes([c[0], c[1], c[2], c[3]])));
            } else {
                row.extend(part.chunks_exact(8).map(|c| f64::from_le_bytes([c[0], c[1], c[2], c[3], c[4], c[5], c[6], c[7]]) as f32));
            }
            left -= n;
        }
        Ok(())
    }

    fn text_row(&mut self, columns: Option<usize>, row: &mut Vec<f32>) -> Result<bool, ArchiveError> {
        let mut word = String::new();
        let mut start = self.position();
        loop {
            let at = self.position();
            match self.peek()? {
                None => return self.damaged(at, format!("the archive ends {}", self.inside())),
                Some(c @ (b'\n' | b';' | b']')) => {
                    self.at += 1;
                    if c == b']' {
                        self.matrix = Matrix::Ended;
                    }
                    if !row.is_empty() {
                        break;
                    } else if c == b']' {
                        return Ok(false);
                    }
                }
                Some(c) if blank(c) => self.at += 1,
                Some(_) => {
                    if row.is_empty() {
                        start = at;
                    }
                    word.clear();
                    while let Some(c) = self.peek()?.filter(|&c| !blank(c) && c != b';' && c != b']') {
                        if word.len() == WORD {
                            break;
                        }
                        word.push(c as char);
                        self.at += 1;
                    }
                    if self.peek()?.is_none() {
                        return self.damaged(self.position(), format!("the archive ends {}", self.inside()));
                    }
                    reserve(row, 1)?;
                    match word.parse() {
                        Ok(x) => row.push(x),
                        Err(_) => {
                            let shown: String = word.chars().take(20).flat_map(char::escape_default).collect();
                            return self.damaged(at, format!("\"{shown}\" is no number, {}", self.inside()));
                        }
                    }
                }
            }
        }
        if let Some(n) = columns.filter(|&n| n != row.len()) {
            return self.damaged(start, format!("a row of {} numbers after rows of {n}, {}", row.len(), self.inside()));
        }
        if let Matrix::Text { columns } = &mut self.matrix {
            *columns = Some(row.len());
        }
        Ok(true)
    }
}

/// How a matrix is written.
#[derive(Clone, Copy, Debug, PartialEq, Eq)]
pub enum Form {
    /// Numbers as text, each in the fewest digits that give it back.
    Text,
    /// Floats as they are.
    Binary,
}

/// Writes a key and a matrix whose rows have `columns` numbers. Numbers that make no whole rows, and 2^31 rows or columns in binary, are an error before
/// anything is written.
pub fn write_matrix(w: &mut impl Write, form: Form, key: &[u8], columns: usize, numbers: &[f32]) -> io::Result<()> {
    let invalid = |what| Err(io::Error::new(io::ErrorKind::InvalidInput, what));
    let rows = numbers.len().checked_div(columns).unwrap_or(0);
    if rows * columns != numbers.len() {
        return invalid("numbers that make no whole rows");
    }
    let columns = if rows == 0 { 0 } else { columns };
    if form == Form::Binary && rows.max(columns) > i32::MAX as usize {
        return invalid("a matrix of 2^31 rows or columns");
    }
    w.write_all(key)?;
    w.write_all(b" ")?;
    match form {
        Form::Text => {
            w.write_all(b" [")?;
            for row in numbers.chunks_exact(columns.max(1)) {
                w.write_all(b"\n  ")?;
                for &x in row {
                    write!(w, "{} ", Number(x))?;
                }
            }
            w.write_all(if rows == 0 { b" ]\n" } else { b"]\n" })
        }
        Form::Binary => {
            w.write_all(b"\0BFM ")?;
            for n in [rows, columns] {
                w.write_all(&[4])?;
                w.write_all(&(n as i32).to_le_bytes())?;
            }
            for x in numbers {
                w.write_all(&x.to_le_bytes())?;
            }
            Ok(())
        }
    }
}

/// A number as Kaldi reads it.
struct Number(f32);

impl fmt::Display for Number {
    fn fmt(&self, f: &mut fmt::Formatter) -> fmt::Result {
        let x = self.0;
        if x.is_nan() {
            f.write_str("nan")
        } else if x.is_finite() && x != 0.0 && !(1e-5..1e16).contains(&x.abs()) {
            write!(f, "{x:e}")
        } else {
            write!(f, "{x}")
        }
    }
}

/// Where an archive is: `ark:FILE`, `ark,t:FILE` or `FILE`, where a file `-` is the standard input or output. As in Kaldi, `t` is text where an
/// archive is written; one that is read shows its form itself.
#[derive(Clone, Debug, PartialEq, Eq)]
pub struct Specifier {
    /// The form that is written.
    pub form: Form,
    /// The file; nothing for the standard input or output.
    pub file: Option<std::path::PathBuf>,
}

impl Specifier {
    /// Reads one. Err says why it is none.
    pub fn parse(s: &str) -> Result<Specifier, String> {
        let (kind, file) = match s.split_once(':') {
            Some((kind, file)) if kind.split(',').any(|w| w == "ark" || w == "scp") => (kind, file),
            _ => ("ark", s),
        };
        let mut form = Form::Binary;
        for word in kind.split(',') {
            match word {
                "ark" | "b" | "s" | "cs" | "o" | "p" | "f" => (),
                "t" => form = Form::Text,
                "scp" => return Err(format!("{s}: a script file is not read, only an archive (ark:)")),
                _ => return Err(format!("{s}: unknown option {word}")),
            }
        }
        let file = file.trim();
        if file.is_empty() || file.ends_with('|') || file.starts_with('|') {
            return Err(format!("{s}: no file is named"));
        }
        Ok(Specifier { form, file: (file != "-").then(|| file.into()) })
    }
}
