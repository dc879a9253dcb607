//! Parameters of PostgreSQL's statements, as libpq takes them.
use super::many::Cell;
use super::pq::{text, Failed};
use std::ffi::CString;
use std::os::raw::{c_char, c_int};

/// The formats of values.
pub const TEXT: c_int = 0;
const BINARY: c_int = 1;
/// The types of an array's items.
const INT8_OID: i32 = 20;
const TEXT_OID: i32 = 25;

/// A parameter of a statement.
pub enum Parameter {
    Text(CString),
    /// An array in PostgreSQL's binary form.
    Array(Vec<u8>),
}

impl Parameter {
    pub fn text(given: &str) -> Result<Parameter, Failed> {
        text(given).map(Parameter::Text)
    }
}

/// An array of one dimension: each item comes behind its length, which is -1 for null.
#[derive(Default)]
pub struct Array {
    items: Vec<u8>,
    length: i32,
    of_texts: bool,
}

impl Array {
    pub fn push(&mut self, cell: &Cell) {
        self.length += 1;
        self.of_texts = matches!(cell, Cell::Text(_));
        match cell {
            Cell::Number(Some(number)) => self.push_bytes(&number.to_be_bytes()),
            Cell::Text(Some(text)) => self.push_bytes(text.as_bytes()),
            Cell::Number(None) | Cell::Text(None) => self.items.extend((-1i32).to_be_bytes()),
        }
    }

    fn push_bytes(&mut self, bytes: &[u8]) {
        self.items.extend(count(bytes.len()).to_be_bytes());
        self.items.extend_from_slice(bytes);
    }

    /// The array as it is given. An empty one has no dimension.
    pub fn parameter(self) -> Parameter {
        let oid = if self.of_texts { TEXT_OID } else { INT8_OID };
        let header = if self.length == 0 { vec![0, 1, oid] } else { vec![1, 1, oid, self.length, 1] };
        let mut whole: Vec<u8> = header.into_iter().flat_map(i32::to_be_bytes).collect();
        whole.extend_from_slice(&self.items);
        Parameter::Array(whole)
    }
}

/// Parameters as libpq takes them; it reads what they point to.
pub struct Packed {
    pub values: Vec<*const c_char>,
    pub lengths: Vec<c_int>,
    pub formats: Vec<c_int>,
}

impl Packed {
    pub fn of(given: &[Parameter]) -> Packed {
        let mut packed = Packed { values: Vec::new(), lengths: Vec::new(), formats: Vec::new() };
        for one in given {
            let (value, length, format) = match one {
                Parameter::Text(text) => (text.as_ptr(), 0, TEXT),
                Parameter::Array(bytes) => (bytes.as_ptr().cast(), count(bytes.len()), BINARY),
            };
            packed.values.push(value);
            packed.lengths.push(length);
            packed.formats.push(format);
        }
        packed
    }
}

pub fn count(length: usize) -> c_int {
    c_int::try_from(length).unwrap_or(c_int::MAX)
}
