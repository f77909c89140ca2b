//! Writes a Format 3 file, and remembers which field each byte belongs to.

use crate::decoder::file::VERSION;

/// Where the record after the header starts: the version has 1 byte, and a header's record 2 bytes of length, the kind and 7 bytes.
pub const HEADER_END: usize = 11;

/// A Format 3 file, with what is needed to damage it.
#[derive(Clone)]
pub struct File {
    pub bytes: Vec<u8>,
    pub fields: Vec<Field>,
    /// The offset of each record's length.
    pub records: Vec<usize>,
}

/// A field of one or two bytes, and values worth trying in its place: the ends of its range and those just past them.
#[derive(Clone)]
pub struct Field {
    pub name: &'static str,
    pub offset: usize,
    pub width: usize,
    pub others: Vec<i64>,
}

impl File {
    /// A file with only the version.
    pub fn versioned() -> File {
        let mut file = File::empty();
        file.byte("version", VERSION.into(), &[0, 2, 4, 255]);
        file
    }

    pub fn byte(&mut self, name: &'static str, value: i64, others: &[i64]) {
        self.field(name, 1, value, others);
    }

    pub fn word(&mut self, name: &'static str, value: i64, others: &[i64]) {
        self.field(name, 2, value, others);
    }

    fn field(&mut self, name: &'static str, width: usize, value: i64, others: &[i64]) {
        self.fields.push(Field {
            name,
            offset: self.bytes.len(),
            width,
            others: others.to_vec(),
        });
        let bytes = value.to_be_bytes();
        self.bytes.extend(&bytes[8 - width..]);
    }

    /// Writes a record of a kind; `body` writes its body.
    pub fn record(&mut self, kind: u8, body: impl FnOnce(&mut File)) {
        let start = self.bytes.len();
        self.records.push(start);
        let length_field = self.fields.len();
        self.word("length", 0, &[]);
        self.byte("kind", kind.into(), &[0, 1, 2, 3, 4, 5, 255]);
        body(self);
        let length = (self.bytes.len() - start - 2) as i64;
        self.fields[length_field].others = vec![0, 1, length - 1, length + 1, length + 2, 0xffff];
        put(&mut self.bytes, start, 2, length);
    }

    /// No version and no record: a record's body, to be appended.
    pub fn empty() -> File {
        File {
            bytes: Vec::new(),
            fields: Vec::new(),
            records: Vec::new(),
        }
    }

    pub fn append(&mut self, body: File) {
        let start = self.bytes.len();
        self.bytes.extend(body.bytes);
        self.fields
            .extend(body.fields.into_iter().map(|field| Field {
                offset: start + field.offset,
                ..field
            }));
    }

    /// The bytes of the record numbered `index`.
    pub fn record_bytes(&self, index: usize) -> Vec<u8> {
        self.bytes[self.records[index]..self.record_end(index)].to_vec()
    }

    fn record_end(&self, index: usize) -> usize {
        let next = self.records.get(index + 1);
        next.copied().unwrap_or(self.bytes.len())
    }

    /// The file with each field in turn set to each of its other values, and also with its record ended just after it.
    pub fn each_field_changed(&self) -> impl Iterator<Item = Vec<u8>> + '_ {
        self.fields.iter().flat_map(move |field| {
            field.others.iter().flat_map(move |value| {
                let mut bytes = self.bytes.clone();
                put(&mut bytes, field.offset, field.width, *value);
                let ended = self.ended_after(field, &bytes);
                [bytes, ended]
            })
        })
    }

    /// The file's bytes with one field changed; the record is ended just after it if the field is in a body.
    pub fn ended_after(&self, field: &Field, bytes: &[u8]) -> Vec<u8> {
        let mut ended = bytes.to_vec();
        let in_body = |index: &usize| {
            (self.records[*index] + 3..self.record_end(*index)).contains(&field.offset)
        };
        if let Some(index) = (0..self.records.len()).find(in_body) {
            let start = self.records[index];
            let end = field.offset + field.width;
            ended.drain(end..self.record_end(index));
            put(&mut ended, start, 2, (end - start - 2) as i64);
        }
        ended
    }
}

/// Puts a value into `width` bytes, big-endian.
pub fn put(bytes: &mut [u8], offset: usize, width: usize, value: i64) {
    let value = value.to_be_bytes();
    bytes[offset..offset + width].copy_from_slice(&value[8 - width..]);
}
