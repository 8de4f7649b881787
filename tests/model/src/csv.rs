//! RFC 4180: a file as records of fields.
//!
//! The grammar is the RFC's own, rule by rule:
//!
//! ```text
//! file        = record *(CRLF record) [CRLF]
//! record      = field *(COMMA field)
//! field       = escaped / non-escaped
//! escaped     = DQUOTE *(TEXTDATA / COMMA / CR / LF / 2DQUOTE) DQUOTE
//! non-escaped = *TEXTDATA
//! TEXTDATA    = %x20-21 / %x23-2B / %x2D-7E
//! ```

/// A field after unquoting: "fields may be quoted as RFC 4180 allows and are compared after
/// unquoting".
pub type Field = Vec<u8>;

/// The fields between two ends of record.
pub type Record = Vec<Field>;

/// The end of a record.
pub const CRLF: &[u8] = b"\r\n";

/// The records of a file, or `None` where it isn't RFC 4180.
///
/// "Records end in CR LF; the last may lack it. A CR LF at the file's end starts no further record;
/// an empty file is one record with one blank field."
pub fn records(file: &[u8]) -> Option<Vec<Record>> {
    let mut records = Vec::new();
    let mut rest = file;
    loop {
        let (next, after) = record(rest)?;
        records.push(next);
        if after.is_empty() || after == CRLF {
            return Some(records);
        }
        rest = after.strip_prefix(CRLF)?;
    }
}

/// The record that a part of the file begins with, and the rest.
fn record(file: &[u8]) -> Option<(Record, &[u8])> {
    let (first, mut rest) = field(file)?;
    let mut fields = vec![first];
    while let Some(after) = rest.strip_prefix(b",") {
        let (next, after) = field(after)?;
        fields.push(next);
        rest = after;
    }
    Some((fields, rest))
}

/// The field that a part of the file begins with, and the rest: "a field is read as a part of the
/// file that begins where the field begins".
fn field(file: &[u8]) -> Option<(Field, &[u8])> {
    match file.strip_prefix(b"\"") {
        Some(inside) => escaped(inside),
        None => Some(non_escaped(file)),
    }
}

/// The rest of an escaped field, after its opening quote.
fn escaped(file: &[u8]) -> Option<(Field, &[u8])> {
    let mut field = Field::new();
    let mut rest = file;
    loop {
        match rest {
            [b'"', b'"', after @ ..] => {
                field.push(b'"');
                rest = after;
            }
            [b'"', after @ ..] => return Some((field, after)),
            [byte, after @ ..] if textdata(*byte) || matches!(byte, b',' | b'\r' | b'\n') => {
                field.push(*byte);
                rest = after;
            }
            _ => return None,
        }
    }
}

/// A field without quotes: all the text there is, perhaps none.
fn non_escaped(file: &[u8]) -> (Field, &[u8]) {
    let end = file.iter().position(|&byte| !textdata(byte)).unwrap_or(file.len());
    (file[..end].to_vec(), &file[end..])
}

/// TEXTDATA of the RFC. It holds inside quotes too, so a tab or a byte from 0x80 on is never CSV.
fn textdata(byte: u8) -> bool {
    matches!(byte, 0x20..=0x21 | 0x23..=0x2B | 0x2D..=0x7E)
}

#[cfg(test)]
mod tests {
    use super::*;

    /// Records as text, for short expectations.
    fn read(file: &[u8]) -> Option<Vec<Vec<String>>> {
        let text = |field: Field| String::from_utf8(field).unwrap();
        Some(records(file)?.into_iter().map(|record| record.into_iter().map(text).collect()).collect())
    }

    fn owned(records: &[&[&str]]) -> Option<Vec<Vec<String>>> {
        let record = |fields: &&[&str]| fields.iter().map(|field| field.to_string()).collect();
        Some(records.iter().map(record).collect())
    }

    #[test]
    fn an_empty_file_is_one_record_with_one_blank_field() {
        assert_eq!(read(b""), owned(&[&[""]]));
        assert_eq!(read(b"\r\n"), owned(&[&[""]]));
    }

    #[test]
    fn an_end_of_record_at_the_end_starts_no_further_record() {
        assert_eq!(read(b"a,b\r\nc"), owned(&[&["a", "b"], &["c"]]));
        assert_eq!(read(b"a,b\r\nc\r\n"), owned(&[&["a", "b"], &["c"]]));
        assert_eq!(read(b"a\r\n\r\n"), owned(&[&["a"], &[""]]));
    }

    #[test]
    fn quotes_hold_commas_ends_and_doubled_quotes() {
        assert_eq!(read(b"\"a\",\"\",\"b,\r\n\"\"\""), owned(&[&["a", "", "b,\r\n\""]]));
        assert_eq!(read(b"\"\"\"\""), owned(&[&["\""]]));
        assert_eq!(read(b" a ,"), owned(&[&[" a ", ""]]));
    }

    #[test]
    fn what_the_grammar_lacks_is_no_file() {
        let spoilt: [&[u8]; 14] = [
            b"a\rb",
            b"a\nb",
            b"a\n",
            b"a\r",
            b"a\"b",
            b"\"a\"b",
            b"\"a",
            b"\"a\"\"",
            b"\"a\" ,b",
            b"\ta",
            b"\"\t\"",
            b"\0",
            b"\x7f",
            b"\xef\xbb\xbfa",
        ];
        for file in spoilt {
            assert_eq!(records(file), None, "{file:?}");
        }
        assert_eq!(records(b"\"\x80\""), None);
    }
}
