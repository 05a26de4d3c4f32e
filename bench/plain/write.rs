//! The baseline of the benchmark: what `mtpart write` does for a table of two UInt64 columns, in
//! plain Rust written the same way (the same values, one stable sort, the same files), unproved.
//!
//!     write FOLDER < LINES

use std::cmp::Ordering;
use std::io::Read;
use std::{env, fs, io};

#[allow(dead_code)]
enum State {
    Count(u64),
    Sum(u64),
    Least(Option<i128>),
    Greatest(Option<i128>),
}

#[allow(dead_code)]
enum Value {
    Num(i128),
    Text(Vec<u8>),
    Null,
    List(Vec<Value>),
    State(State),
}

type Row = Vec<Value>;

const GRANULE_ROWS: usize = 8192;
const MAX_PAYLOAD: usize = 1_048_576;

fn compare(a: &Value, b: &Value) -> Ordering {
    match (a, b) {
        (Value::Num(x), Value::Num(y)) => x.cmp(y),
        (Value::Text(x), Value::Text(y)) => x.cmp(y),
        (Value::Num(_), _) => Ordering::Less,
        (_, Value::Num(_)) => Ordering::Greater,
        _ => Ordering::Equal,
    }
}

fn number(field: &[u8]) -> Option<u64> {
    if field.is_empty() {
        return None;
    }
    let mut sum = 0u64;
    for byte in field {
        let digit = byte.wrapping_sub(b'0');
        if digit > 9 {
            return None;
        }
        sum = sum.checked_mul(10)?.checked_add(u64::from(digit))?;
    }
    Some(sum)
}

fn field(text: &[u8], end: u8) -> Option<(&[u8], &[u8])> {
    let at = text.iter().position(|b| *b == end)?;
    Some((&text[..at], &text[at + 1..]))
}

fn rows_of(text: &[u8]) -> Option<Vec<Row>> {
    let mut rows = Vec::new();
    let mut rest = text;
    while !rest.is_empty() {
        let (first, after) = field(rest, b'\t')?;
        let (second, after) = field(after, b'\n')?;
        let mut row = Vec::with_capacity(2);
        row.push(Value::Num(i128::from(number(first)?)));
        row.push(Value::Num(i128::from(number(second)?)));
        rows.push(row);
        rest = after;
    }
    Some(rows)
}

fn word(value: &Value) -> [u8; 8] {
    match value {
        Value::Num(n) => u64::try_from(*n).unwrap_or(0).to_le_bytes(),
        _ => [0; 8],
    }
}

fn put_frames(payload: &[u8], out: &mut Vec<u8>) {
    for piece in payload.chunks(MAX_PAYLOAD) {
        let length = piece.len() as u32;
        out.extend_from_slice(&[0; 16]);
        out.push(2);
        out.extend_from_slice(&(length + 9).to_le_bytes());
        out.extend_from_slice(&length.to_le_bytes());
        out.extend_from_slice(piece);
    }
}

fn put_mark(offset: usize, rows: usize, out: &mut Vec<u8>) {
    out.extend_from_slice(&(offset as u64).to_le_bytes());
    out.extend_from_slice(&0u64.to_le_bytes());
    out.extend_from_slice(&(rows as u64).to_le_bytes());
}

fn column(rows: &[Row], place: usize) -> (Vec<u8>, Vec<u8>) {
    let mut data = Vec::new();
    let mut marks = Vec::new();
    for granule in rows.chunks(GRANULE_ROWS) {
        let mut payload = Vec::with_capacity(granule.len() * 8);
        for row in granule {
            payload.extend_from_slice(&word(&row[place]));
        }
        put_mark(data.len(), granule.len(), &mut marks);
        put_frames(&payload, &mut data);
    }
    put_mark(data.len(), 0, &mut marks);
    (data, marks)
}

fn primary(rows: &[Row]) -> Vec<u8> {
    let mut bytes = Vec::new();
    for granule in rows.chunks(GRANULE_ROWS) {
        bytes.extend_from_slice(&word(&granule[0][0]));
    }
    if let Some(last) = rows.last() {
        bytes.extend_from_slice(&word(&last[0]));
    }
    bytes
}

fn main() -> io::Result<()> {
    let folder = env::args().nth(1).expect("a folder");
    let mut text = Vec::new();
    io::stdin().lock().read_to_end(&mut text)?;
    let mut rows = rows_of(&text).expect("lines of two numbers");
    drop(text);
    rows.sort_by(|a, b| compare(&a[0], &b[0]));
    fs::create_dir_all(&folder)?;
    let write = |name: &str, bytes: &[u8]| fs::write(format!("{folder}/{name}"), bytes);
    write("columns.txt", b"columns format version: 1\n2 columns:\n`k` UInt64\n`v` UInt64\n")?;
    write("count.txt", rows.len().to_string().as_bytes())?;
    for (place, name) in ["k", "v"].into_iter().enumerate() {
        let (data, marks) = column(&rows, place);
        write(&format!("{name}.bin"), &data)?;
        write(&format!("{name}.mrk2"), &marks)?;
    }
    write("primary.idx", &primary(&rows))
}
