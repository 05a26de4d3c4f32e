//! The baseline of the benchmark of the Wide layout: the same steps as `write_wide` and `read_wide` of two UInt64
//! columns, in plain Rust written the same way (the same values, files and checks), unproved.
//!
//!     layouts ROWS TIMES FOLDER
//!
//! It leaves the files in the folder, and prints the least processor time of each step in microseconds.

use std::{env, fs, io};

#[allow(dead_code)]
enum State {
    Count(u64),
    Sum(u64),
    Least(Option<i128>),
    Greatest(Option<i128>),
}

#[allow(dead_code)]
enum Value {
    Num(i128),
    Text(Vec<u8>),
    Null,
    List(Vec<Value>),
    State(State),
}

type Row = Vec<Value>;
type File = (String, Vec<u8>);

struct Frame {
    offset: u64,
    position: u64,
    payload: u64,
}

const GRANULE_ROWS: usize = 8192;
const MAX_PIECE: usize = 1_048_576;
const MAX_PAYLOAD: usize = 67_108_864;
const HEADER: usize = 25;

// ---- writing

fn word(value: &Value) -> [u8; 8] {
    match value {
        Value::Num(n) => u64::try_from(*n).unwrap_or(0).to_le_bytes(),
        _ => [0; 8],
    }
}

fn put_frames(payload: &[u8], out: &mut Vec<u8>) {
    for piece in payload.chunks(MAX_PIECE) {
        let length = piece.len() as u32;
        out.extend_from_slice(&[0; 16]);
        out.push(2);
        out.extend_from_slice(&(length + 9).to_le_bytes());
        out.extend_from_slice(&length.to_le_bytes());
        out.extend_from_slice(piece);
    }
}

fn put_mark(offset: usize, rows: u64, out: &mut Vec<u8>) {
    out.extend_from_slice(&(offset as u64).to_le_bytes());
    out.extend_from_slice(&0u64.to_le_bytes());
    out.extend_from_slice(&rows.to_le_bytes());
}

fn write_wide(names: &[&str], rows: &[Row], granules: &[u64]) -> Vec<File> {
    let mut files = Vec::new();
    for (column, name) in names.iter().enumerate() {
        let mut data = Vec::with_capacity(rows.len() * 8 + granules.len() * HEADER);
        let mut marks = Vec::new();
        let mut rest = rows;
        for count in granules {
            let (granule, after) = rest.split_at(*count as usize);
            let mut payload = Vec::with_capacity(granule.len() * 8);
            for row in granule {
                payload.extend_from_slice(&word(&row[column]));
            }
            put_mark(data.len(), *count, &mut marks);
            put_frames(&payload, &mut data);
            rest = after;
        }
        put_mark(data.len(), 0, &mut marks);
        files.push((format!("{name}.bin"), data));
        files.push((format!("{name}.mrk2"), marks));
    }
    files
}

// ---- reading

fn number(bytes: &[u8]) -> Option<u64> {
    Some(u64::from_le_bytes(bytes.get(..8)?.try_into().ok()?))
}

fn frames(data: &[u8]) -> Option<Vec<Frame>> {
    let mut frames = Vec::new();
    let (mut offset, mut position) = (0usize, 0u64);
    while offset < data.len() {
        let header = data.get(offset..offset + HEADER)?;
        let whole = u32::from_le_bytes(header[17..21].try_into().ok()?);
        let payload = u32::from_le_bytes(header[21..25].try_into().ok()?);
        if header[16] != 2 || payload == 0 || u64::from(whole) != u64::from(payload) + 9 {
            return None;
        }
        if payload as usize > MAX_PAYLOAD || data.len() - offset - HEADER < payload as usize {
            return None;
        }
        frames.push(Frame { offset: offset as u64, position, payload: u64::from(payload) });
        offset += HEADER + payload as usize;
        position += u64::from(payload);
    }
    Some(frames)
}

/// The position that a mark denotes, by halves.
fn resolve(frames: &[Frame], end: (u64, u64), offset: u64, inner: u64) -> Option<u64> {
    if offset == end.0 && inner == 0 {
        return Some(end.1);
    }
    let index = frames.binary_search_by(|frame| frame.offset.cmp(&offset)).ok()?;
    let frame = &frames[index];
    if inner <= frame.payload { Some(frame.position + inner) } else { None }
}

/// The position of each mark and the rows of each granule.
fn marks(bytes: &[u8], frames: &[Frame], end: (u64, u64)) -> Option<(Vec<u64>, Vec<u64>)> {
    if bytes.len() % 24 != 0 || bytes.len() < 48 {
        return None;
    }
    let entries = bytes.len() / 24;
    let (mut positions, mut rows) = (Vec::with_capacity(entries), Vec::with_capacity(entries));
    let (mut sum, mut last) = (0u64, (0u64, 0u64));
    for (index, entry) in bytes.chunks(24).enumerate() {
        let (offset, inner) = (number(entry)?, number(&entry[8..])?);
        let count = number(&entry[16..])?;
        let at_end = index + 1 == entries;
        sum = sum.checked_add(count)?;
        if at_end != (count == 0) || offset < last.0 {
            return None;
        }
        let position = resolve(frames, end, offset, inner)?;
        if (index == 0 && position != 0) || (at_end && position != end.1) || position < last.1 {
            return None;
        }
        positions.push(position);
        rows.push(count);
        last = (offset, position);
    }
    rows.pop();
    Some((positions, rows))
}

/// So many bytes of the payloads from a position on, a slice where they lie in one frame.
fn payload<'a>(data: &'a [u8], frames: &[Frame], from: u64, to: u64) -> Option<std::borrow::Cow<'a, [u8]>> {
    if from == to {
        return Some(std::borrow::Cow::Borrowed(&[]));
    }
    let index = frames.partition_point(|frame| frame.position + frame.payload <= from);
    let frame = frames.get(index)?;
    let start = frame.offset as usize + HEADER + (from - frame.position) as usize;
    if to <= frame.position + frame.payload {
        return Some(std::borrow::Cow::Borrowed(data.get(start..start + (to - from) as usize)?));
    }
    let mut bytes = Vec::with_capacity((to - from) as usize);
    for frame in &frames[index..] {
        let first = from.max(frame.position) - frame.position;
        let last = to.min(frame.position + frame.payload).checked_sub(frame.position)?;
        if first >= last {
            break;
        }
        let base = frame.offset as usize + HEADER;
        bytes.extend_from_slice(data.get(base + first as usize..base + last as usize)?);
    }
    Some(std::borrow::Cow::Owned(bytes))
}

fn decode(payload: &[u8], count: u64) -> Option<Vec<Value>> {
    if payload.len() as u64 != count * 8 {
        return None;
    }
    let mut values = Vec::with_capacity(count as usize);
    for word in payload.chunks_exact(8) {
        values.push(Value::Num(i128::from(number(word)?)));
    }
    Some(values)
}

fn file<'a>(files: &'a [File], name: &str) -> Option<&'a [u8]> {
    files.iter().find(|file| file.0 == name).map(|file| file.1.as_slice())
}

fn read_wide(names: &[&str], count: u64, files: &[File]) -> Option<(Vec<Row>, Vec<u64>)> {
    let mut rows = Vec::with_capacity(count as usize);
    for _ in 0..count {
        rows.push(Vec::with_capacity(names.len()));
    }
    let mut known: Option<Vec<u64>> = None;
    for name in names {
        let data = file(files, &format!("{name}.bin"))?;
        let frames = frames(data)?;
        let length = frames.iter().map(|frame| frame.payload).sum();
        let bytes = file(files, &format!("{name}.mrk2"))?;
        let (positions, granules) = marks(bytes, &frames, (data.len() as u64, length))?;
        match &known {
            None => {
                if granules.iter().map(|rows| u128::from(*rows)).sum::<u128>() != u128::from(count) {
                    return None;
                }
                known = Some(granules.clone());
            }
            Some(first) if *first != granules => return None,
            Some(_) => {}
        }
        let mut row = 0;
        for (granule, count) in granules.iter().enumerate() {
            let payload = payload(data, &frames, positions[granule], positions[granule + 1])?;
            for value in decode(&payload, *count)? {
                rows[row].push(value);
                row += 1;
            }
        }
    }
    Some((rows, known?))
}

// ---- the measure

extern "C" {
    fn clock_gettime(clock: i32, time: *mut [i64; 2]) -> i32;
}

/// The processor time of this thread, in microseconds.
fn processor() -> i64 {
    let mut time = [0i64; 2];
    unsafe { clock_gettime(3, &mut time) };
    time[0] * 1_000_000 + time[1] / 1000
}

fn main() -> io::Result<()> {
    let words: Vec<String> = env::args().collect();
    let (count, times): (u64, usize) = (words[1].parse().unwrap(), words[2].parse().unwrap());
    let mut state = 1u64;
    let mut next = || {
        state = state.wrapping_mul(6364136223846793005).wrapping_add(1442695040888963407);
        state ^ (state >> 29)
    };
    let rows: Vec<Row> = (0..count).map(|_| vec![Value::Num(i128::from(next())), Value::Num(i128::from(next()))]).collect();
    let granules: Vec<u64> = rows.chunks(GRANULE_ROWS).map(|granule| granule.len() as u64).collect();
    let names = ["k", "v"];
    let (mut writing, mut reading) = (i64::MAX, i64::MAX);
    let mut files = Vec::new();
    for _ in 0..times {
        let begin = processor();
        files = write_wide(&names, &rows, &granules);
        let middle = processor();
        let read = read_wide(&names, count, &files).expect("files that are read");
        reading = reading.min(processor() - middle);
        writing = writing.min(middle - begin);
        assert!(read.1 == granules && read.0.len() == rows.len());
    }
    for (name, bytes) in &files {
        fs::write(format!("{}/{name}", words[3]), bytes)?;
    }
    println!("write_wide {writing} read_wide {reading}");
    Ok(())
}
