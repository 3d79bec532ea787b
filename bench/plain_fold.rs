//! A plain yardstick: folds a row of versions to the greatest of each key.
//!
//!     rustc -C opt-level=3 -o plain_fold plain_fold.rs
//!     plain_fold sil|nfl < ROW > WINNERS
//!
//! A version that is in canonical form already is read where it lies, and what is kept of it is its place in the input; any other
//! one is read into owned values and written anew. A hash map from key to the greatest version (update moment, expiry, canonical
//! bytes), sorted once at the end. No crate but std. It knows nothing of faults and panics at them: this is a yardstick and not a
//! product.

use std::collections::HashMap;
use std::collections::hash_map::Entry as Place;
use std::hash::{BuildHasherDefault, Hasher};
use std::io::{Read, Write};

#[derive(Clone, Copy, PartialEq, Eq, PartialOrd, Ord, Default)]
struct Stamp {
    seconds: i64,
    nanos: i32,
}

const ZERO: Stamp = Stamp { seconds: -62_135_596_800, nanos: 0 };

struct Matcher {
    kind: i32,
    name: String,
    pattern: String,
}

struct Comment {
    author: String,
    comment: String,
    at: Stamp,
}

struct Silence {
    id: String,
    matchers: Vec<Matcher>,
    starts: Stamp,
    ends: Stamp,
    updated: Stamp,
    first_comment: Option<Comment>,
    by: String,
    comment: String,
    expires: Stamp,
}

fn varint(b: &[u8], at: &mut usize) -> u64 {
    let first = b[*at];
    if first < 0x80 {
        *at += 1;
        return u64::from(first);
    }
    let mut n = 0u64;
    for i in 0..10 {
        let x = b[*at];
        *at += 1;
        assert!(i < 9 || x < 2, "long varint");
        n |= u64::from(x & 0x7f) << (7 * i);
        if x < 0x80 {
            return n;
        }
    }
    panic!("long varint");
}

enum Value<'a> {
    Number(u64),
    Bytes(&'a [u8]),
}

fn fields<'a>(b: &'a [u8], mut each: impl FnMut(u64, Value<'a>)) {
    let mut at = 0;
    while at < b.len() {
        let tag = varint(b, &mut at);
        let number = tag >> 3;
        assert!(number > 0 && number < 1 << 29);
        match tag & 7 {
            0 => each(number, Value::Number(varint(b, &mut at))),
            2 => {
                let n = varint(b, &mut at) as usize;
                each(number, Value::Bytes(&b[at..at + n]));
                at += n;
            }
            1 => at += 8,
            5 => at += 4,
            _ => panic!("wire type"),
        }
    }
}

fn text(v: Value) -> String {
    match v {
        Value::Bytes(b) => std::str::from_utf8(b).expect("utf-8").to_owned(),
        Value::Number(_) => panic!("type"),
    }
}

fn bytes<'a>(v: Value<'a>) -> &'a [u8] {
    match v {
        Value::Bytes(b) => b,
        Value::Number(_) => panic!("type"),
    }
}

fn number(v: Value) -> u64 {
    match v {
        Value::Number(n) => n,
        Value::Bytes(_) => panic!("type"),
    }
}

fn stamp(b: &[u8]) -> Stamp {
    let mut s = Stamp::default();
    fields(b, |n, v| match n {
        1 => s.seconds = number(v) as i64,
        2 => s.nanos = number(v) as i32,
        _ => {}
    });
    assert!((0..1_000_000_000).contains(&s.nanos) && (-62_135_596_800..=253_402_300_799).contains(&s.seconds));
    s
}

fn read_silence(b: &[u8]) -> Silence {
    let mut v = Silence {
        id: String::new(),
        matchers: Vec::new(),
        starts: ZERO,
        ends: ZERO,
        updated: ZERO,
        first_comment: None,
        by: String::new(),
        comment: String::new(),
        expires: ZERO,
    };
    fields(b, |n, f| match n {
        1 => fields(bytes(f), |n, f| match n {
            1 => v.id = text(f),
            2 => {
                let mut m = Matcher { kind: 0, name: String::new(), pattern: String::new() };
                fields(bytes(f), |n, f| match n {
                    1 => m.kind = number(f) as i32,
                    2 => m.name = text(f),
                    3 => m.pattern = text(f),
                    _ => {}
                });
                assert!((0..4).contains(&m.kind));
                v.matchers.push(m);
            }
            3 => v.starts = stamp(bytes(f)),
            4 => v.ends = stamp(bytes(f)),
            5 => v.updated = stamp(bytes(f)),
            7 => {
                let mut c = Comment { author: String::new(), comment: String::new(), at: ZERO };
                fields(bytes(f), |n, f| match n {
                    1 => c.author = text(f),
                    2 => c.comment = text(f),
                    3 => c.at = stamp(bytes(f)),
                    _ => {}
                });
                if v.first_comment.is_none() {
                    v.first_comment = Some(c);
                }
            }
            8 => v.by = text(f),
            9 => v.comment = text(f),
            _ => {}
        }),
        2 => v.expires = stamp(bytes(f)),
        _ => {}
    });
    if let Some(c) = v.first_comment.take() {
        v.by = c.author;
        v.comment = c.comment;
    }
    v
}

fn put_varint(out: &mut Vec<u8>, mut n: u64) {
    while n > 127 {
        out.push(n as u8 | 128);
        n >>= 7;
    }
    out.push(n as u8);
}

fn put_text(out: &mut Vec<u8>, tag: u8, s: &str) {
    if !s.is_empty() {
        out.push(tag);
        put_varint(out, s.len() as u64);
        out.extend_from_slice(s.as_bytes());
    }
}

/// Writes a submessage with its length before it; the length is moved in afterwards.
fn put_message(out: &mut Vec<u8>, tag: u8, body: impl FnOnce(&mut Vec<u8>)) {
    out.push(tag);
    let at = out.len();
    out.push(0);
    body(out);
    let n = out.len() - at - 1;
    if n < 128 {
        out[at] = n as u8;
    } else {
        let mut head = [0u8; 10];
        let mut k = 0;
        let mut m = n;
        while m > 127 {
            head[k] = m as u8 | 128;
            m >>= 7;
            k += 1;
        }
        head[k] = m as u8;
        out.splice(at..at + 1, head[..=k].iter().copied());
    }
}

fn put_stamp(out: &mut Vec<u8>, tag: u8, s: Stamp) {
    put_message(out, tag, |out| {
        if s.seconds != 0 {
            out.push(8);
            put_varint(out, s.seconds as u64);
        }
        if s.nanos != 0 {
            out.push(16);
            put_varint(out, s.nanos as u64);
        }
    });
}

fn write_silence(v: &Silence, out: &mut Vec<u8>) {
    put_message(out, 10, |out| {
        put_text(out, 10, &v.id);
        for m in &v.matchers {
            put_message(out, 18, |out| {
                if m.kind != 0 {
                    out.push(8);
                    put_varint(out, m.kind as u64);
                }
                put_text(out, 18, &m.name);
                put_text(out, 26, &m.pattern);
            });
        }
        put_stamp(out, 26, v.starts);
        put_stamp(out, 34, v.ends);
        put_stamp(out, 42, v.updated);
        put_text(out, 66, &v.by);
        put_text(out, 74, &v.comment);
    });
    put_stamp(out, 18, v.expires);
}

#[derive(Clone, PartialEq, Eq, PartialOrd, Ord, Default)]
struct LogKey {
    group_key: Vec<u8>,
    group_name: String,
    integration: String,
    idx: u32,
}

struct Entry {
    key: LogKey,
    group_hash: Vec<u8>,
    resolved: bool,
    at: Stamp,
    firing: Vec<u64>,
    resolved_alerts: Vec<u64>,
    expires: Stamp,
}

fn numbers(v: Value, out: &mut Vec<u64>) {
    match v {
        Value::Number(n) => out.push(n),
        Value::Bytes(b) => {
            let mut at = 0;
            while at < b.len() {
                out.push(varint(b, &mut at));
            }
        }
    }
}

fn read_entry(b: &[u8]) -> Entry {
    let mut e = Entry {
        key: LogKey::default(),
        group_hash: Vec::new(),
        resolved: false,
        at: ZERO,
        firing: Vec::new(),
        resolved_alerts: Vec::new(),
        expires: ZERO,
    };
    fields(b, |n, f| match n {
        1 => fields(bytes(f), |n, f| match n {
            1 => e.key.group_key = bytes(f).to_vec(),
            2 => fields(bytes(f), |n, f| match n {
                1 => e.key.group_name = text(f),
                2 => e.key.integration = text(f),
                3 => e.key.idx = number(f) as u32,
                _ => {}
            }),
            3 => e.group_hash = bytes(f).to_vec(),
            4 => e.resolved = number(f) != 0,
            5 => e.at = stamp(bytes(f)),
            6 => numbers(f, &mut e.firing),
            7 => numbers(f, &mut e.resolved_alerts),
            _ => {}
        }),
        2 => e.expires = stamp(bytes(f)),
        _ => {}
    });
    e
}

fn put_bytes(out: &mut Vec<u8>, tag: u8, b: &[u8]) {
    if !b.is_empty() {
        out.push(tag);
        put_varint(out, b.len() as u64);
        out.extend_from_slice(b);
    }
}

fn put_numbers(out: &mut Vec<u8>, tag: u8, numbers: &[u64]) {
    if !numbers.is_empty() {
        put_message(out, tag, |out| {
            for n in numbers {
                put_varint(out, *n);
            }
        });
    }
}

fn write_entry(e: &Entry, out: &mut Vec<u8>) {
    put_message(out, 10, |out| {
        put_bytes(out, 10, &e.key.group_key);
        put_message(out, 18, |out| {
            put_text(out, 10, &e.key.group_name);
            put_text(out, 18, &e.key.integration);
            if e.key.idx != 0 {
                out.push(24);
                put_varint(out, u64::from(e.key.idx));
            }
        });
        put_bytes(out, 26, &e.group_hash);
        if e.resolved {
            out.extend_from_slice(&[32, 1]);
        }
        put_stamp(out, 42, e.at);
        put_numbers(out, 50, &e.firing);
        put_numbers(out, 58, &e.resolved_alerts);
    });
    put_stamp(out, 18, e.expires);
}

// ---- canonical versions, which are read where they lie

/// What is left of a message that is read in canonical form; none where it isn't in that form.
#[derive(Clone, Copy)]
struct Rest<'a>(&'a [u8]);

impl<'a> Rest<'a> {
    fn is_next(&self, tag: u8) -> bool {
        self.0.first() == Some(&tag)
    }

    /// A number in its shortest form.
    fn number(&mut self) -> Option<u64> {
        let mut n = 0u64;
        for (i, x) in self.0.iter().enumerate().take(10) {
            n |= u64::from(x & 0x7f) << (7 * i);
            if *x < 0x80 {
                if (*x == 0 && i > 0) || (i == 9 && *x > 1) {
                    return None;
                }
                self.0 = &self.0[i + 1..];
                return Some(n);
            }
        }
        None
    }

    /// The bytes of a field of this tag, which has to be there.
    fn bytes(&mut self, tag: u8) -> Option<&'a [u8]> {
        if !self.is_next(tag) {
            return None;
        }
        self.0 = &self.0[1..];
        let n = self.number()? as usize;
        if n > self.0.len() {
            return None;
        }
        let (front, behind) = self.0.split_at(n);
        self.0 = behind;
        Some(front)
    }

    /// The bytes of a field of this tag, which isn't there where they are none.
    fn some_bytes(&mut self, tag: u8) -> Option<&'a [u8]> {
        if !self.is_next(tag) {
            return Some(&[]);
        }
        self.bytes(tag).filter(|b| !b.is_empty())
    }

    fn some_text(&mut self, tag: u8) -> Option<&'a [u8]> {
        self.some_bytes(tag).filter(|b| std::str::from_utf8(b).is_ok())
    }

    /// A number of a field of this tag, which isn't there where it is 0.
    fn some_number(&mut self, tag: u8) -> Option<u64> {
        if !self.is_next(tag) {
            return Some(0);
        }
        self.0 = &self.0[1..];
        self.number().filter(|n| *n != 0)
    }

    fn stamp(&mut self, tag: u8) -> Option<Stamp> {
        let mut it = Rest(self.bytes(tag)?);
        let seconds = it.some_number(8)? as i64;
        let nanos = it.some_number(16)?;
        let is_right = nanos < 1_000_000_000 && (-62_135_596_800..=253_402_300_799).contains(&seconds) && it.0.is_empty();
        is_right.then_some(Stamp { seconds, nanos: nanos as i32 })
    }

    fn end(self) -> Option<()> {
        self.0.is_empty().then_some(())
    }
}

/// What counts of a version: its key, its moments, and its canonical bytes.
struct Kept<'a, K> {
    key: K,
    rank: (Stamp, Stamp),
    canonical: &'a [u8],
}

fn silence_at(row: &[u8]) -> Option<Kept<'_, &[u8]>> {
    let mut mesh = Rest(row);
    let mut it = Rest(mesh.bytes(10)?);
    let key = it.some_text(10)?;
    while it.is_next(18) {
        let mut m = Rest(it.bytes(18)?);
        if m.some_number(8)? > 3 {
            return None;
        }
        m.some_text(18)?;
        m.some_text(26)?;
        m.end()?;
    }
    it.stamp(26)?;
    it.stamp(34)?;
    let updated = it.stamp(42)?;
    it.some_text(66)?;
    it.some_text(74)?;
    it.end()?;
    let expires = mesh.stamp(18)?;
    mesh.end()?;
    Some(Kept { key, rank: (updated, expires), canonical: row })
}

/// The parts of an entry's key.
type Parts<'a> = (&'a [u8], &'a [u8], &'a [u8], u32);

fn hashes(it: &mut Rest, tag: u8) -> Option<()> {
    let mut all = Rest(it.some_bytes(tag)?);
    while !all.0.is_empty() {
        all.number()?;
    }
    Some(())
}

fn entry_at(row: &[u8]) -> Option<Kept<'_, Parts<'_>>> {
    let mut mesh = Rest(row);
    let mut it = Rest(mesh.bytes(10)?);
    let group_key = it.some_bytes(10)?;
    let mut receiver = Rest(it.bytes(18)?);
    let (name, integration) = (receiver.some_text(10)?, receiver.some_text(18)?);
    let index = receiver.some_number(24).filter(|n| *n <= u64::from(u32::MAX))? as u32;
    receiver.end()?;
    it.some_bytes(26)?;
    if it.some_number(32)? > 1 {
        return None;
    }
    let updated = it.stamp(42)?;
    hashes(&mut it, 50)?;
    hashes(&mut it, 58)?;
    it.end()?;
    let expires = mesh.stamp(18)?;
    mesh.end()?;
    Some(Kept { key: (group_key, name, integration, index), rank: (updated, expires), canonical: row })
}

// ---- any other ones, which are written anew

fn silence_anew<'a>(row: &[u8]) -> Kept<'a, &'a [u8]> {
    let v: &'static Silence = Box::leak(Box::new(read_silence(row)));
    let mut canonical = Vec::with_capacity(row.len());
    write_silence(v, &mut canonical);
    Kept { key: v.id.as_bytes(), rank: (v.updated, v.expires), canonical: canonical.leak() }
}

fn entry_anew<'a>(row: &[u8]) -> Kept<'a, Parts<'a>> {
    let e: &'static Entry = Box::leak(Box::new(read_entry(row)));
    let mut canonical = Vec::with_capacity(row.len());
    write_entry(e, &mut canonical);
    let key = (e.key.group_key.as_slice(), e.key.group_name.as_bytes(), e.key.integration.as_bytes(), e.key.idx);
    Kept { key, rank: (e.at, e.expires), canonical: canonical.leak() }
}

// ---- the fold

/// A hash of eight bytes at a time, by multiplication and rotation.
#[derive(Default)]
struct Quick(u64);

impl Hasher for Quick {
    fn write(&mut self, bytes: &[u8]) {
        for eight in bytes.chunks(8) {
            let mut word = [0u8; 8];
            word[..eight.len()].copy_from_slice(eight);
            self.0 = (self.0.rotate_left(5) ^ u64::from_le_bytes(word)).wrapping_mul(0x517c_c1b7_2722_0a95);
        }
    }

    fn finish(&self) -> u64 {
        self.0
    }
}

fn rows<'a>(b: &'a [u8], mut each: impl FnMut(&'a [u8])) {
    let mut at = 0;
    while at < b.len() {
        let n = varint(b, &mut at) as usize;
        each(&b[at..at + n]);
        at += n;
    }
}

fn fold<'a, K: std::hash::Hash + Ord + Copy>(
    data: &'a [u8],
    at: impl Fn(&'a [u8]) -> Option<Kept<'a, K>>,
    anew: impl Fn(&'a [u8]) -> Kept<'a, K>,
) {
    let mut held: HashMap<K, Kept<'a, K>, BuildHasherDefault<Quick>> = HashMap::default();
    rows(data, |row| {
        let v = at(row).unwrap_or_else(|| anew(row));
        match held.entry(v.key) {
            Place::Occupied(mut place) => {
                let h = place.get();
                if (h.rank, h.canonical) < (v.rank, v.canonical) {
                    place.insert(v);
                }
            }
            Place::Vacant(place) => {
                place.insert(v);
            }
        }
    });
    let mut winners: Vec<_> = held.into_values().collect();
    winners.sort_unstable_by(|v, w| v.key.cmp(&w.key));
    let mut out = Vec::with_capacity(data.len());
    for v in &winners {
        put_varint(&mut out, v.canonical.len() as u64);
        out.extend_from_slice(v.canonical);
    }
    std::io::stdout().write_all(&out).expect("output");
}

fn main() {
    let mut data = Vec::new();
    std::io::stdin().read_to_end(&mut data).expect("input");
    let data: &'static [u8] = data.leak();
    match std::env::args().nth(1).as_deref() {
        Some("sil") => fold(data, silence_at, silence_anew),
        Some("nfl") => fold(data, entry_at, entry_anew),
        _ => panic!("sil or nfl"),
    }
}
