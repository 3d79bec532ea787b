//! The yardstick of api.py: the same answers by hand, in plain Rust.

use std::collections::BTreeMap;
use std::fmt::Write;
use std::time::Instant;

struct Silence {
    name: String,
    value: String,
    starts: u64,
    ends: u64,
    updated: u64,
    created_by: String,
    comment: String,
}

const NOW: u64 = 1_000_000;

/// How long a silence is kept after its end, in milliseconds.
const RETENTION: u64 = 100_000;

fn text(out: &mut String, text: &str) {
    out.push('"');
    for c in text.chars() {
        match c {
            '"' => out.push_str("\\\""),
            '\\' => out.push_str("\\\\"),
            '\n' => out.push_str("\\n"),
            c if c < ' ' => write!(out, "\\u{:04x}", c as u32).unwrap(),
            c => out.push(c),
        }
    }
    out.push('"');
}

// The date of so many days since 1970.
fn date(days: i64) -> (i64, u64, u64) {
    let shifted = days + 719_468;
    let era = shifted.div_euclid(146_097);
    let day = shifted.rem_euclid(146_097);
    let year = (day - day / 1_460 + day / 36_524 - day / 146_096) / 365;
    let day = day - (365 * year + year / 4 - year / 100);
    let month = (5 * day + 2) / 153;
    let first = day - (153 * month + 2) / 5 + 1;
    let month = if month < 10 { month + 3 } else { month - 9 };
    (year + era * 400 + i64::from(month <= 2), month as u64, first as u64)
}

fn moment(out: &mut String, millis: u64) {
    let seconds = millis / 1_000;
    let (year, month, day) = date((seconds / 86_400) as i64);
    let left = seconds % 86_400;
    let (hour, minute, second) = (left / 3_600, left / 60 % 60, left % 60);
    write!(out, "\"{year:04}-{month:02}-{day:02}T{hour:02}:{minute:02}:{second:02}.{:03}Z\"", millis % 1_000).unwrap();
}

fn gettable(out: &mut String, id: &str, s: &Silence) {
    out.push_str("{\"comment\":");
    text(out, &s.comment);
    out.push_str(",\"createdBy\":");
    text(out, &s.created_by);
    out.push_str(",\"endsAt\":");
    moment(out, s.ends);
    out.push_str(",\"id\":");
    text(out, id);
    out.push_str(",\"matchers\":[{\"isEqual\":true,\"isRegex\":false,\"name\":");
    text(out, &s.name);
    out.push_str(",\"value\":");
    text(out, &s.value);
    out.push_str("}],\"startsAt\":");
    moment(out, s.starts);
    out.push_str(",\"status\":{\"state\":\"");
    out.push_str(if NOW < s.starts { "pending" } else if NOW < s.ends { "active" } else { "expired" });
    out.push_str("\"},\"updatedAt\":");
    moment(out, s.updated);
    out.push('}');
}

fn reply(body: &str) -> String {
    format!(
        "HTTP/1.1 200 OK\r\ncontent-type: application/json\r\ncontent-length: {}\r\nconnection: close\r\n\r\n{body}",
        body.len()
    )
}

fn list(held: &BTreeMap<String, Silence>, wanted: Option<&str>) -> String {
    let mut body = String::from("[");
    for (id, s) in held {
        if s.ends + RETENTION > NOW && wanted.is_none_or(|job| s.name == "job" && s.value == job) {
            if body.len() > 1 {
                body.push(',');
            }
            gettable(&mut body, id, s);
        }
    }
    body.push(']');
    reply(&body)
}

// The text behind a key of the body.
fn text_at<'a>(body: &'a str, key: &str) -> &'a str {
    let at = body.find(&format!("\"{key}\":\"")).unwrap() + key.len() + 4;
    let rest = &body[at..];
    &rest[..rest.find('"').unwrap()]
}

fn milliseconds(text: &str) -> u64 {
    let number = |from: usize| text[from..from + 2].parse::<u64>().unwrap();
    (number(11) * 3_600 + number(14) * 60 + number(17)) * 1_000
}

fn post(held: &mut BTreeMap<String, Silence>, body: &str) -> String {
    let silence = Silence {
        name: text_at(body, "name").to_string(),
        value: text_at(body, "value").to_string(),
        starts: milliseconds(text_at(body, "startsAt")),
        ends: milliseconds(text_at(body, "endsAt")),
        updated: NOW,
        created_by: text_at(body, "createdBy").to_string(),
        comment: text_at(body, "comment").to_string(),
    };
    let id = "00000000-0000-4000-8000-000000000000";
    held.insert(id.to_string(), silence);
    reply(&format!("{{\"silenceID\":\"{id}\"}}"))
}

fn answer(held: &mut BTreeMap<String, Silence>, request: &str) -> String {
    let (head, body) = request.split_once("\r\n\r\n").unwrap();
    let mut words = head.lines().next().unwrap().split(' ');
    let (method, target) = (words.next().unwrap(), words.next().unwrap());
    if method == "POST" {
        return post(held, body);
    }
    if let Some(id) = target.strip_prefix("/api/v2/silence/") {
        let mut body = String::new();
        gettable(&mut body, id, &held[id]);
        return reply(&body);
    }
    list(held, target.strip_prefix("/api/v2/silences?filter=job%3D"))
}

fn silence(number: usize) -> (String, Silence) {
    let silence = Silence {
        name: "job".to_string(),
        value: format!("job-{}", number % 1_000),
        starts: 10_000,
        ends: 100_000_000,
        updated: 10_000,
        created_by: "ops".to_string(),
        comment: "a \"planned\" change".to_string(),
    };
    (format!("silence-{number}"), silence)
}

fn main() {
    let requests = [
        ("list", "GET /api/v2/silences HTTP/1.1\r\n\r\n"),
        ("list with a filter", "GET /api/v2/silences?filter=job%3Djob-7 HTTP/1.1\r\n\r\n"),
        ("one", "GET /api/v2/silence/silence-7 HTTP/1.1\r\n\r\n"),
        (
            "post",
            "POST /api/v2/silences HTTP/1.1\r\ncontent-length: 165\r\n\r\n{\"matchers\":[{\"name\":\"job\",\"value\":\"job-7\",\"isRegex\":false}],\"startsAt\":\"1970-01-01T00:30:00Z\",\"endsAt\":\"1970-01-01T01:00:00.000Z\",\"createdBy\":\"ops\",\"comment\":\"hi\"} ",
        ),
    ];
    for count in [1_000, 10_000] {
        let mut held: BTreeMap<String, Silence> = (0..count).map(silence).collect();
        println!("held {count} 0 {}", held.len());
        for (name, request) in requests {
            let begin = Instant::now();
            let bytes = answer(&mut held, request);
            let took = begin.elapsed().as_nanos();
            let sum: u64 = bytes.bytes().map(u64::from).sum();
            println!("{name} {count} {took} {}/{sum}", bytes.len());
        }
    }
}
