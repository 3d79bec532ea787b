//! The yardstick of parse.py, in plain Rust: the lines of a schedule in words, the words copied, and labels in a hash map.

use std::collections::HashMap;
use std::io::Read;
use std::time::Instant;

fn main() {
    let mut text = Vec::new();
    std::io::stdin().read_to_end(&mut text).expect("the input is read");
    let start = Instant::now();
    let text = std::str::from_utf8(&text).expect("the input is UTF-8");
    let mut labels: HashMap<&str, Vec<String>> = HashMap::new();
    let mut lines = Vec::new();
    for line in text.lines().skip(1) {
        let words: Vec<&str> = line.split(' ').collect();
        let copies = words.iter().map(|word| word.to_string()).collect::<Vec<String>>();
        if words[0] == "sil" {
            labels.insert(words[1], copies);
        } else {
            let known = words.iter().filter(|word| labels.contains_key(*word)).count();
            lines.push((copies, known));
        }
    }
    println!("{} {}", start.elapsed().as_nanos(), lines.len());
}
