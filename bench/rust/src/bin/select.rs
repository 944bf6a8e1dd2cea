//! The plain program that `fishstore select 'take NAME' VALUE FILE` is measured against: it holds the
//! file, reads each line with `serde_json` as a `Value`, and lists the matches newest first.
use serde_json::Value;
use std::io::Write;

fn main() {
    let args: Vec<String> = std::env::args().collect();
    let (name, wanted, file) = (&args[1], &args[2], &args[3]);
    let wanted: Value = serde_json::from_str(wanted).expect("a value");
    let bytes = std::fs::read(file).expect("a file");
    let (mut rows, mut count, mut refused) = (Vec::new(), 0usize, 0usize);
    for line in bytes.split(|b| *b == b'\n') {
        let line = line.strip_suffix(b"\r").unwrap_or(line);
        if line.iter().all(|b| matches!(b, b' ' | b'\t' | b'\r')) {
            continue;
        }
        match serde_json::from_slice::<Value>(line) {
            Ok(Value::Object(members)) => {
                if members.get(name) == Some(&wanted) {
                    rows.push((count, line));
                }
                count += 1;
            }
            _ => refused += 1,
        }
    }
    let mut text = Vec::new();
    writeln!(text, "select found {} of {} refused {}", rows.len(), count, refused).expect("memory");
    for (number, line) in rows.iter().rev() {
        write!(text, "{} {} ", number, line.len()).expect("memory");
        text.extend_from_slice(line);
        text.push(b'\n');
    }
    std::io::stdout().write_all(&text).expect("an output");
}
