//! The plain program that `fishstore run` is measured against: it holds a file, reads each line with `serde_json` as a
//! `Value`, and keeps for four subsets a map from each value to the positions of its records. Then it answers one
//! question as often as it is told, newest first.
use serde_json::Value;
use std::collections::HashMap;
use std::io::Write;

type Positions = HashMap<String, Vec<usize>>;

/// The value of each subset on a record, where it has one.
fn values(record: &Value) -> [Option<Value>; 4] {
    let event = record.get("type").cloned();
    let login = record.pointer("/actor/login").cloned();
    let push = event == Some(Value::from("PushEvent")) && record.get("public") == Some(&Value::Bool(true));
    let size = record.pointer("/payload/size").and_then(Value::as_i64);
    [
        event,
        login,
        push.then_some(Value::Bool(true)),
        size.map(|size| Value::from(size - size.rem_euclid(10))),
    ]
}

fn main() {
    let args: Vec<String> = std::env::args().collect();
    let (file, subset, wanted, times) = (&args[1], &args[2], &args[3], &args[4]);
    let subset: usize = subset.parse().expect("a number");
    let wanted: Value = serde_json::from_str(wanted).expect("a value");
    let times: usize = times.parse().expect("a number");
    let bytes = std::fs::read(file).expect("a file");
    let mut maps: [Positions; 4] = Default::default();
    let mut records = Vec::new();
    for line in bytes.split(|b| *b == b'\n').filter(|line| !line.is_empty()) {
        if let Ok(record @ Value::Object(_)) = serde_json::from_slice::<Value>(line) {
            for (map, value) in maps.iter_mut().zip(values(&record)) {
                if let Some(value) = value {
                    map.entry(value.to_string()).or_default().push(records.len());
                }
            }
            records.push(line);
        }
    }
    let mut text = Vec::new();
    for _ in 0..times {
        let found = maps[subset].get(&wanted.to_string()).map_or(&[][..], Vec::as_slice);
        writeln!(text, "found {} of {}", found.len(), records.len()).expect("memory");
        for number in found.iter().rev() {
            write!(text, "{} {} ", number, records[*number].len()).expect("memory");
            text.extend_from_slice(records[*number]);
            text.push(b'\n');
        }
        std::io::stdout().write_all(&text).expect("an output");
        text.clear();
    }
}
