//! The plain map of the stage before, with no servers, messages or logs, in plain Rust with std alone and with nothing
//! proved: a yardstick of `bench/run`. It reads `call 1 create`, `remove` and `lookup` lines from standard input and
//! writes the text that `giga solo` writes for them.
use std::collections::BTreeMap;
use std::fmt::Write as _;
use std::io::{BufRead, BufReader, Write};
use std::process::exit;

#[derive(Clone, Copy)]
struct Attr {
    dir: u64,
    mode: u32,
    size: u64,
}

enum Verb {
    Create,
    Remove,
    Lookup,
}

fn call(line: &[u8]) -> Option<(Verb, &str, u64, &[u8])> {
    let rest = line.strip_prefix(b"call 1 ")?;
    let (verb, word, rest) = if let Some(rest) = rest.strip_prefix(b"create ") {
        (Verb::Create, "create", rest)
    } else if let Some(rest) = rest.strip_prefix(b"remove ") {
        (Verb::Remove, "remove", rest)
    } else {
        (Verb::Lookup, "lookup", rest.strip_prefix(b"lookup ")?)
    };
    let space = rest.iter().position(|byte| *byte == b' ')?;
    let (number, name) = (&rest[..space], &rest[space + 1..]);
    if !number.iter().all(u8::is_ascii_digit) || number[0] == b'0' {
        return None;
    }
    let dir: u64 = std::str::from_utf8(number).ok()?.parse().ok()?;
    let plain = name.iter().all(|byte| (33..=126).contains(byte) && *byte != b'%' && *byte != b'/');
    let named = (1..=255).contains(&name.len()) && name != b"." && name != b"..";
    (dir < 1 << 48 && plain && named).then_some((verb, word, dir, name))
}

fn main() {
    let mut input = BufReader::with_capacity(65_536, std::io::stdin());
    let mut output = std::io::stdout();
    let (mut line, mut answers, mut effects) = (Vec::new(), String::new(), String::new());
    let mut entries: BTreeMap<(u64, Vec<u8>), Attr> = BTreeMap::new();
    for number in 1u64.. {
        if input.buffer().is_empty() {
            output.write_all(answers.as_bytes()).unwrap();
            answers.clear();
        }
        line.clear();
        if input.read_until(b'\n', &mut line).unwrap() == 0 {
            break;
        }
        if line.last() == Some(&b'\n') {
            line.pop();
        }
        let Some((verb, word, dir, name)) = call(&line) else {
            output.write_all(answers.as_bytes()).unwrap();
            eprintln!("giga: bad script at line {number}");
            exit(3);
        };
        let place = (dir, name.to_vec());
        let mut reply = String::new();
        match verb {
            Verb::Create => {
                if entries.contains_key(&place) {
                    reply.push_str("exists");
                } else {
                    entries.insert(place, Attr { dir: 0, mode: 420, size: 0 });
                    reply.push_str("created");
                }
            }
            Verb::Remove => match entries.get(&place) {
                None => reply.push_str("missing"),
                Some(attr) if attr.dir != 0 => reply.push_str("isdir"),
                Some(_) => {
                    entries.remove(&place);
                    reply.push_str("removed");
                }
            },
            Verb::Lookup => match entries.get(&place) {
                None => reply.push_str("missing"),
                Some(attr) => write!(reply, "found file {} {}", attr.mode, attr.size).unwrap(),
            },
        }
        let name = std::str::from_utf8(name).unwrap();
        writeln!(answers, "1 {number} {reply}").unwrap();
        writeln!(effects, "= 1 {number} {word} {dir} {name} {reply}").unwrap();
    }
    output.write_all(answers.as_bytes()).unwrap();
    output.write_all(effects.as_bytes()).unwrap();
    output.write_all(b"end\n").unwrap();
    output.flush().unwrap();
}
