//! Gives each vector to `receive` and tells each that is answered otherwise: vectors FOLDER; status 1 where one is.
//! One vector stands in each line, so that `rustc vectors.rs` needs no reader of JSON.

/// Your reader stands here: "taken", "refused", or the code of the status with which it refuses; None is no answer.
fn receive(protocol: &str, data: &[u8]) -> Option<&'static str> {
    let number = |at: usize| usize::from(data[at]) << 8 | usize::from(data[at + 1]);
    if protocol == "ldp" {
        return match data.len() {
            0..=9 => Some("refused"),
            _ if number(0) != 1 => Some("00000002"),
            length if length < 18 || number(2) != length - 4 => Some("00000003"),
            length if number(12) < 4 || 14 + number(12) > length => Some("00000005"),
            _ => None,
        };
    }
    if data.len() < 19 {
        return Some("refused");
    }
    let (size, kind) = (number(16), data[18]);
    let least = match kind { 1 => 29, 2 => 23, 3 => 21, _ => 19 };
    match kind {
        _ if data[..16] != [0xFF; 16] => Some("1/1"),
        _ if size != data.len() || size < least || size > 4096 || kind == 4 && size != 19 => Some("1/2"),
        1..=3 => None,
        4 => Some("taken"),
        _ => Some("1/3"),
    }
}

/// The value of a key in the line, up to what ends it.
fn value<'a>(line: &'a str, key: &str) -> Option<&'a str> {
    let rest = line.split_once(&format!("\"{key}\": "))?.1;
    match rest.strip_prefix('"') { Some(text) => Some(text.split_once('"')?.0), None => Some(rest.split([',', '}']).next()?) }
}

fn main() {
    let folder = std::env::args().nth(1).unwrap_or(".".into());
    let mut wrong = false;
    for name in ["ldp", "bgp", "bulk", "sessions"] {
        let text = std::fs::read_to_string(format!("{folder}/{name}.json")).expect(name);
        let (mut vectors, mut answered) = (0, 0);
        for line in text.lines() {
            let Some(hex) = value(line, "hex") else { continue };
            let data: Vec<u8> = (0..hex.len() / 2).map(|at| u8::from_str_radix(&hex[2 * at..2 * at + 2], 16).expect(hex)).collect();
            let wanted = if value(line, "accept") == Some("true") { "taken" } else { value(line, "code").unwrap_or("refused") };
            let told = receive(value(line, "protocol").expect(line), &data);
            vectors += 1;
            answered += usize::from(told.is_some());
            if told.is_some_and(|code| code != wanted) {
                wrong = true;
                println!("{name}: {}: {told:?}, and not {wanted}", value(line, "name").unwrap_or(hex));
            }
        }
        println!("{name}: {vectors} vectors, {answered} answered");
    }
    std::process::exit(i32::from(wrong));
}
