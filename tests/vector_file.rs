// Reads the files of tests/vectors, whose first lines say what the others mean; tools/vector_file.py writes them.
use crate::calls::{Settings, CLOSE_PAREN, OPEN_PAREN};

#[derive(Clone, Default)]
pub struct Inputs {
    pub statement: Vec<u8>,
    pub sheet: Vec<u8>,
    pub settings: Settings,
    pub lent: usize,
}

// A call on the inputs that stand, with the numbers of its line, the escaped quotes that it must tell, and what it must have
// written.
#[derive(Clone)]
pub struct Check {
    pub line: usize,
    pub mark: char,
    pub inputs: Inputs,
    pub numbers: Vec<u64>,
    pub escaped: u64,
    pub records: Vec<Vec<u64>>,
    pub text: Vec<u8>,
}

fn unescape(text: &str) -> Vec<u8> {
    let b = text.as_bytes();
    let mut out = Vec::new();
    let mut i = 0;
    while i < b.len() {
        if b[i] != b'\\' {
            out.push(b[i]);
            i += 1;
            continue;
        }
        match b[i + 1] {
            b'n' => out.push(b'\n'),
            b'r' => out.push(b'\r'),
            b't' => out.push(b'\t'),
            b'\\' => out.push(b'\\'),
            b'x' => {
                out.extend(hexadecimal(&text[i + 2..i + 4]));
                i += 2;
            }
            other => panic!("no such escape: {}", other as char),
        }
        i += 2;
    }
    out
}

fn numbers(rest: &str) -> Vec<u64> {
    rest.split(' ').map(|n| n.parse().unwrap()).collect()
}

// `N B`: N times the byte B.
fn repeated(rest: &str) -> Vec<u8> {
    let n = numbers(rest);
    vec![n[1] as u8; n[0] as usize]
}

// Two digits for each byte.
fn hexadecimal(text: &str) -> Vec<u8> {
    (0..text.len() / 2).map(|i| u8::from_str_radix(&text[2 * i..2 * i + 2], 16).unwrap()).collect()
}

// `N B HEX`: bytes, and N times the byte B behind them.
fn continued(rest: &str) -> Vec<u8> {
    let (times, head) = rest.rsplit_once(' ').unwrap();
    [hexadecimal(head), repeated(times)].concat()
}

impl Inputs {
    // Whether the line is an input.
    fn take(&mut self, mark: &str, rest: &str) -> bool {
        match mark {
            "s" => self.statement = unescape(rest),
            "f" => self.statement = repeated(rest),
            "v" => self.sheet = hexadecimal(rest),
            "w" => self.sheet = continued(rest),
            "o" => {
                let n = numbers(rest);
                (self.settings, self.lent) = ([n[0], n[1], n[2]], n[3] as usize);
            }
            _ => return false,
        }
        true
    }
}

impl Check {
    // `n N`: so many more like the last record, each starting where the one before it ends, and at the level past it.
    fn go_on(&mut self, times: u64) {
        for _ in 0..times {
            let mut record = self.records.last().unwrap().clone();
            record[1] += record[2];
            record[7] = match record[0] as u32 {
                OPEN_PAREN => record[7] + 1,
                CLOSE_PAREN => record[7].saturating_sub(1),
                _ => record[7],
            };
            self.records.push(record);
        }
    }

    // Whether the line is what the call must have told or written.
    fn take(&mut self, mark: &str, rest: &str) -> bool {
        match mark {
            "e" => self.escaped = numbers(rest)[0],
            "r" => self.records.push(numbers(rest)),
            "n" => self.go_on(numbers(rest)[0]),
            "t" => self.text = unescape(rest),
            "g" => self.text = repeated(rest),
            _ => return false,
        }
        true
    }
}

// The checks with one of the marks, in the file named on the command line or the usual one.
pub fn checks(usual: &str, mark: char) -> Vec<Check> {
    let path = std::env::args().nth(1).unwrap_or(usual.to_string());
    let file = std::fs::read_to_string(&path).unwrap();
    let mut inputs = Inputs::default();
    let mut checks: Vec<Check> = Vec::new();
    for (i, line) in file.lines().enumerate().filter(|(_, line)| !line.is_empty() && !line.starts_with('#')) {
        let (mark, rest) = line.split_once(' ').unwrap_or((line, ""));
        if inputs.take(mark, rest) || checks.last_mut().is_some_and(|check| check.take(mark, rest)) {
            continue;
        }
        assert!(mark == "=" || mark == "l", "line {}: {}", i + 1, line);
        checks.push(Check {
            line: i + 1,
            mark: mark.chars().next().unwrap(),
            inputs: inputs.clone(),
            numbers: numbers(rest),
            escaped: 0,
            records: Vec::new(),
            text: Vec::new(),
        });
    }
    checks.retain(|check| check.mark == mark);
    checks
}
