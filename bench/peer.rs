//! What somebody would write by hand in plain Rust for one plan at a time, to compare the engine with: an ordered map
//! that closes windows at watermarks. It has one thread, and takes each line for good.
//!
//!     peer sum SIZE | slide SIZE EVERY | views SIZE TABLE | join SIZE
//!
//! Lines come on standard input and rows go to standard output, as of the engine. `views` keeps the records of value 1,
//! takes the key that the table has for theirs, and counts; `join` adds each value of stream a to each of stream b.

use std::collections::{BTreeMap, HashMap};
use std::io::{self, BufRead, BufReader, BufWriter, Write};

struct Record {
    stream: u8,
    time: u64,
    key: u64,
    value: i64,
}

enum Line {
    Rec(Record),
    Mark(u8, u64),
    Nothing,
}

/// The number at the front and the length of its text.
fn number(bytes: &[u8]) -> (u64, usize) {
    let mut all = 0;
    let mut len = 0;
    while let Some(digit) = bytes.get(len).filter(|it| it.is_ascii_digit()) {
        all = all * 10 + u64::from(digit - b'0');
        len += 1;
    }
    (all, len)
}

fn line_of(bytes: &[u8]) -> Line {
    match bytes {
        [b'r', b',', stream, b',', rest @ ..] => {
            let (time, len) = number(rest);
            let rest = &rest[len + 1..];
            let (key, len) = number(rest);
            let rest = &rest[len + 1..];
            let value = match rest {
                [b'-', digits @ ..] => -(number(digits).0 as i64),
                digits => number(digits).0 as i64,
            };
            Line::Rec(Record {
                stream: *stream,
                time,
                key,
                value,
            })
        }
        [b'w', b',', stream, b',', rest @ ..] => Line::Mark(*stream, number(rest).0),
        _ => Line::Nothing,
    }
}

/// What is kept of the records of one window and key.
enum Plan {
    Sums {
        size: u64,
        every: u64,
        open: BTreeMap<(u64, u64), i64>,
    },
    Views {
        size: u64,
        campaigns: HashMap<u64, u64>,
        open: BTreeMap<(u64, u64), i64>,
    },
    Pairs {
        size: u64,
        open: BTreeMap<(u64, u64), (Vec<i64>, Vec<i64>)>,
    },
}

impl Plan {
    fn streams(&self) -> usize {
        if matches!(self, Plan::Pairs { .. }) { 2 } else { 1 }
    }

    fn take(&mut self, record: &Record) {
        match self {
            Plan::Sums { size, every, open } => {
                let first = record.time / *every * *every + *every;
                let mut end = first;
                while end < first + *size {
                    *open.entry((end, record.key)).or_insert(0) += record.value;
                    end += *every;
                }
            }
            Plan::Views {
                size,
                campaigns,
                open,
            } => {
                if record.value == 1 {
                    if let Some(campaign) = campaigns.get(&record.key) {
                        *open.entry((record.time / *size * *size + *size, *campaign)).or_insert(0) += 1;
                    }
                }
            }
            Plan::Pairs { size, open } => {
                let sides = open.entry((record.time / *size * *size + *size, record.key)).or_default();
                if record.stream == b'a' {
                    sides.0.push(record.value);
                } else {
                    sides.1.push(record.value);
                }
            }
        }
    }

    /// Writes the rows of the windows that end by the mark, and forgets them.
    fn close<W: Write>(&mut self, mark: u64, out: &mut W) -> io::Result<()> {
        match self {
            Plan::Sums { open, .. } | Plan::Views { open, .. } => {
                while let Some(first) = open.first_entry() {
                    let (end, key) = *first.key();
                    if end > mark {
                        break;
                    }
                    writeln!(out, "{end},{key},{}", first.get())?;
                    first.remove();
                }
            }
            Plan::Pairs { open, .. } => {
                while let Some(first) = open.first_entry() {
                    let (end, key) = *first.key();
                    if end > mark {
                        break;
                    }
                    let (left, right) = first.remove();
                    let mut values: Vec<i64> = left.iter().flat_map(|l| right.iter().map(move |r| l + r)).collect();
                    values.sort_unstable();
                    for value in values {
                        writeln!(out, "{end},{key},{value}")?;
                    }
                }
            }
        }
        Ok(())
    }
}

fn plan_of(words: &[String]) -> Option<Plan> {
    let size = words.get(1)?.parse().ok()?;
    match words[0].as_str() {
        "sum" => Some(Plan::Sums {
            size,
            every: size,
            open: BTreeMap::new(),
        }),
        "slide" => Some(Plan::Sums {
            size,
            every: words.get(2)?.parse().ok()?,
            open: BTreeMap::new(),
        }),
        "views" => {
            let table = std::fs::read_to_string(words.get(2)?).ok()?;
            let campaigns = table.lines().filter_map(|row| {
                let (ad, campaign) = row.split_once(',')?;
                Some((ad.parse().ok()?, campaign.parse().ok()?))
            });
            Some(Plan::Views {
                size,
                campaigns: campaigns.collect(),
                open: BTreeMap::new(),
            })
        }
        "join" => Some(Plan::Pairs {
            size,
            open: BTreeMap::new(),
        }),
        _ => None,
    }
}

fn main() -> io::Result<()> {
    let words: Vec<String> = std::env::args().skip(1).collect();
    let mut plan = plan_of(&words).expect("sum SIZE | slide SIZE EVERY | views SIZE TABLE | join SIZE");
    let mut input = BufReader::with_capacity(65_536, io::stdin().lock());
    let mut out = BufWriter::with_capacity(65_536, io::stdout().lock());
    let mut marks = [0, 0];
    let mut line = Vec::new();
    while input.read_until(b'\n', &mut line)? > 0 {
        match line_of(&line) {
            Line::Rec(record) => plan.take(&record),
            Line::Mark(stream, time) => {
                marks[usize::from(stream == b'b')] = time;
                let low = if plan.streams() == 2 { marks[0].min(marks[1]) } else { marks[0] };
                plan.close(low, &mut out)?;
                // Rows are there as soon as they are final.
                out.flush()?;
            }
            Line::Nothing => {}
        }
        line.clear();
    }
    plan.close(u64::MAX, &mut out)?;
    out.flush()
}
