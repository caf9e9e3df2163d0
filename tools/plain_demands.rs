// The same task as the program `demands`, in plain Rust, to compare its speed with: no faults told, no proofs.
// rustc -O tools/plain_demands.rs -o /tmp/plain_demands
use std::io::{Read, Write};

#[derive(Clone, Copy, PartialEq)]
struct Peak(u64, usize, usize);

fn days(text: &str) -> u32 {
    let mut mask = 0;
    if text != "-" {
        for part in text.split(',') {
            let (a, b) = part.split_once('-').unwrap_or((part, part));
            for d in a.parse::<u32>().unwrap()..=b.parse::<u32>().unwrap() {
                mask |= 1 << (d - 1);
            }
        }
    }
    mask
}

fn weekday(year: u32, month: u32, day: u32) -> u32 {
    let shift = [0, 3, 2, 5, 0, 3, 5, 1, 4, 6, 2, 4];
    let y = if month < 3 { year - 1 } else { year };
    (y + y / 4 - y / 100 + y / 400 + shift[month as usize - 1] + day + 6) % 7
}

fn search(days: usize, admits: impl Fn(usize, usize) -> bool, at: impl Fn(usize, usize) -> u64) -> Peak {
    let mut best = Peak(0, 0, 0);
    for d in 1..=days {
        for h in 1..=24 {
            if admits(d, h) {
                let q = at(d, h);
                if q >= best.0 {
                    best = Peak(q, d, h);
                }
            }
        }
    }
    best
}

fn main() {
    let args: Vec<String> = std::env::args().collect();
    let (year, month): (u32, u32) = (args[1].parse().unwrap(), args[2].parse().unwrap());
    let (holidays, summer) = (days(&args[3]), days(&args[4]));
    let points: Vec<&str> = args[5].split(',').collect();
    let leap = year % 4 == 0 && year % 100 != 0 || year % 400 == 0;
    let length = [31, 28 + leap as usize, 31, 30, 31, 30, 31, 31, 30, 31, 30, 31][month as usize - 1];
    let mut input = String::new();
    std::io::stdin().read_to_string(&mut input).unwrap();
    let mut table = vec![u32::MAX; points.len() * length * 24];
    for line in input.lines() {
        let mut values = line.split('|');
        let point: usize = values.next().unwrap().parse().unwrap();
        let day: usize = values.next().unwrap().parse().unwrap();
        let start = ((point - 1) * length + day - 1) * 24;
        for (i, v) in values.enumerate() {
            let q: u32 = v[1..].parse().unwrap();
            table[start + i] = if v.starts_with('W') { q } else { 0 };
        }
    }
    assert!(table.iter().all(|w| *w != u32::MAX));
    let demand = |p: usize, d: usize, h: usize| table[(p * length + d - 1) * 24 + h - 1] as u64;
    let network: Vec<usize> = (0..points.len()).filter(|p| points[*p] == "N").collect();
    let peak_hour = |d: usize, h: usize| {
        let bit = 1 << (d - 1);
        let early = (summer & bit != 0) as usize;
        weekday(year, month, d as u32) < 5 && holidays & bit == 0 && h >= 8 - early && h <= 19 - early
    };
    let system = search(length, |_, _| true, |d, h| network.iter().map(|p| demand(*p, d, h)).sum());
    let mut out = std::io::BufWriter::new(std::io::stdout().lock());
    writeln!(out, "peak|{}|{}|{}", system.0, system.1, system.2).unwrap();
    for (p, kind) in points.iter().enumerate() {
        let n = p + 1;
        if *kind == "N" {
            let c = demand(p, system.1, system.2);
            let q = search(length, &peak_hour, |d, h| demand(p, d, h));
            let (x, d, h) = if 100 * c >= 85 * q.0 { (100 * c, system.1, system.2) } else { (85 * q.0, q.1, q.2) };
            writeln!(out, "{n}|650|{x}|{d}|{h}|{c}|{}", q.0).unwrap();
        } else {
            let q = search(length, |_, _| true, |d, h| demand(p, d, h));
            for (mark, charge) in [('L', 651), ('T', 652)] {
                if kind.contains(mark) {
                    writeln!(out, "{n}|{charge}|{}|{}|{}", 100 * q.0, q.1, q.2).unwrap();
                }
            }
        }
    }
}
