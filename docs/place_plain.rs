// Place in plain Rust, by the same method as the proved one, to compare its answers and its cost with. It reads the lines that `placer` reads
// (Open, Raise, Feeder, Link and Place, all of them sound) and writes what `placer` writes. Compile with `rustc -O`.
#[allow(dead_code)]
#[path = "fit_plain.rs"]
mod fit_plain;

use fit_plain::{fit, limited, Held, Steps, UNLIMITED};
use std::io::{Read, Write};

const HIGHEST_LEVEL: u32 = 3_000_000_000;

#[derive(Clone, Copy)]
struct Terms {
    rate: u16,
    fixed: u32,
    limit: Option<u32>,
}
const NEW_TERMS: Terms = Terms {
    rate: 0,
    fixed: 0,
    limit: None,
};

#[derive(Clone, Copy)]
struct Mast {
    x: i32,
    y: i32,
    feeders: [Terms; 12],
}

struct Plan {
    count: usize,
    masts: [Option<Mast>; 40],
    links: [[Terms; 12]; 12],
}

enum Refused {
    NoMast,
    Loose(u8),
    Unkept,
}

fn reach(t: Terms, level: u32) -> Steps {
    if t.rate == 0 {
        return t.limit.map_or(UNLIMITED, |l| limited(l as u64));
    }
    let paid = level.saturating_sub(t.fixed) / t.rate as u32;
    limited(t.limit.map_or(paid, |l| l.min(paid)) as u64)
}

fn ties(t: Terms) -> bool {
    t.rate > 0 || t.limit.is_some()
}

// The lowest pillar that no tying runs lead from to a mast.
fn lowest_loose(plan: &Plan) -> Option<u8> {
    let n = plan.count;
    let mut tied = [false; 12];
    for (p, tied) in tied.iter_mut().enumerate().take(n) {
        *tied = plan.masts.iter().flatten().any(|m| ties(m.feeders[p]));
    }
    let mut done = [false; 12];
    while let Some(u) = (0..n).find(|&p| tied[p] && !done[p]) {
        done[u] = true;
        for v in 0..n {
            tied[v] |= ties(plan.links[u.min(v)][u.max(v)]);
        }
    }
    (0..n).find(|&p| !tied[p]).map(|p| p as u8)
}

// What a chain's reaches add to at a level, if that is below the gap.
fn short_at(terms: &[Terms], gap: u64, level: u32) -> Option<u64> {
    let mut total = 0;
    for t in terms {
        let steps = reach(*t, level).limit_only()?;
        if steps >= gap - total {
            return None;
        }
        total += steps;
    }
    (total < gap).then_some(total)
}

trait LimitOnly {
    fn limit_only(self) -> Option<u64>;
}
impl LimitOnly for Steps {
    fn limit_only(self) -> Option<u64> {
        if self == UNLIMITED {
            None
        } else {
            self.limit()
        }
    }
}

// The least level at which the chain is no longer too short.
fn paying_level(plan: &Plan, points: &[(i32, i32)], held: &Held, level: u32) -> Option<u32> {
    let chain = &held.pillars[..held.count];
    let feeder = |m: usize, p: u8| plan.masts[m].map_or(NEW_TERMS, |a| a.feeders[p as usize]);
    let mut terms = [NEW_TERMS; 13];
    terms[0] = feeder(held.from, chain[0]);
    for i in 1..chain.len() {
        let (p, q) = (chain[i - 1] as usize, chain[i] as usize);
        terms[i] = plan.links[p.min(q)][p.max(q)];
    }
    terms[chain.len()] = feeder(held.to, chain[chain.len() - 1]);
    let terms = &terms[..chain.len() + 1];
    let (a, b) = (points[held.from], points[held.to]);
    let gap = a.0.abs_diff(b.0).max(a.1.abs_diff(b.1)) as u64;
    if short_at(terms, gap, HIGHEST_LEVEL).is_some() {
        return None;
    }
    let (mut low, mut high) = (level, HIGHEST_LEVEL);
    while low + 1 < high {
        let middle = low + (high - low) / 2;
        if short_at(terms, gap, middle).is_some() {
            low = middle;
        } else {
            high = middle;
        }
    }
    Some(high)
}

fn runs(plan: &Plan) -> impl Iterator<Item = Terms> + '_ {
    let n = plan.count;
    let feeders = plan.masts.iter().flatten().flat_map(move |m| m.feeders[..n].iter());
    let links = (0..n).flat_map(move |p| plan.links[p][p + 1..n].iter());
    feeders.chain(links).copied()
}

fn level_at(plan: &Plan, sites: &[(i32, i32)]) -> u64 {
    let length = |a: (i32, i32), b: (i32, i32)| ((a.0.abs_diff(b.0) + a.1.abs_diff(b.1)) / 2) as u64;
    let price = |t: Terms, l: u64| t.rate as u64 * l + t.fixed as u64;
    let mut top = 0;
    for m in plan.masts.iter().flatten() {
        for (p, s) in sites.iter().enumerate() {
            top = top.max(price(m.feeders[p], length((2 * m.x, 2 * m.y), *s)));
        }
    }
    for (p, s) in sites.iter().enumerate() {
        for (q, t) in sites.iter().enumerate().skip(p + 1) {
            top = top.max(price(plan.links[p][q], length(*s, *t)));
        }
    }
    top
}

#[inline(never)]
fn place(plan: &Plan, sites: &mut [(i32, i32)]) -> Result<u32, Refused> {
    let first = plan.masts.iter().flatten().next().ok_or(Refused::NoMast)?;
    let span = plan.masts.iter().rposition(|m| m.is_some()).map_or(0, |m| m + 1);
    if let Some(p) = lowest_loose(plan) {
        return Err(Refused::Loose(p));
    }
    let mut points = [(0, 0); 40];
    for (point, mast) in points.iter_mut().zip(&plan.masts) {
        let m = mast.as_ref().unwrap_or(first);
        *point = (m.x + m.y, m.x - m.y);
    }
    let points = &points[..span];
    let n = plan.count;
    let mut level = runs(plan).map(|t| t.fixed).max().unwrap_or(0);
    loop {
        let mut feeders = [[UNLIMITED; 12]; 40];
        for (row, mast) in feeders[..span].iter_mut().zip(&plan.masts) {
            if let Some(m) = mast {
                for p in 0..n {
                    row[p] = reach(m.feeders[p], level);
                }
            }
        }
        let mut links = [[UNLIMITED; 12]; 12];
        for p in 0..n {
            for q in 0..n {
                links[p][q] = reach(plan.links[p.min(q)][p.max(q)], level);
            }
        }
        match fit(points, &feeders[..span], &links[..n]) {
            Some(Ok((s, t))) => {
                for (p, site) in sites.iter_mut().enumerate() {
                    *site = ((s[p] + t[p]) as i32, (s[p] - t[p]) as i32);
                }
                return Ok(level_at(plan, sites) as u32);
            }
            Some(Err(held)) => match paying_level(plan, points, &held, level) {
                Some(next) => level = next,
                None => return Err(Refused::Unkept),
            },
            None => unreachable!(),
        }
    }
}

fn frame(out: &mut Vec<u8>, bytes: &[u8]) {
    let sum = bytes.iter().fold(0u8, |s, b| s.wrapping_add(*b));
    for b in bytes.iter().chain(&[0u8.wrapping_sub(sum)]) {
        for d in [b / 16, b % 16] {
            out.push(if d < 10 { b'0' + d } else { b'A' + d - 10 });
        }
    }
    out.push(b'\n');
}

fn serve(plan: &mut Plan, line: &[u8], out: &mut Vec<u8>) {
    let digit = |c: u8| if c <= b'9' { c - b'0' } else { c - b'A' + 10 };
    let b: Vec<u8> = line.chunks(2).map(|c| digit(c[0]) * 16 + digit(c[1])).collect();
    let word = |i: usize| u32::from_be_bytes([b[i], b[i + 1], b[i + 2], b[i + 3]]);
    let terms = || Terms {
        rate: u16::from_be_bytes([b[3], b[4]]),
        fixed: word(5),
        limit: (word(9) != u32::MAX).then(|| word(9)),
    };
    match b[0] {
        1 => {
            *plan = Plan {
                count: b[1] as usize,
                masts: [None; 40],
                links: [[NEW_TERMS; 12]; 12],
            }
        }
        2 => {
            let feeders = plan.masts[b[1] as usize].map_or([NEW_TERMS; 12], |m| m.feeders);
            plan.masts[b[1] as usize] = Some(Mast {
                x: word(2) as i32,
                y: word(6) as i32,
                feeders,
            });
        }
        4 => plan.masts[b[1] as usize].as_mut().unwrap().feeders[b[2] as usize] = terms(),
        5 => plan.links[b[1].min(b[2]) as usize][b[1].max(b[2]) as usize] = terms(),
        _ => {
            let mut sites = [(0, 0); 12];
            let sites = &mut sites[..plan.count];
            match place(plan, sites) {
                Ok(level) => {
                    let mut bytes = vec![0x83];
                    bytes.extend(level.to_be_bytes());
                    frame(out, &bytes);
                    for (p, (hx, hy)) in sites.iter().enumerate() {
                        let mut bytes = vec![0x84, p as u8];
                        bytes.extend(hx.to_be_bytes());
                        bytes.extend(hy.to_be_bytes());
                        frame(out, &bytes);
                    }
                }
                Err(Refused::NoMast) => frame(out, &[0x82, 13, 0]),
                Err(Refused::Loose(p)) => frame(out, &[0x82, 14, p]),
                Err(Refused::Unkept) => frame(out, &[0x82, 15, 0]),
            }
            return;
        }
    }
    frame(out, &[0x81]);
}

fn main() {
    let mut input = Vec::new();
    std::io::stdin().read_to_end(&mut input).unwrap();
    let mut plan = Plan {
        count: 1,
        masts: [None; 40],
        links: [[NEW_TERMS; 12]; 12],
    };
    let mut out = Vec::new();
    for line in input.split(|b| *b == b'\n').filter(|l| !l.is_empty()) {
        serve(&mut plan, line, &mut out);
    }
    std::io::stdout().write_all(&out).unwrap();
}
