// The fit in plain Rust, to compare its cost with. It takes the number of fits as its argument. Compile with `rustc -O`, or with
// `rustc -O --cfg packed` for a reach as one number.
#[cfg(not(packed))]
mod reach {
    #[derive(Clone, Copy, PartialEq)]
    pub enum Steps {
        Limited(u64),
        Unlimited,
    }
    pub const UNLIMITED: Steps = Steps::Unlimited;
    pub fn limited(steps: u64) -> Steps {
        Steps::Limited(steps)
    }
    impl Steps {
        pub fn join(self, o: Steps) -> Steps {
            match (self, o) {
                (Steps::Limited(a), Steps::Limited(b)) => {
                    a.checked_add(b).map_or(Steps::Unlimited, Steps::Limited)
                }
                _ => Steps::Unlimited,
            }
        }
        pub fn at_least_as_good(self, o: Steps) -> bool {
            match (self, o) {
                (Steps::Limited(a), Steps::Limited(b)) => a <= b,
                (Steps::Unlimited, Steps::Limited(_)) => false,
                (_, Steps::Unlimited) => true,
            }
        }
        pub fn steps(self) -> u64 {
            match self {
                Steps::Limited(x) => x,
                Steps::Unlimited => 0,
            }
        }
        pub fn limit(self) -> Option<u64> {
            match self {
                Steps::Limited(x) => Some(x),
                Steps::Unlimited => None,
            }
        }
    }
}
// A reach as one number, whose greatest value is unlimited.
#[cfg(packed)]
mod reach {
    #[derive(Clone, Copy, PartialEq)]
    pub struct Steps(u64);
    pub const UNLIMITED: Steps = Steps(u64::MAX);
    pub fn limited(steps: u64) -> Steps {
        Steps(steps)
    }
    impl Steps {
        pub fn join(self, o: Steps) -> Steps {
            Steps(self.0.saturating_add(o.0))
        }
        pub fn at_least_as_good(self, o: Steps) -> bool {
            self.0 <= o.0
        }
        pub fn steps(self) -> u64 {
            self.0
        }
        pub fn limit(self) -> Option<u64> {
            Some(self.0)
        }
    }
}
pub use self::reach::{limited, Steps, UNLIMITED};
pub struct Held {
    pub from: usize,
    pub to: usize,
    pub total: u64,
    pub count: usize,
    pub pillars: [u8; 12],
}
fn nearest(done: &[bool], best: &[Steps]) -> Option<usize> {
    let mut found: Option<usize> = None;
    for (k, b) in best.iter().enumerate() {
        if done[k] {
            continue;
        }
        match found {
            Some(u) if best[u].at_least_as_good(*b) => {}
            _ => found = Some(k),
        }
    }
    found
}
fn best_chains(first: &[Steps], runs: &[[Steps; 12]], best: &mut [Steps], before: &mut [u8]) {
    for v in 0..first.len() {
        best[v] = first[v];
        before[v] = v as u8;
    }
    let mut done = [false; 12];
    let done = &mut done[..first.len()];
    while let Some(u) = nearest(done, best) {
        done[u] = true;
        let from = best[u];
        for ((b, p), run) in best.iter_mut().zip(before.iter_mut()).zip(&runs[u]) {
            let through = from.join(*run);
            if !b.at_least_as_good(through) {
                *b = through;
                *p = u as u8;
            }
        }
    }
}
fn highest(
    places: &[u64],
    width: u64,
    feeders: &[[Steps; 12]],
    links: &[[Steps; 12]],
) -> Result<[u64; 12], Held> {
    let n = links.len();
    let mut first = [UNLIMITED; 12];
    let mut best = [UNLIMITED; 12];
    let mut before = [0u8; 12];
    let (first, best, before) = (&mut first[..n], &mut best[..n], &mut before[..n]);
    for j in 0..n {
        let mut b = limited(width);
        for (place, row) in places.iter().zip(feeders) {
            let other = limited(*place).join(row[j]);
            if !b.at_least_as_good(other) {
                b = other;
            }
        }
        first[j] = b;
    }
    best_chains(first, links, best, before);
    for j in 0..n {
        let x = best[j].steps();
        for (i, (place, row)) in places.iter().zip(feeders).enumerate() {
            if let Some(r) = row[j].limit() {
                if place.saturating_sub(x) > r {
                    let mut chain = vec![j as u8];
                    let mut p = j;
                    while before[p] as usize != p {
                        p = before[p] as usize;
                        chain.push(p as u8);
                    }
                    chain.reverse();
                    let from = places
                        .iter()
                        .zip(feeders)
                        .position(|(q, row)| limited(*q).join(row[p]) == first[p])
                        .unwrap();
                    let mut pillars = [0; 12];
                    pillars[..chain.len()].copy_from_slice(&chain);
                    return Err(Held {
                        from,
                        to: i,
                        total: x + r - places[from],
                        count: chain.len(),
                        pillars,
                    });
                }
            }
        }
    }
    let mut all = [0; 12];
    for (a, b) in all.iter_mut().zip(best.iter()) {
        *a = b.steps();
    }
    Ok(all)
}
fn on_axis(
    points: &[(i32, i32)],
    feeders: &[[Steps; 12]],
    links: &[[Steps; 12]],
    second: bool,
) -> Result<[i64; 12], Held> {
    let reading = |p: &(i32, i32)| if second { p.1 as i64 } else { p.0 as i64 };
    let low = points.iter().map(reading).min().unwrap();
    let mut places = [0u64; 52];
    let places = &mut places[..points.len()];
    for (x, p) in places.iter_mut().zip(points) {
        *x = (reading(p) - low) as u64;
    }
    let width = *places.iter().max().unwrap();
    let found = highest(places, width, feeders, links)?;
    let mut all = [0; 12];
    for j in 0..links.len() {
        all[j] = low + found[j] as i64;
    }
    Ok(all)
}
fn sound(points: &[(i32, i32)], feeders: &[[Steps; 12]], links: &[[Steps; 12]]) -> bool {
    let m = points.len();
    let n = links.len();
    (1..=52).contains(&m)
        && feeders.len() == m
        && (1..=12).contains(&n)
        && points
            .iter()
            .all(|p| p.0.unsigned_abs() <= 100_000 && p.1.unsigned_abs() <= 100_000)
        && (0..n).all(|j| (0..n).all(|k| links[j][k] == links[k][j]))
}
#[inline(never)]
pub fn fit(
    points: &[(i32, i32)],
    feeders: &[[Steps; 12]],
    links: &[[Steps; 12]],
) -> Option<Result<([i64; 12], [i64; 12]), Held>> {
    if !sound(points, feeders, links) {
        return None;
    }
    let s = match on_axis(points, feeders, links, false) {
        Ok(s) => s,
        Err(h) => return Some(Err(h)),
    };
    match on_axis(points, feeders, links, true) {
        Ok(t) => Some(Ok((s, t))),
        Err(h) => Some(Err(h)),
    }
}
fn next(x: u64) -> u64 {
    x.wrapping_mul(6364136223846793005)
        .wrapping_add(1442695040888963407)
}
fn main() {
    let count: u64 = std::env::args().nth(1).unwrap().parse().unwrap();
    let mut x: u64 = 12345;
    let mut points = [(0i32, 0i32); 40];
    let mut feeders = [[UNLIMITED; 12]; 40];
    let mut links = [[UNLIMITED; 12]; 12];
    for i in 0..40 {
        x = next(x);
        let s = ((x >> 33) % 200_000) as i32 - 100_000;
        x = next(x);
        let t = ((x >> 33) % 200_000) as i32 - 100_000;
        points[i] = (s, t);
        for j in 0..12 {
            x = next(x);
            feeders[i][j] = if (x >> 40) % 8 == 0 {
                UNLIMITED
            } else {
                limited(200_000 + (x >> 33) % 100_000)
            };
        }
    }
    for j in 0..12 {
        for k in 0..j {
            x = next(x);
            let r = limited((x >> 33) % 100_000);
            links[j][k] = r;
            links[k][j] = r;
        }
    }
    let (mut sum, mut short) = (0i64, 0u64);
    for round in 0..count {
        feeders[0][0] = limited(300_000 + round);
        match fit(&points, &feeders, &links) {
            Some(Ok((s, t))) => {
                for j in 0..12 {
                    sum = sum.wrapping_add(s[j]).wrapping_add(t[j]);
                }
            }
            Some(Err(h)) => {
                short += 1 + h.total + h.count as u64 + h.pillars[0] as u64 + (h.from + h.to) as u64
            }
            None => {}
        }
    }
    println!("{sum} {short}");
}
