//! Best of several runs, ours and the source's in turn.
use std::time::Instant;

mod raw {
    unsafe extern "C" {
        pub fn clock_gettime(clock: i32, time: *mut [i64; 2]) -> i32;
    }
    pub const THREAD: i32 = 3;
}

/// Nanoseconds that this thread has run: what other work takes from the machine does not count.
fn now() -> f64 {
    let mut time = [0; 2];
    assert_eq!(unsafe { raw::clock_gettime(raw::THREAD, &mut time) }, 0);
    time[0] as f64 * 1e9 + time[1] as f64
}

/// Whether a row is asked for: all are, unless the program is given a word that their names must hold.
pub fn asked(what: &str) -> bool {
    std::env::args().nth(1).is_none_or(|word| what.contains(&word))
}

/// A row of the table, by the unit; whether it was asked for. What the source's run uses up is made outside the time.
pub fn row<T>(what: &str, units: usize, ours: impl FnMut(), setup: impl FnMut() -> T, source: impl FnMut(T)) -> bool {
    timed(what, units, 9, 1000, ours, setup, source)
}

/// The same in less time, for rows of which there are many.
pub fn short_row(what: &str, units: usize, ours: impl FnMut(), mut source: impl FnMut()) -> bool {
    timed(what, units, 5, 250, ours, || (), |()| source())
}

/// Whether another run is due: so many at least, and more while there is time.
fn due(runs: usize, least: usize, begun: Instant, millis: u128) -> bool {
    runs < least || (runs < 200 && begun.elapsed().as_millis() < millis)
}

fn timed<T>(
    what: &str,
    units: usize,
    least: usize,
    millis: u128,
    mut ours: impl FnMut(),
    mut setup: impl FnMut() -> T,
    mut source: impl FnMut(T),
) -> bool {
    if !asked(what) {
        return false;
    }
    let (mut a, mut b) = (f64::MAX, f64::MAX);
    let begun = Instant::now();
    let mut runs = 0;
    while due(runs, least, begun, millis) {
        let t = now();
        ours();
        a = a.min(now() - t);
        let input = setup();
        let t = now();
        source(input);
        b = b.min(now() - t);
        runs += 1;
    }
    printed(what, units, a, b);
    true
}

pub fn printed(what: &str, units: usize, ours: f64, source: f64) {
    let n = units as f64;
    println!("| {what} | {:.2} | {:.2} | {:.2} |", ours / n, source / n, ours / source);
}

/// The best times of several things done in turn, in nanoseconds.
pub fn best<const N: usize>(mut things: [&mut dyn FnMut(); N]) -> [f64; N] {
    let (mut best, begun, mut runs) = ([f64::MAX; N], Instant::now(), 0);
    while due(runs, 9, begun, 1000) {
        for (best, thing) in best.iter_mut().zip(&mut things) {
            let t = now();
            thing();
            *best = best.min(now() - t);
        }
        runs += 1;
    }
    best
}

/// Two rows: ours beside the source's, then beside the source's and a part of ours that the source has not, by its name. The source works in
/// place: what it works on is made and given up outside the time.
pub fn rows_with<T>(
    what: [&str; 2],
    units: usize,
    mut ours: impl FnMut(),
    (part_name, mut part): (&str, impl FnMut()),
    mut setup: impl FnMut() -> T,
    mut source: impl FnMut(&mut T),
) {
    let [name, of] = what;
    if !asked(&format!("{name}, {of}")) {
        return;
    }
    let (mut a, mut b, mut c) = (f64::MAX, f64::MAX, f64::MAX);
    let begun = Instant::now();
    let mut runs = 0;
    while due(runs, 9, begun, 1000) {
        let t = now();
        ours();
        a = a.min(now() - t);
        let mut input = setup();
        let t = now();
        source(&mut input);
        b = b.min(now() - t);
        let t = now();
        part();
        c = c.min(now() - t);
        runs += 1;
    }
    printed(&format!("{name}, {of}"), units, a, b);
    printed(&format!("{name} beside the source's and {part_name} ({:.2}), {of}", c / units as f64), units, a, b + c);
}
