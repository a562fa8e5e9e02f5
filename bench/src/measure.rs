//! Processor time of a call, repeated; whether a call would take too long.

/// A call that would take longer is not run.
const LONGEST: f64 = 60.0;
/// A sixteenth that takes less is not looked at further: a cubic call would still end in time.
const QUICK: f64 = 0.005;

#[repr(C)]
struct Time {
    seconds: i64,
    nanoseconds: i64,
}

extern "C" {
    fn clock_gettime(clock: i32, time: *mut Time) -> i32;
}

/// The clock of this thread's processor time, on Linux.
const THREAD_CLOCK: i32 = 3;

fn now() -> f64 {
    let mut time = Time { seconds: 0, nanoseconds: 0 };
    // SAFETY: the clock writes one `timespec`, which `Time` is on 64-bit Linux
    let done = unsafe { clock_gettime(THREAD_CLOCK, &mut time) };
    assert!(done == 0, "the clock can be read");
    time.seconds as f64 + time.nanoseconds as f64 / 1e9
}

pub fn seconds(call: impl FnOnce()) -> f64 {
    let from = now();
    call();
    now() - from
}

/// From a thirty-second and a sixteenth of the input: what to say of a call that would take too long.
pub fn foreseen(timed: &mut dyn FnMut(usize) -> f64) -> Option<String> {
    let small = timed(16);
    if small < QUICK {
        return None;
    }
    let growth = (small / timed(32)).clamp(2.0, 8.0);
    let whole = small * growth.powi(4);
    (whole > LONGEST).then(|| format!("a sixteenth takes {small:.1} s, {growth:.1} times half of that"))
}

#[derive(Default)]
pub struct Row {
    pub port: Vec<f64>,
    pub original: Vec<f64>,
}

fn median(values: &[f64]) -> f64 {
    let mut sorted = values.to_vec();
    sorted.sort_by(f64::total_cmp);
    sorted[sorted.len() / 2]
}

impl Row {
    /// A run, up to 3 as long as they take less than 60 s, and up to 15 as long as they take less than 4 s. A side that would take too long
    /// has none.
    pub fn wanted(&self) -> bool {
        let spent: f64 = self.port.iter().chain(&self.original).sum();
        match self.port.len().max(self.original.len()) {
            0 => true,
            1 | 2 => spent < LONGEST,
            runs => runs < 15 && spent < 4.0,
        }
    }

    pub fn cells(&self, port: &Option<String>, original: &Option<String>) -> String {
        let side = |foreseen: &Option<String>, runs: &[f64]| match foreseen {
            Some(said) => format!("over 60 s: {said}"),
            None => format!("{:.2}", median(runs) * 1e3),
        };
        let times = format!("{} | {}", side(port, &self.port), side(original, &self.original));
        let ratios: Vec<f64> = self.port.iter().zip(&self.original).map(|(p, o)| p / o).collect();
        if ratios.is_empty() {
            return format!("{times} | | | |");
        }
        let low = ratios.iter().copied().fold(f64::INFINITY, f64::min);
        let high = ratios.iter().copied().fold(0.0, f64::max);
        let shown = |r: f64| if r < 0.095 { format!("{r:.4}") } else { format!("{r:.2}") };
        let ratio = shown(median(&self.port) / median(&self.original));
        format!("{times} | {ratio} | {} to {} | {} |", shown(low), shown(high), ratios.len())
    }
}

pub fn load_average() -> String {
    let text = std::fs::read_to_string("/proc/loadavg").unwrap_or_default();
    text.split(' ').take(3).collect::<Vec<_>>().join(" ")
}
