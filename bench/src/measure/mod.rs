//! How long both sides take for the same inputs, by the rows of the tables.

mod market;

use std::hint::black_box;
use std::time::{Duration, Instant};
use std::{fs, thread};

use bench::plain;

use crate::northbound::{self, Refused};
use market::{Market, ORDERS};

/// The rows of each table, all of them filled.
const ROWS: [usize; 3] = [256, 4096, 16_384];

/// How often each side answers an input: so often at the least, and then until it was often enough or took long enough.
const LEAST_REPEATS: usize = 7;
const MOST_REPEATS: usize = 40;
const LONG_ENOUGH: Duration = Duration::from_secs(3);

/// The bytes of an event's answer.
const ANSWER: usize = 50;

/// What is measured.
#[derive(Clone, Copy, PartialEq, Eq)]
pub enum Kind {
    Load,
    Sell,
    Buy,
    Trade,
    Cancel,
}

impl Kind {
    const ALL: [Self; 5] = [Self::Load, Self::Sell, Self::Buy, Self::Trade, Self::Cancel];

    fn name(self) -> &'static str {
        match self {
            Self::Load => "load, by line",
            Self::Sell => "sell by account",
            Self::Buy => "buy",
            Self::Trade => "trade",
            Self::Cancel => "cancel",
        }
    }
}

/// Nanoseconds for a line of a kind on both sides.
struct Figure {
    kind: Kind,
    rows: usize,
    northbound: f64,
    plain: f64,
}

/// Measures both sides and prints a table. Answers whether they agree and every measured event is accepted.
pub fn run() -> bool {
    let mut bench = Bench::new();
    let mut figures = Vec::new();
    for rows in ROWS {
        let mut market = Market::new(rows);
        for kind in Kind::ALL {
            let sample = Sample::new(kind, &mut market, rows);
            if let Err(trouble) = bench.check(&sample) {
                println!("{} over {rows} rows: {trouble}", kind.name());
                return false;
            }
            figures.push(bench.figure(kind, &sample));
        }
    }
    show(&figures);
    true
}

/// An input whose last lines are measured.
struct Sample {
    /// What comes before the measured lines, where they are not the whole input.
    before: Option<Vec<u8>>,
    whole: Vec<u8>,
    measured: usize,
    events: usize,
    rows: usize,
    orders: usize,
}

impl Sample {
    /// The sample of a kind. A day part is loaded over a book without rows, since no line of it asks for one.
    fn new(kind: Kind, market: &mut Market, rows: usize) -> Self {
        let day_part = market.day_part();
        if kind == Kind::Load {
            return Self {
                before: None,
                whole: day_part,
                measured: market.lines(),
                events: 0,
                rows,
                orders: 0,
            };
        }
        let (preparation, events) = market.events(kind);
        let prepared = if preparation.is_empty() { 0 } else { ORDERS };
        let before = [day_part, preparation].concat();
        Self {
            whole: [before.as_slice(), &events].concat(),
            before: Some(before),
            measured: ORDERS,
            events: prepared + ORDERS,
            rows,
            orders: ORDERS,
        }
    }
}

/// The least times of both sides for an input.
#[derive(Clone, Copy)]
struct Times {
    northbound: Duration,
    plain: Duration,
}

/// Both sides' answers, in texts that are long enough for all that is measured.
struct Bench {
    theirs: Vec<u8>,
    ours: Vec<u8>,
}

impl Bench {
    fn new() -> Self {
        let longest = (2 * ORDERS + 1) * ANSWER;
        Self {
            theirs: Vec::with_capacity(longest),
            ours: Vec::with_capacity(longest),
        }
    }

    /// Whether both sides agree on a sample, and accept all that it asks.
    fn check(&mut self, sample: &Sample) -> Result<(), String> {
        let Sample { rows, orders, .. } = *sample;
        northbound::replay(&sample.whole, rows, orders, &mut self.theirs)
            .map_err(|refused: Refused| format!("northbound answers nothing: {refused:?}"))?;
        plain::replay_into(&sample.whole, rows, orders, &mut self.ours);
        let accepted = |answer: &[u8]| answer[1..17] == *b"               0";
        if self.theirs != self.ours {
            Err("both sides differ".into())
        } else if self.ours.len() != ANSWER * sample.events
            || !self.ours.chunks(ANSWER).all(accepted)
        {
            Err("an event is not accepted".into())
        } else {
            Ok(())
        }
    }

    /// What a measured line takes: what the whole input takes, less what comes before, over the measured lines.
    fn figure(&mut self, kind: Kind, sample: &Sample) -> Figure {
        let [before, whole] = self.least_times(sample);
        let each = |whole: Duration, before: Duration| {
            let measured = whole.as_secs_f64() - before.as_secs_f64();
            measured * 1e9 / sample.measured as f64
        };
        Figure {
            kind,
            rows: sample.rows,
            northbound: each(whole.northbound, before.northbound),
            plain: each(whole.plain, before.plain),
        }
    }

    /// The least times for what comes before the measured lines, 0 where nothing does, and for the whole input. The
    /// sides take turns, and the first turn warms them up.
    fn least_times(&mut self, sample: &Sample) -> [Times; 2] {
        let Sample { rows, orders, .. } = *sample;
        let inputs = [sample.before.as_deref(), Some(sample.whole.as_slice())];
        let mut least = inputs.map(|input| match input {
            Some(_) => Times {
                northbound: Duration::MAX,
                plain: Duration::MAX,
            },
            None => Times {
                northbound: Duration::ZERO,
                plain: Duration::ZERO,
            },
        });
        let begun = Instant::now();
        for repeat in 0..=MOST_REPEATS {
            if repeat > LEAST_REPEATS && begun.elapsed() > LONG_ENOUGH {
                break;
            }
            for (input, least) in inputs.iter().zip(&mut least) {
                let Some(input) = input else { continue };
                let northbound = self.northbound(input, rows, orders);
                let plain = self.plain(input, rows, orders);
                if repeat > 0 {
                    least.northbound = least.northbound.min(northbound);
                    least.plain = least.plain.min(plain);
                }
            }
        }
        least
    }

    fn northbound(&mut self, input: &[u8], rows: usize, orders: usize) -> Duration {
        let begun = Instant::now();
        let answered = northbound::replay(black_box(input), rows, orders, &mut self.theirs);
        black_box(&self.theirs);
        let took = begun.elapsed();
        assert_eq!(answered, Ok(()), "northbound answered this input before");
        took
    }

    fn plain(&mut self, input: &[u8], rows: usize, orders: usize) -> Duration {
        let begun = Instant::now();
        plain::replay_into(black_box(input), rows, orders, &mut self.ours);
        black_box(&self.ours);
        begun.elapsed()
    }
}

/// Prints all figures, how those of orders grow with the rows, and the machine.
fn show(figures: &[Figure]) {
    println!();
    println!("kind               rows  northbound ns  plain ns  ratio");
    for figure in figures {
        let (kind, rows) = (figure.kind.name(), figure.rows);
        let (northbound, plain) = (figure.northbound, figure.plain);
        let ratio = northbound / plain;
        println!("{kind:<16} {rows:>6} {northbound:>14.1} {plain:>9.1} {ratio:>6.2}");
    }
    println!();
    let [least, .., most] = ROWS;
    println!("growth from {least} to {most} rows");
    for kind in Kind::ALL.into_iter().filter(|kind| *kind != Kind::Load) {
        let of = |rows| {
            figures
                .iter()
                .find(|figure| figure.kind == kind && figure.rows == rows)
        };
        if let (Some(small), Some(large)) = (of(least), of(most)) {
            let northbound = large.northbound / small.northbound;
            let plain = large.plain / small.plain;
            println!("{:<23} {northbound:>14.2} {plain:>9.2}", kind.name());
        }
    }
    println!();
    println!("{}", machine());
}

/// The processor, how many cores of it there are, and the compiler of the plain side.
fn machine() -> String {
    let processors = fs::read_to_string("/proc/cpuinfo").unwrap_or_default();
    let model = processors
        .lines()
        .find(|line| line.starts_with("model name"))
        .and_then(|line| line.split_once(':'))
        .map_or("unknown processor", |(_, model)| model.trim());
    let cores = thread::available_parallelism().map_or(1, |cores| cores.get());
    format!("{model}, {cores} cores, {}", env!("COMPILER"))
}
