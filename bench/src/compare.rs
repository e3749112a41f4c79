//! Both sides over the same days, byte for byte.

use std::iter;

use bench::days::{self, Day};
use bench::plain;

use crate::northbound::{self, Refused};

/// What decides all days.
const SEED: u64 = 20_190_215;

/// How many days there are by chance.
const DAYS: u64 = 6000;

/// Over how many of them it is also asked what else the library writes.
const ASKED: u64 = 300;

/// How many differences are shown in full.
const MOST_SHOWN: u64 = 5;

/// What was compared so far, and what the answers had in them.
struct Comparison {
    compared: u64,
    differ: u64,
    answers: [u64; 31],
    theirs: Vec<u8>,
    ours: Vec<u8>,
}

/// Compares both sides over many days, and answers whether they never differ.
pub fn run() -> bool {
    let mut comparison = Comparison {
        compared: 0,
        differ: 0,
        answers: [0; 31],
        theirs: Vec::new(),
        ours: Vec::new(),
    };
    println!("days of the seed {SEED}");
    let lawful = limits_hold() && writes_alone();
    for (number, day) in days::short_days().enumerate() {
        comparison.look_at(&day, format_args!("short day {number}"));
    }
    for orders in [0, 1, 7, 512, 50_000] {
        comparison.look_at(
            &days::crowded_day(orders),
            format_args!("crowded day of {orders} orders"),
        );
    }
    comparison.look_at(&days::wide_day(), format_args!("wide day"));
    for number in 0..DAYS {
        comparison.look_at(&days::numbered(SEED, number), format_args!("day {number}"));
    }
    comparison.show_answers();
    println!(
        "{} compared, {} differ",
        comparison.compared, comparison.differ
    );
    lawful && comparison.differ == 0
}

impl Comparison {
    fn look_at(&mut self, day: &Day, name: std::fmt::Arguments) {
        let Day {
            input,
            rows,
            orders,
        } = day;
        let refused = northbound::replay(input, *rows, *orders, &mut self.theirs).err();
        plain::replay_into(input, *rows, *orders, &mut self.ours);
        self.compared += 1;
        self.count_answers();
        if refused.is_none() && self.theirs == self.ours {
            return;
        }
        self.differ += 1;
        if self.differ > MOST_SHOWN {
            return;
        }
        println!("{name} of the seed {SEED}, {rows} rows, {orders} orders, differs");
        match refused {
            Some(refused) => println!("  northbound answers nothing: {refused:?}"),
            None => show_difference(&self.theirs, &self.ours),
        }
    }

    /// Counts the refusals and the causes of faults in an answer, which are the first number of each line.
    fn count_answers(&mut self) {
        for line in self.ours.split(|&byte| byte == b'\n') {
            let number = line
                .get(1..17)
                .map_or("", |field| str::from_utf8(field).unwrap_or(""));
            if let Ok(number) = number.trim_start().parse::<usize>() {
                self.answers[number] += 1;
            }
        }
    }

    fn show_answers(&self) {
        let seen = self
            .answers
            .iter()
            .enumerate()
            .filter(|(_, times)| **times > 0);
        let seen: Vec<String> = seen
            .map(|(number, times)| format!("{number} × {times}"))
            .collect();
        println!("answers seen: {}", seen.join(", "));
    }
}

/// Prints the first line in which two answers differ.
fn show_difference(theirs: &[u8], ours: &[u8]) {
    let lines = |answer: &[u8]| -> Vec<String> {
        let lines = answer.split_inclusive(|&byte| byte == b'\n');
        lines
            .map(|line| format!("{:?}", String::from_utf8_lossy(line)))
            .collect()
    };
    let ended = || iter::repeat(String::from("nothing more"));
    let theirs = lines(theirs).into_iter().chain(ended());
    let ours = lines(ours).into_iter().chain(ended());
    let first = (1..)
        .zip(theirs.zip(ours))
        .find(|(_, (theirs, ours))| theirs != ours);
    if let Some((line, (theirs, ours))) = first {
        println!("  line {line}, northbound: {theirs}");
        println!("  line {line}, plain:      {ours}");
    }
}

/// Whether the library refuses more rows and more orders than it can have, and takes as many as that.
fn limits_hold() -> bool {
    let (rows, orders) = (16_384, 50_000);
    let mut text = Vec::new();
    let mut answered = |rows, orders| northbound::replay(b"", rows, orders, &mut text);
    let holds = northbound::most_rows() == rows as u64
        && northbound::most_orders() == orders as u64
        && answered(rows, orders) == Ok(())
        && answered(rows + 1, orders) == Err(Refused::TooLarge)
        && answered(rows, orders + 1) == Err(Refused::TooLarge)
        && answered(usize::MAX, usize::MAX) == Err(Refused::TooLarge);
    if !holds {
        println!("northbound does not keep its limits of {rows} rows and {orders} orders");
    }
    holds
}

/// Whether the library leaves a text as it was but for the answer.
fn writes_alone() -> bool {
    let offender = (0..ASKED).find(|&number| {
        let Day {
            input,
            rows,
            orders,
        } = days::numbered(SEED, number);
        let answer = plain::replay(&input, rows, orders);
        !northbound::writes_alone(&input, rows, orders, &answer)
    });
    if let Some(number) = offender {
        println!(
            "northbound writes something else than the answer, or another length, on day {number}"
        );
    }
    offender.is_none()
}
