//! Whole inputs with the answers that the rules foretell.

use super::replay;

/// Sets closed-up lines in their columns.
fn in_columns(closed_up: &str) -> String {
    closed_up
        .lines()
        .map(|line| {
            let mut words = line.split(' ');
            let letter = words.next().unwrap_or_default();
            let fields: String = words.map(|word| format!("{word:>16}")).collect();
            format!("{letter}{fields}\n")
        })
        .collect()
}

/// What an input prints over the program's tables and book.
fn printed(input: &str) -> String {
    String::from_utf8(replay(input.as_bytes(), 256, 512)).unwrap()
}

/// Checks what closed-up lines print.
fn prints(closed_up: &str, expected: &str) {
    assert_eq!(
        printed(&in_columns(closed_up)),
        in_columns(expected),
        "of\n{closed_up}"
    );
}

const DAY_PART: [&str; 7] = [
    "D 1 20190215 100000",
    "S 600000 1 1000 10",
    "S 600010 2 905 5",
    "P 101 600000 500",
    "A 80000001 600000 300",
    "G 80000001 102",
    "E 2 1 1 1",
];

/// The day part with one of its lines, numbered from 1, in another form.
fn with_line(number: usize, line: &str) -> String {
    let mut lines = DAY_PART;
    lines[number - 1] = line;
    in_columns(&lines.join("\n"))
}

/// The day part with a line before the one of a number.
fn with_line_before(number: usize, line: &str) -> String {
    let mut lines = DAY_PART.to_vec();
    lines.insert(number - 1, line);
    in_columns(&lines.join("\n"))
}

fn faulty(input: &str, expected: &str) {
    assert_eq!(printed(input), in_columns(expected), "of\n{input}");
}

#[test]
fn a_day_part_without_a_fault_prints_nothing() {
    let day_part = in_columns(&DAY_PART.join("\n"));
    assert_eq!(day_part.len(), 382);
    assert_eq!(printed(&day_part), "");
    prints("D 1 20190215 100000\nE 0 0 0 0", "");
}

#[test]
fn a_day_part_that_ends_early_is_a_fault() {
    let whole = in_columns(&DAY_PART.join("\n"));
    faulty("", "! 24 1 0 1 1");
    faulty(&in_columns(&DAY_PART[..3].join("\n")), "! 24 1 0 4 1");
    let letter_of_line_4 = in_columns(&DAY_PART[..3].join("\n")) + "P";
    faulty(&letter_of_line_4, "! 24 1 80 4 1");
    faulty(whole.trim_end_matches('\n'), "! 24 1 69 7 1");
}

#[test]
fn letters_and_lengths_of_the_day_part_are_judged() {
    faulty(&with_line(2, "s 600000 1 1000 10"), "! 23 1 115 2 1");
    faulty(&with_line_before(2, ""), "! 23 1 10 2 1");
    faulty(&with_line_before(4, "H"), "! 23 1 72 4 1");
    faulty(&with_line(2, "S 600000 1 1000"), "! 24 1 83 2 1");
}

#[test]
fn fields_of_the_day_part_are_judged() {
    faulty(&with_line(1, "D 07 20190215 100000"), "! 25 16 68 1 1");
    let left =
        with_line(1, "D 7 20190215 100000").replacen("               7", "7               ", 1);
    faulty(&left, "! 25 3 68 1 1");
    let blank = with_line(1, "D 1  100000");
    faulty(&blank, "! 25 33 68 1 1");
    faulty(&with_line(1, "D 3 20190215 100000"), "! 26 2 68 1 1");
    faulty(&with_line(1, "D 3 x 100000"), "! 26 2 68 1 1");
    faulty(&with_line(2, "S 600000 1 1000 7"), "! 26 50 83 2 1");
}

#[test]
fn the_order_of_the_day_part_is_judged() {
    faulty(&with_line(3, "S 600000 2 905 5"), "! 27 1 83 3 1");
    faulty(&with_line_before(2, DAY_PART[0]), "! 27 1 68 2 1");
    faulty(&in_columns(DAY_PART[6]), "! 27 1 69 1 1");
    let mut swapped = DAY_PART;
    swapped.swap(4, 5);
    faulty(&in_columns(&swapped.join("\n")), "! 27 1 65 6 1");
    swapped[5] = "A 80000001 600000 0";
    faulty(&in_columns(&swapped.join("\n")), "! 26 34 65 6 1");
}

#[test]
fn the_counts_of_the_end_line_are_judged() {
    faulty(&with_line(7, "E 2 1 2 0"), "! 29 34 69 7 1");
    faulty(&with_line(7, "E 2 1 2 16385"), "! 26 50 69 7 1");
}

#[test]
fn faults_of_the_events_are_judged() {
    let after = |line: &str| in_columns(&DAY_PART.join("\n")) + &in_columns(line);
    faulty(&after(DAY_PART[6]), "! 23 1 69 8 2");
    faulty(&after("X 101 0 600000 1000 100"), "! 23 1 88 8 2");
    faulty(&after("B 101 0 600000 1000"), "! 24 1 66 8 2");
    faulty(&after("B 101 0 600000 1000 0100"), "! 25 78 66 8 2");
    faulty(&after("U 2"), "! 26 2 85 8 2");
}

#[test]
fn groups_have_their_most_lines() {
    let designations: String = (1..=21)
        .map(|participant| format!("\nG 80000001 {participant}"))
        .collect();
    prints(
        &format!("D 1 20190215 100000{designations}"),
        "! 30 1 71 22 1",
    );
    let securities: String = (1..=257)
        .map(|code| format!("\nS {code} 1 1000 10"))
        .collect();
    prints(
        &format!("D 1 20190215 100000{securities}"),
        "! 28 1 83 258 1",
    );
}

const EMPTY: &str = "D 1 20190215 100000\nE 0 0 0 0";

#[test]
fn a_day_is_stepped_to_its_end() {
    prints(
        &format!("{EMPTY}\nH\nH\nH\nH\nH"),
        "H 0 0 100000\nH 0 0 100000\nH 0 0 100000\nH 0 0 100000\nH 16 0 100000",
    );
}

#[test]
fn nothing_follows_the_close() {
    let events = "H\nH\nH\nZ\nH\nZ";
    let answers =
        "H 0 0 100000\nH 0 0 100000\nH 0 0 100000\nZ 21 0 100000\nH 0 0 100000\nZ 0 0 100000";
    prints(&format!("{EMPTY}\n{events}"), answers);
    for (line, fault) in [
        ("B 101 0 600000 1000 100", "! 27 1 66 9 2"),
        ("X", "! 23 1 88 9 2"),
        ("Z 1", "! 24 1 90 9 2"),
        ("U 2", "! 26 2 85 9 2"),
        ("Z", "! 27 1 90 9 2"),
    ] {
        prints(
            &format!("{EMPTY}\n{events}\n{line}"),
            &format!("{answers}\n{fault}"),
        );
    }
}

#[test]
fn a_buy_that_is_voided_can_shut_buying() {
    let day_part = "D 1 20190215 100000\nS 600000 1 1000 10\nE 1 0 0 0\n";
    let events = "U 0\nB 101 0 600000 1000 100\nU 1\nB 101 0 600000 1000 100";
    prints(
        &format!("{day_part}{events}"),
        "U 0 0 100000\nB 22 0 100000\nU 0 0 100000\nB 0 2 0",
    );
    prints(
        &format!("{day_part}H\nH\n{events}"),
        "H 0 0 100000\nH 0 0 100000\nU 0 0 100000\nB 22 0 100000\nU 0 0 100000\nB 12 0 100000",
    );
}

#[test]
fn a_step_shuts_buying() {
    prints(
        "D 1 20190215 100000\nS 600000 1 1000 10\nE 1 0 0 0\n\
         B 101 0 600000 1000 100\nH\nH\nT 1 50 900\nB 101 0 600000 1000 100",
        "B 0 1 0\nH 0 0 0\nH 0 0 0\nT 0 1 5000\nB 12 0 5000",
    );
}

#[test]
fn a_book_of_two_rows_takes_two_orders() {
    let input = in_columns(
        "D 1 20190215 100000\nS 600000 1 1000 10\nP 101 600000 500\nE 1 1 0 0\n\
         L 101 0 600000 1000 1\nL 101 0 600000 1000 1\nL 101 0 600000 1000 1\nL 101 0 600001 1000 1",
    );
    let answer = String::from_utf8(replay(input.as_bytes(), 256, 2)).unwrap();
    assert_eq!(
        answer,
        in_columns("L 0 1 100000\nL 0 2 100000\nL 2 0 100000\nL 2 0 100000")
    );
}

#[test]
fn a_fault_among_the_events_ends_the_run() {
    prints(
        "D 2 20190218 100000\nS 1 1 1005 10\nE 1 0 0 0\nH\nF 1 28 100\nF 1 027 100\nH",
        "H 0 0 100000\nF 0 0 100000\n! 25 31 70 6 2",
    );
}

#[test]
fn a_day_of_orders() {
    prints(
        "D 1 20190215 100000\nS 600000 1 1000 10\nP 101 600000 500\nA 80000001 600000 300\n\
         G 80000001 102\nE 1 1 1 1\n\
         B 101 0 600000 1000 100\nB 102 0 600000 900 100\nT 1 50 900\nB 102 0 600000 900 100\n\
         L 102 80000001 600000 1000 300\nT 3 300 1000\nL 102 80000001 600000 1000 1\n\
         L 101 0 600000 1000 501\nL 101 0 600000 1000 500\nC 4 102\nC 4 101\nL 101 0 600000 1000 1\n\
         C 4 101\nN 4\nH\nC 4 101\nH\nC 4 101\nT 4 200 1010\nY 4\nL 101 0 600000 1000 301\n\
         L 101 0 600000 1000 300\nU 0\nB 101 0 600000 1000 400\nU 1\nB 101 0 600000 1000 500\nR 2\n\
         B 101 0 600000 1000 100\nT 7 501 1000\nT 7 500 1000\nZ\nH\nH\nL 101 0 600000 1000 100\nR 1\n\
         Z\nR 5\nZ",
        "B 0 1 0\nB 12 0 0\nT 0 1 5000\nB 0 2 -85000\nL 0 3 -85000\nT 0 3 215000\nL 9 0 215000\n\
         L 9 0 215000\nL 0 4 215000\nC 13 0 215000\nC 0 4 215000\nL 9 0 215000\nC 14 0 215000\n\
         N 0 4 215000\nH 0 0 215000\nC 17 0 215000\nH 0 0 215000\nC 0 4 215000\nT 0 4 417000\n\
         Y 0 4 417000\nL 9 0 417000\nL 0 5 417000\nU 0 0 417000\nB 22 0 417000\nU 0 0 417000\n\
         B 0 7 -83000\nR 0 2 7000\nB 12 0 7000\nT 15 0 7000\nT 0 7 7000\nZ 21 0 7000\nH 0 0 7000\n\
         H 0 0 7000\nL 1 0 7000\nR 0 1 57000\nZ 21 0 57000\nR 0 5 57000\nZ 0 0 57000",
    );
}

#[test]
fn a_day_of_refusals() {
    prints(
        "D 1 20190215 100000\nS 600000 1 1000 10\nS 600010 2 905 5\nS 600020 3 500 10\n\
         P 101 600000 500\nA 80000001 600000 300\nG 80000001 102\nE 3 1 1 1\n\
         B 101 0 600001 1101 150\nB 101 0 600000 1101 150\nB 0 0 600000 1100 150\n\
         B 0 80000001 600010 950 100\nB 101 80000001 600010 950 100\nB 101 0 600010 950 100\n\
         B 101 0 600020 550 100\nL 102 80000002 600000 900 301\nL 101 80000001 600010 900 301\n\
         L 102 80000001 600010 900 301\nL 102 80000001 600000 900 301\nL 102 80000001 600000 900 300\n\
         B 101 0 600000 1000 100\nB 101 0 600000 1000 100\nB 101 0 600010 950 100\nU 0\n\
         L 101 0 600000 1000 500\nU 1\nT 0 101 1001\nT 4 101 1001\nT 2 0 1000\nT 2 101 1000\n\
         T 2 100 1001\nT 1 300 899\nY 2\nN 2\nC 2 102\nC 2 101\nC 2 101\nR 2\nT 2 101 1001\nR 2\nH\n\
         C 2 101\nC 1 102\nF 600001 101 100\nF 600000 101 100\nH\nH\nH\nH\n\
         B 101 0 600001 1000 100\nZ",
        "B 3 0 100000\nB 4 0 100000\nB 5 0 100000\nB 6 0 100000\nB 6 0 100000\nB 10 0 100000\n\
         B 11 0 100000\nL 6 0 100000\nL 7 0 100000\nL 8 0 100000\nL 9 0 100000\nL 0 1 100000\n\
         B 0 2 0\nB 12 0 0\nB 10 0 0\nU 0 0 0\nL 22 0 0\nU 0 0 0\nT 13 0 0\nT 13 0 0\nT 15 0 0\n\
         T 15 0 0\nT 15 0 0\nT 15 0 0\nY 14 0 0\nN 14 0 0\nC 13 0 0\nC 0 2 0\nC 14 0 0\nR 0 2 100000\n\
         T 14 0 100000\nR 14 0 100000\nH 0 0 100000\nC 14 0 100000\nC 17 0 100000\nF 3 0 100000\n\
         F 18 0 100000\nH 0 0 100000\nH 0 0 100000\nH 0 0 100000\nH 16 0 100000\nB 1 0 100000\n\
         Z 21 0 100000",
    );
}

#[test]
fn a_morning_of_notices() {
    let quota = 5_200_000_000_000_u64;
    let answered = |words: &str| {
        let lines: Vec<String> = words
            .split(' ')
            .map(|word| {
                let (letter, refusal) = word.split_at(1);
                format!("{letter} {refusal} 0 {quota}")
            })
            .collect();
        lines.join("\n")
    };
    prints(
        &format!(
            "D 1 20190215 {quota}\nS 600000 1 1000 10\nS 600009 2 1000 10\nS 600016 1 1000 10\n\
             S 600519 3 1000 10\nP 101 600000 500\nP 101 600016 12000\nP 205 600519 300\n\
             A 80000001 600000 300\nA 80000002 600009 4500\nG 80000001 101\nG 80000001 205\n\
             G 80000002 205\nE 4 3 2 3\n\
             U 1\nF 600000 28 100\nF 600000 27 100\nF 600519 27 100\nH\nF 600000 26 100\n\
             F 600000 27 100\nF 600009 50 100\nH\nU 0\nF 600016 2799999999 10000000000\n\
             F 600016 2800000000 10000000000\nF 600519 2600000000 10000000000\nU 1\nF 600001 28 100\n\
             F 600000 101 100\nF 600000 0 0\nH\nH\nH\nF 600016 1 100"
        ),
        &answered("U0 F0 F0 F0 H0 F0 F0 F0 H0 U0 F0 F0 F0 U0 F3 F18 F18 H0 H0 H16 F0"),
    );
}
