// What crates/table_bench does, in plain Rust: the same rows, in the same order, by one of two ways to enter a row.
use std::env;
use std::io::Write;
use std::time::Instant;

#[derive(Clone, Copy)]
struct Report {
    trade: [u8; 52],
    number: u32,
    _rest: [u64; 77],
}

const _: () = assert!(size_of::<Report>() == 672);

fn report_of(number: u32) -> Report {
    let mut trade = [0; 52];
    write!(&mut trade[..], "259400LUPUA1BSPB4X83{number:032}").expect("room for 52 bytes");
    Report {
        trade,
        number,
        _rest: [u64::from(number); 77],
    }
}

fn reports(count: u32) -> Vec<Report> {
    let mut number = 0u32;
    (0..count)
        .map(|_| {
            number = number.wrapping_mul(1_664_525).wrapping_add(1_013_904_223);
            report_of(number)
        })
        .collect()
}

// Blank rows that are there from the start, as the proved table has them: those behind the place move up by one.
fn by_copy_within(rows: &mut Vec<Report>, reports: &[Report]) {
    let mut used = 0;
    for report in reports {
        let Err(at) = rows[..used].binary_search_by(|row| row.trade.cmp(&report.trade)) else {
            panic!("no trade comes twice");
        };
        rows.copy_within(at..used, at + 1);
        rows[at] = *report;
        used += 1;
    }
}

// A `Vec` that grows, over the same memory.
fn by_insert(rows: &mut Vec<Report>, reports: &[Report]) {
    rows.clear();
    for report in reports {
        let Err(at) = rows.binary_search_by(|row| row.trade.cmp(&report.trade)) else {
            panic!("no trade comes twice");
        };
        rows.insert(at, *report);
    }
}

// Fills a table of blank rows, tells the microseconds that it took, and gives the rows.
fn round(enter_all: fn(&mut Vec<Report>, &[Report]), reports: &[Report]) -> Vec<Report> {
    let mut rows = vec![report_of(0); reports.len()];
    let start = Instant::now();
    enter_all(&mut rows, reports);
    eprintln!("{}", start.elapsed().as_micros());
    rows
}

fn checksum(rows: &[Report]) -> u64 {
    rows.iter().fold(0u64, |sum, row| {
        sum.wrapping_mul(31).wrapping_add(u64::from(row.number))
    })
}

fn main() {
    let mut arguments = env::args().skip(1);
    let enter_all = match arguments.next().as_deref() {
        Some("copy_within") => by_copy_within,
        Some("insert") => by_insert,
        _ => panic!("usage: insertions copy_within|insert [ROWS [ROUNDS]]"),
    };
    let mut number_or = |absent: u32| match arguments.next() {
        Some(text) => text.parse().expect("a number"),
        None => absent,
    };
    let reports = reports(number_or(4_096));
    let mut rows = Vec::new();
    for _ in 0..number_or(1) {
        rows = round(enter_all, &reports);
    }
    println!("{} rows, checksum {}", rows.len(), checksum(&rows));
}
