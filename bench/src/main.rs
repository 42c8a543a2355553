//! bench [ROUNDS]
//!
//! Our library and the original module in one process on the same sheets, both optimised, one
//! after the other in every round. Prints the tables of docs/PERFORMANCE.md.
//!
//! - ours: the whole call on lent buffers, which it clears.
//! - same job: the original from the sheet's words to the answer's words, its HIR built on the way.
//! - analysis: the original's pass alone, its HIR built before.
//!
//! Class loads and drawings are timed alone: the original makes none.

use std::time::{Duration, Instant};

use bench::clock::time;
use bench::shapes;
use bench::sides::{Ours, analysis, compare, same_job};
use oracle::generate::{self, LIMITS};
use oracle::load::Load;
use oracle::original_side::carries;
use oracle::plain;
use oracle::plain::dot::judge;
use oracle::plain::sheet::Sheet;
use oracle::random::Random;
use service_host::{ffi, first_lent};

/// The q-th part of the times, which are sorted.
fn quantile(sorted: &[f64], q: f64) -> f64 {
    sorted[((sorted.len() - 1) as f64 * q).round() as usize]
}

fn sorted(mut times: Vec<f64>) -> Vec<f64> {
    times.sort_by(f64::total_cmp);
    times
}

/// The times of all rounds, in nanoseconds.
#[derive(Default)]
struct Times(Vec<f64>);

impl Times {
    fn median(&self) -> f64 {
        quantile(&sorted(self.0.clone()), 0.5)
    }

    /// From the lower to the upper quartile, as a part of the median.
    fn spread(&self) -> f64 {
        let all = sorted(self.0.clone());
        (quantile(&all, 0.75) - quantile(&all, 0.25)) / quantile(&all, 0.5)
    }
}

/// The medians of one sheet.
struct Row {
    ours: f64,
    job: f64,
    analysis: f64,
    /// The largest spread of the three.
    spread: f64,
}

/// A sheet, what is lent for its answer (what `Service` lends, or the answer's length), and the
/// times of the sides: ours, same job, analysis.
struct Subject {
    sheet: Sheet,
    words: Vec<u32>,
    lent: usize,
    sides: [Times; 3],
}

impl Subject {
    /// Fails if the two sides disagree on the sheet.
    fn new(ours: &mut Ours, sheet: &Sheet) -> Subject {
        let words = sheet.words();
        let answer = plain::answer(sheet).words().len();
        let lent = first_lent(words.len()).max(answer);
        ours.lend(lent);
        compare(ours, &words);
        Subject { sheet: sheet.clone(), words, lent, sides: Default::default() }
    }

    /// One call of each side.
    fn turn(&mut self, ours: &mut Ours) {
        ours.lend(self.lent);
        let taken = [
            time(|| ours.call(&self.words)).0,
            time(|| same_job(&self.words)).0,
            analysis(&self.sheet),
        ];
        for (times, taken) in self.sides.iter_mut().zip(taken) {
            times.0.push(taken);
        }
    }

    fn row(&self) -> Row {
        let [ours, job, analysis] = &self.sides;
        Row {
            ours: ours.median(),
            job: job.median(),
            analysis: analysis.median(),
            spread: ours.spread().max(job.spread()).max(analysis.spread()),
        }
    }
}

struct Bench {
    ours: Ours,
    rounds: usize,
}

impl Bench {
    /// The sides one after the other, for at most three seconds but at least five rounds.
    fn measure(&mut self, sheet: &Sheet, rounds: usize) -> Row {
        let mut subject = Subject::new(&mut self.ours, sheet);
        let start = Instant::now();
        for round in 0..rounds {
            if round >= 5 && start.elapsed() > Duration::from_secs(3) {
                break;
            }
            subject.turn(&mut self.ours);
        }
        subject.row()
    }
}

fn micro(nanoseconds: f64) -> String {
    match nanoseconds / 1_000.0 {
        t if t < 9.95 => format!("{t:.2}"),
        t if t < 99.5 => format!("{t:.1}"),
        t => format!("{t:.0}"),
    }
}

fn ratio(r: f64) -> String {
    if r < 9.95 { format!("{r:.2}") } else { format!("{r:.1}") }
}

/// A measured ratio and the least that is asked of it.
fn held(measured: f64, least: f64) -> String {
    let holds = if measured >= least { "holds" } else { "does not hold" };
    format!("{} of {least}, {holds}", ratio(measured))
}

/// The rows of many sheets, their line of the table, and the median over the sheets.
struct Corpus(Vec<Row>);

impl Corpus {
    fn all(&self, value: fn(&Row) -> f64) -> Vec<f64> {
        sorted(self.0.iter().map(value).collect())
    }

    fn median(&self, value: fn(&Row) -> f64) -> f64 {
        quantile(&self.all(value), 0.5)
    }

    fn ratios(&self, value: fn(&Row) -> f64) -> String {
        let [low, middle, high] = [0.1, 0.5, 0.9].map(|q| ratio(quantile(&self.all(value), q)));
        format!("{middle} ({low} to {high})")
    }

    fn print(&self, name: &str) {
        println!(
            "| {name} | {} | {} | {} | {} | {} | {} |",
            self.0.len(),
            micro(self.median(|r| r.ours)),
            micro(self.median(|r| r.job)),
            micro(self.median(|r| r.analysis)),
            self.ratios(|r| r.job / r.ours),
            self.ratios(|r| r.analysis / r.ours),
        );
    }
}

fn corpora(bench: &mut Bench, asked: &mut Vec<String>) {
    println!("## Corpora\n");
    println!(
        "Ratios are taken sheet by sheet; the median over the sheets, in brackets the lower and \
         upper tenth.\n"
    );
    println!(
        "| corpus | sheets | ours µs | same job µs | analysis µs | same job / ours | analysis / ours |"
    );
    println!("|---|---|---|---|---|---|---|");
    let mut random = Random::new(1);
    // Those whose lists the original can carry: else it has not the same job.
    let made = std::iter::repeat_with(|| generate::sheet(&mut random));
    let generated: Vec<Sheet> = made.filter(carries).take(2_000).collect();
    let mut panels = |count: usize, low: usize, high: usize| -> Vec<Sheet> {
        (0..count)
            .map(|_| {
                let identifiers = random.between(low, high);
                shapes::panel(&mut random, identifiers)
            })
            .collect()
    };
    let small = panels(500, 10, 60);
    let large = panels(100, 100, 400);
    let rounds = (bench.rounds / 5).max(5);
    let mut measured = |name: &str, sheets: &[Sheet]| {
        let corpus = Corpus(sheets.iter().map(|sheet| bench.measure(sheet, rounds)).collect());
        corpus.print(name);
        corpus
    };
    let generated = measured("generated sheets", &generated);
    measured("small panels, 10 to 60 identifiers", &small);
    let large = measured("large panels, 100 to 400 identifiers", &large);
    println!();
    asked.push(format!(
        "- Generated sheets, the median of same job / ours: {}.",
        held(generated.median(|r| r.job / r.ours), 2.0)
    ));
    asked.push(format!(
        "- Large panels, the median of analysis / ours: {}.",
        held(large.median(|r| r.analysis / r.ours), 3.0)
    ));
}

fn worst(bench: &mut Bench, asked: &mut Vec<String>) {
    let mut sheets = shapes::worst();
    let mut random = Random::new(3);
    sheets.extend(
        LIMITS
            .into_iter()
            .map(|limit| (format!("limit: {limit:?}"), generate::at_limit(&mut random, limit))),
    );
    println!("## Worst shapes and limits\n");
    println!(
        "| shape | words | ours µs | same job µs | analysis µs | spread | same job / ours | analysis / ours |"
    );
    println!("|---|---|---|---|---|---|---|---|");
    let mut all = Vec::new();
    for (name, sheet) in sheets {
        let row = bench.measure(&sheet, bench.rounds);
        println!(
            "| {name} | {} | {} | {} | {} | {:.0}% | {} | {} |",
            sheet.words().len(),
            micro(row.ours),
            micro(row.job),
            micro(row.analysis),
            100.0 * row.spread,
            ratio(row.job / row.ours),
            ratio(row.analysis / row.ours),
        );
        all.push((row.job / row.ours, name));
    }
    println!();
    all.sort_by(|(a, _), (b, _)| a.total_cmp(b));
    let slower = all.iter().take_while(|(r, _)| *r < 1.0).count();
    asked.push(format!(
        "- On no shape slower than the same job: slower on {slower} of {}.",
        all.len()
    ));
    let lowest = all.iter().take(slower.max(3)).map(|(r, name)| format!("{name} {}", ratio(*r)));
    let lowest: Vec<String> = lowest.collect();
    asked.push(format!("- The lowest of these ratios: {}.", lowest.join("; ")));
}

fn doublings(bench: &mut Bench) {
    println!("## As the work grows\n");
    println!("A line for each doubling, with the factor to the line above.\n");
    println!("| what | size | ours µs | | same job µs | | analysis µs | |");
    println!("|---|---|---|---|---|---|---|---|");
    for (name, sheets) in shapes::doublings() {
        let mut before: Option<Row> = None;
        for (size, sheet) in sheets {
            let row = bench.measure(&sheet, bench.rounds);
            let factor = |now: f64, part: &dyn Fn(&Row) -> f64| {
                before.as_ref().map_or(String::new(), |b| format!("×{:.2}", now / part(b)))
            };
            println!(
                "| {name} | {size} | {} | {} | {} | {} | {} | {} |",
                micro(row.ours),
                factor(row.ours, &|b| b.ours),
                micro(row.job),
                factor(row.job, &|b| b.job),
                micro(row.analysis),
                factor(row.analysis, &|b| b.analysis),
            );
            before = Some(row);
        }
    }
    println!();
}

/// Class loads of the smallest, a middle and the largest size, in as many words as they have. No time
/// is asked of them.
fn class_loads(rounds: usize) {
    println!("## Class loads\n");
    println!("| identifiers | effects | words | ns a load | spread |");
    println!("|---|---|---|---|---|");
    for (n, m) in [(2, 1), (64, 64), (512, 512)] {
        let mut sheet = vec![0; Load { seed: 0, n, m }.words()];
        let mut times = Times::default();
        for seed in 0..rounds as u32 {
            let (taken, reply) = time(|| ffi::load(seed, n, m, &mut sheet));
            assert_eq!((reply.refusal, reply.length), (0, sheet.len()));
            assert_eq!(sheet, Load { seed, n, m }.sheet().words());
            times.0.push(taken);
        }
        let spread = 100.0 * times.spread();
        println!("| {n} | {m} | {} | {:.0} | {spread:.0}% |", sheet.len(), times.median());
    }
    println!();
}

/// Drawings of class loads of the same sizes, in as many bytes as they have. No time is asked of them.
fn drawings(rounds: usize) {
    println!("## Drawings\n");
    println!("| identifiers | effects | bytes | µs a drawing | spread |");
    println!("|---|---|---|---|---|");
    for (n, m) in [(2, 1), (64, 64), (512, 512)] {
        let sheet = Load { seed: 1, n, m }.sheet().words();
        let expected = judge(&sheet).expect("a class load is drawn");
        let mut workspace = vec![0; ffi::least_workspace()];
        let mut text = vec![0; expected.len()];
        let mut times = Times::default();
        for _ in 0..rounds {
            let (taken, reply) = time(|| ffi::dot(&sheet, &mut workspace, &mut text));
            assert_eq!((reply.refusal, reply.length), (0, text.len()));
            assert_eq!(text, expected);
            times.0.push(taken);
        }
        let (median, spread) = (micro(times.median()), 100.0 * times.spread());
        println!("| {n} | {m} | {} | {median} | {spread:.0}% |", text.len());
    }
    println!();
}

/// How busy the machine is: above the number of its cores, the times say little.
fn load(when: &str) -> String {
    let load = std::fs::read_to_string("/proc/loadavg").unwrap_or_default();
    let load = load.split_whitespace().next().unwrap_or("unknown");
    let cores = std::thread::available_parallelism().map_or(1, usize::from);
    format!("The run {when} with a load of {load} on {cores} cores.\n")
}

fn main() {
    let rounds = std::env::args().nth(1).map_or(101, |r| r.parse().expect("ROUNDS is a number"));
    let mut bench = Bench { ours: Ours::new(), rounds };
    let mut asked = Vec::new();
    println!(
        "Medians of {rounds} rounds (fewer where a round takes long, at least 5; a fifth of them \
         for corpora), the sides one after the other in each. Every call of ours is lent {} words \
         of workspace, and of answer buffer what `Service` lends first (the sheet's length, at \
         least {}) or, where that is longer, the answer's length; it clears all of them. The \
         original clears nothing. Spread: between the quartiles, as a part of the median, the \
         largest of the three sides.\n",
        ffi::least_workspace(),
        first_lent(0),
    );
    println!("{}", load("begins"));
    corpora(&mut bench, &mut asked);
    worst(&mut bench, &mut asked);
    doublings(&mut bench);
    class_loads(rounds);
    drawings(rounds);
    println!("{}", load("ends"));
    println!("## What is asked\n\n{}", asked.join("\n"));
}
