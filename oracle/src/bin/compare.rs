//! compare --seed S --sheets N --damaged M --loads L --drawings D --certainty C --callers K
//!         [--recreated H] [--graphviz G]
//!         [--threads T] [--program PATH --runs R] [--files F..]
//!
//! Makes N accepted sheets and M damaged calls from a seed and compares the
//! original, the plain reader and, with the feature `service`, our own library on
//! them, and on the fixed sheets: bench cases, ranges of words, totals, smallest/ and long
//! walks; and H sheets that create the same identifiers again and again, with H calls about what
//! may be held together. Then class loads: those at the corners of the bounds, arguments outside, and
//! L from the seed. Then drawings: of the fixed sheets, and of D sheets and D damaged calls
//! from the seed; G texts of sheets from the seed are given to Graphviz. Then how sure the
//! mutation of each parameter is: of the fixed sheets that order 8 speaks of, and of C such
//! sheets from the seed. Then K lists of calls by several callers, for which our library has to
//! be there. Then runs of the program at PATH: on its fixed files, and R on files from the seed.
//! With files, compares those instead.

use std::path::{Path, PathBuf};
use std::process::ExitCode;
use std::time::{Duration, Instant};

use oracle::callers::{self, INSIDE, List, OUTSIDE, Server, compare_list};
use oracle::certainty::{self, SORTS, compare_certainty};
use oracle::compare::{Difference, Side, compare, lines, original_lines, roomy, shrink};
use oracle::damage::{Call, Room, damaged};
use oracle::drawing::{self, Drawer, compare_drawing};
use oracle::graphviz::compare_picture;
use oracle::load::{self, Load, Loader, compare_load};
use oracle::plain;
use oracle::plain::sheet::{Sheet, WORKSPACE_WORDS};
use oracle::program::{self, compare_run, file_words};
use oracle::random::Random;
use oracle::{cases, damage, dense, generate, held, recreated, text, totals};

const REPORT: &str = "difference.txt";

#[derive(Clone)]
struct Arguments {
    seed: u64,
    sheets: u64,
    damaged: u64,
    recreated: u64,
    loads: u64,
    drawings: u64,
    certainty: u64,
    callers: u64,
    graphviz: u64,
    threads: u64,
    program: Option<PathBuf>,
    runs: u64,
    files: Vec<String>,
}

fn arguments() -> Result<Arguments, String> {
    let mut arguments = Arguments {
        seed: 1,
        sheets: 100_000,
        damaged: 100_000,
        recreated: 0,
        loads: 1_000,
        drawings: 10_000,
        certainty: 10_000,
        callers: 1_000,
        graphviz: 0,
        threads: 1,
        program: None,
        runs: 0,
        files: Vec::new(),
    };
    let mut words = std::env::args().skip(1);
    while let Some(word) = words.next() {
        if word == "--files" {
            arguments.files.extend(words.by_ref());
            break;
        }
        let value = words.next().ok_or(format!("{word} needs a value"))?;
        if word == "--program" {
            arguments.program = Some(value.into());
            continue;
        }
        let number = value.parse().map_err(|_| format!("{value} is no number"))?;
        match word.as_str() {
            "--seed" => arguments.seed = number,
            "--sheets" => arguments.sheets = number,
            "--damaged" => arguments.damaged = number,
            "--recreated" => arguments.recreated = number,
            "--loads" => arguments.loads = number,
            "--drawings" => arguments.drawings = number,
            "--certainty" => arguments.certainty = number,
            "--callers" => arguments.callers = number,
            "--graphviz" => arguments.graphviz = number,
            "--threads" => arguments.threads = number.max(1),
            "--runs" => arguments.runs = number,
            _ => return Err(format!("unknown argument {word}")),
        }
    }
    Ok(arguments)
}

/// Our own library, if it is linked.
fn sides() -> Vec<Box<dyn Side>> {
    vec![
        #[cfg(feature = "service")]
        Box::new(oracle::ours::Ours::default()),
    ]
}

/// The same for class loads.
fn loaders() -> Vec<Box<dyn Loader>> {
    vec![
        #[cfg(feature = "service")]
        Box::new(oracle::ours::Ours::default()),
    ]
}

/// The same for drawings.
fn drawers() -> Vec<Box<dyn Drawer>> {
    vec![
        #[cfg(feature = "service")]
        Box::new(oracle::ours::Ours::default()),
    ]
}

/// Sums one by one.
fn add<const N: usize>(sums: &mut [u64; N], numbers: [u64; N]) {
    sums.iter_mut().zip(numbers).for_each(|(sum, number)| *sum += number);
}

/// The same for lists of calls by several callers.
fn servers() -> Vec<Box<dyn Server>> {
    vec![
        #[cfg(feature = "service")]
        Box::new(oracle::ours::Ours::default()),
    ]
}

#[derive(Default)]
struct Counts {
    fixed: u64,
    sheets: u64,
    damaged: u64,
    /// Calls for callers outside the records, one for each sheet and each side.
    outside: u64,
    /// Lists of calls by several callers, and their calls.
    lists: (u64, u64),
    loads: u64,
    /// Calls for a class load, refused ones too.
    load_calls: u64,
    /// Sheets that were drawn, those among them that the call refuses 10, and those refused.
    drawn: u64,
    drawn_applies: u64,
    /// By refusal of the call at its own lengths; 0 stays 0.
    not_drawn: [u64; 11],
    drawing_calls: u64,
    /// Sheets of order 8, their places by kind, and the places whose kind needs a sort of steps.
    certain: u64,
    certain_places: [u64; 3],
    certain_needed: [u64; 7],
    /// Texts that Graphviz took, with their nodes and edges.
    pictures: (u64, u64, u64),
    runs: u64,
    /// Those of the runs that were on fixed files.
    fixed_runs: u64,
    /// By refusal; 0 is accepted.
    refusals: [u64; 11],
    differences: u64,
    /// That with the shortest sheet.
    shortest: Option<(Call, Difference)>,
}

impl Counts {
    fn differs(&mut self, call: Call, difference: Difference) {
        self.differences += 1;
        self.keep(call, difference);
    }

    fn keep(&mut self, call: Call, difference: Difference) {
        let length = call.sheet.len();
        if self.shortest.as_ref().is_none_or(|(other, _)| length < other.sheet.len()) {
            self.shortest = Some((call, difference));
        }
    }

    fn compare(&mut self, call: Call, sides: &mut [Box<dyn Side>]) -> u32 {
        self.outside += sides.len() as u64;
        let (refusal, difference) = compare(&call, sides);
        if let Some(difference) = difference {
            self.differs(call, difference);
        }
        refusal
    }

    /// A class load: asked of every side, and its sheet compared as any other.
    fn compare_load(
        &mut self,
        load: Load,
        loaders: &mut [Box<dyn Loader>],
        sides: &mut [Box<dyn Side>],
    ) {
        self.loads += 1;
        self.ask_for(load, loaders);
        let words = load.sheet().words();
        let answer = plain::judge(&words).map_or(usize::MAX, |answer| answer.len());
        if words.len() != load.words() || answer > load.most_answer() {
            println!("{load:?} has {} words, its answer {answer}", words.len());
            self.differences += 1;
        }
        // With 16,384 words of each, which always do, and as `compare` lends.
        let room = Room::More(WORKSPACE_WORDS.saturating_sub(answer));
        self.compare(Call { sheet: words, workspace: WORKSPACE_WORDS, room }, sides);
    }

    /// The load, or its refusal, at every length of output that makes a difference: for nobody, for a
    /// caller inside the records and for one outside.
    fn ask_for(&mut self, load: Load, loaders: &mut [Box<dyn Loader>]) {
        let first = (load.seed ^ load.n ^ load.m) as usize;
        let calls = (first..).zip(load.rooms()).flat_map(|(i, room)| {
            let [inside, outside] = [&INSIDE[..], &OUTSIDE[..]].map(|all| all[i % all.len()]);
            [None, Some(inside), Some(outside)].map(|named| (named, room))
        });
        let calls: Vec<_> = calls.collect();
        for loader in loaders {
            for &(named, room) in &calls {
                self.load_calls += 1;
                let found = compare_load(loader.as_mut(), load, named, room);
                found.into_iter().for_each(|difference| self.tell(&difference));
            }
        }
    }

    /// A difference that has no sheet of its own.
    fn tell(&mut self, difference: &Difference) {
        if self.differences < 3 {
            println!("{difference:?}");
        }
        self.differences += 1;
    }

    /// A list of calls by several callers.
    fn compare_list(&mut self, list: &List, servers: &mut [Box<dyn Server>]) {
        for server in servers {
            let (calls, found) = compare_list(server.as_mut(), list);
            self.lists.0 += 1;
            self.lists.1 += calls;
            found.into_iter().for_each(|difference| self.tell(&difference));
        }
    }

    /// A drawing: the original's, the plain reader's and that of every side.
    fn compare_drawing(&mut self, call: Call, drawers: &mut [Box<dyn Drawer>]) {
        let seen = compare_drawing(&call, drawers);
        match seen.refusal {
            0 => self.drawn += 1,
            number => self.not_drawn[number as usize] += 1,
        }
        self.drawn_applies += (seen.refusal == 0 && seen.applies) as u64;
        self.drawing_calls += seen.calls;
        if let Some(difference) = seen.difference {
            self.differs(call, difference);
        }
    }

    /// How sure each parameter's mutation is, by chains and by the answers.
    fn compare_certainty(&mut self, call: Call, sides: &mut [Box<dyn Side>]) {
        let seen = compare_certainty(&call, sides);
        self.certain += 1;
        add(&mut self.certain_places, seen.places);
        add(&mut self.certain_needed, seen.needed);
        if !seen.of_class {
            println!("a sheet is refused, or order 8 does not speak of it: {:?}", call.sheet);
            self.differences += 1;
        }
        if let Some(difference) = seen.difference {
            self.differs(call, difference);
        }
    }

    fn add(&mut self, other: Counts) {
        self.fixed += other.fixed;
        self.sheets += other.sheets;
        self.damaged += other.damaged;
        self.outside += other.outside;
        self.lists.0 += other.lists.0;
        self.lists.1 += other.lists.1;
        self.loads += other.loads;
        self.load_calls += other.load_calls;
        self.drawn += other.drawn;
        self.drawn_applies += other.drawn_applies;
        self.drawing_calls += other.drawing_calls;
        add(&mut self.not_drawn, other.not_drawn);
        self.certain += other.certain;
        add(&mut self.certain_places, other.certain_places);
        add(&mut self.certain_needed, other.certain_needed);
        self.pictures.0 += other.pictures.0;
        self.pictures.1 += other.pictures.1;
        self.pictures.2 += other.pictures.2;
        self.runs += other.runs;
        self.fixed_runs += other.fixed_runs;
        self.differences += other.differences;
        add(&mut self.refusals, other.refusals);
        if let Some((call, difference)) = other.shortest {
            self.keep(call, difference);
        }
    }

    fn line(&self) -> String {
        let mut parts = Vec::new();
        if self.fixed > 0 {
            parts.push(format!("{} fixed sheets", self.fixed));
        }
        if self.sheets > 0 {
            parts.push(format!("{} sheets", self.sheets));
        }
        if self.damaged > 0 {
            parts.push(format!("{} damaged ({})", self.damaged, by_refusal(self.refusals)));
        }
        if self.outside > 0 {
            parts.push(format!("{} calls outside the records", self.outside));
        }
        if let (lists @ 1.., calls) = self.lists {
            parts.push(format!("{lists} lists by several callers ({calls} calls)"));
        }
        if self.loads > 0 {
            parts.push(format!("{} class loads ({} calls)", self.loads, self.load_calls));
        }
        if self.drawn > 0 {
            let refused: u64 = self.not_drawn.iter().sum();
            parts.push(format!(
                "{} drawings, {} of them with Apply, {refused} refused ({}) ({} calls)",
                self.drawn,
                self.drawn_applies,
                by_refusal(self.not_drawn),
                self.drawing_calls
            ));
        }
        if let (texts @ 1.., nodes, edges) = self.pictures {
            parts.push(format!("{texts} texts taken by Graphviz ({nodes} nodes, {edges} edges)"));
        }
        if self.certain > 0 {
            let [three, four, none] = self.certain_places;
            let needed = SORTS.iter().zip(self.certain_needed);
            let needed: Vec<String> = needed.map(|((_, name), n)| format!("{name} {n}")).collect();
            parts.push(format!(
                "{} sheets of order 8 ({} places: {three} of kind 3, {four} of kind 4, {none} not \
                 reported; whose kind needs a step {})",
                self.certain,
                three + four + none,
                needed.join(", ")
            ));
        }
        if self.runs > 0 {
            let fixed = self.fixed_runs;
            parts.push(format!("{} runs of the program ({fixed} on fixed files)", self.runs));
        }
        parts.push(format!("{} differences", self.differences));
        let ours = if cfg!(feature = "service") { " and ours" } else { "" };
        format!("original, plain reader{ours}: {}", parts.join(", "))
    }
}

/// Refusals with their numbers, those that came up.
fn by_refusal(counts: [u64; 11]) -> String {
    let came_up = (0..).zip(counts).filter(|(_, n)| *n > 0);
    let name = |(r, n)| if r == 0 { format!("accepted:{n}") } else { format!("{r}:{n}") };
    came_up.map(name).collect::<Vec<_>>().join(" ")
}

/// A file of the folder that the oracle is built in.
fn target(name: &str) -> PathBuf {
    std::env::var_os("ORACLE_TARGET").map_or(PathBuf::new(), PathBuf::from).join(name)
}

/// Write the smallest differing sheet found to a file and print it.
fn report(call: &Call, difference: &Difference) {
    let (mut sides, mut drawers) = (sides(), drawers());
    let mut again = |call: &Call| {
        let found = [
            compare(call, &mut sides).1,
            compare_drawing(call, &mut drawers).difference,
            compare_certainty(call, &mut sides).difference,
        ];
        found.into_iter().flatten().find(|found| found.side == difference.side)
    };
    let small = shrink(call, |call| again(call).is_some());
    let difference = again(&small).unwrap_or_else(|| difference.clone());
    let words: Vec<String> = small.sheet.iter().map(u32::to_string).collect();
    let mut text = format!(
        "# {} differs; workspace {}, answer room {:?}\n{}\n",
        difference.side,
        small.workspace,
        small.room,
        words.join(" ")
    );
    for line in &difference.expected {
        text.push_str(&format!("# expected: {line}\n"));
    }
    for line in &difference.got {
        text.push_str(&format!("# {}: {line}\n", difference.side));
    }
    print!("{text}");
    let place = target(REPORT);
    match std::fs::write(&place, text) {
        Ok(()) => println!("# written to {}", place.display()),
        Err(error) => println!("# not written to {}: {error}", place.display()),
    }
}

/// The bench cases, the ranges of words, the totals, the sheets of smallest/, and those whose walks
/// are long.
fn compare_fixed() -> Counts {
    let mut sides = sides();
    let mut counts = Counts::default();
    let mut sheets = cases::sheets();
    sheets.extend(totals::all().into_iter().map(|sheet| sheet.words));
    sheets.extend(held::all().into_iter().map(|sheet| sheet.words));
    sheets.extend(text::smallest().into_iter().map(|text| text.words));
    sheets.extend(dense::all().iter().map(|(_, sheet)| sheet.words()));
    for sheet in &sheets {
        counts.fixed += 1;
        counts.compare(roomy(sheet), &mut sides);
    }
    counts
}

/// The sheets and calls of which the number is `own` modulo the number of threads.
fn compare_made(arguments: &Arguments, own: u64) -> Counts {
    let numbers = (arguments.sheets, arguments.damaged);
    compare_from(arguments, own, numbers, generate::sheet, damaged)
}

/// The same of sheets that create the same identifiers again and again.
fn compare_recreated(arguments: &Arguments, own: u64) -> Counts {
    let numbers = (arguments.recreated, arguments.recreated);
    compare_from(arguments, own, numbers, recreated::sheet, damage::recreated)
}

fn compare_from(
    arguments: &Arguments,
    own: u64,
    (sheets, calls): (u64, u64),
    made: fn(&mut Random) -> Sheet,
    damaged: fn(&mut Random) -> Call,
) -> Counts {
    let start = Instant::now();
    let mut shown = start;
    let mut sides = sides();
    let mut counts = Counts::default();
    let mut random = Random::new(arguments.seed);
    for i in 0..sheets + calls {
        // Each call has random numbers of its own, so that it can be made again.
        let mut random = Random::new(random.word());
        if i % arguments.threads != own {
            continue;
        }
        if i < sheets {
            counts.sheets += 1;
            let sheet = made(&mut random);
            let refusal = counts.compare(Call::good(&sheet, &mut random), &mut sides);
            if refusal != 0 {
                println!("a made sheet is refused with {refusal}: {:?}", sheet.words());
                counts.differences += 1;
            }
        } else {
            counts.damaged += 1;
            let refusal = counts.compare(damaged(&mut random), &mut sides);
            counts.refusals[refusal as usize] += 1;
        }
        if own == 0 && shown.elapsed() > Duration::from_secs(5) {
            shown = Instant::now();
            let seconds = start.elapsed().as_secs();
            eprintln!("{} of {} after {seconds} s", i + 1, sheets + calls);
        }
    }
    counts
}

/// The fixed class loads, arguments outside, and loads from the seed, as above.
fn compare_loads(arguments: &Arguments, own: u64) -> Counts {
    let (mut sides, mut loaders) = (sides(), loaders());
    let mut counts = Counts::default();
    if own == 0 {
        load::fixed().into_iter().for_each(|l| counts.compare_load(l, &mut loaders, &mut sides));
        load::outside().into_iter().for_each(|l| counts.ask_for(l, &mut loaders));
    }
    let mut random = Random::new(arguments.seed);
    for i in 0..arguments.loads {
        let mut random = Random::new(random.word());
        if i % arguments.threads == own {
            counts.compare_load(load::made(&mut random), &mut loaders, &mut sides);
            counts.ask_for(load::made_outside(&mut random), &mut loaders);
        }
    }
    counts
}

/// Drawings of the fixed sheets, and of sheets and damaged calls from the seed, as above.
fn compare_drawings(arguments: &Arguments, own: u64) -> Counts {
    let mut drawers = drawers();
    let mut counts = Counts::default();
    if own == 0 {
        drawing::fixed().into_iter().for_each(|c| counts.compare_drawing(c, &mut drawers));
    }
    let mut random = Random::new(arguments.seed);
    for i in 0..arguments.drawings {
        let mut random = Random::new(random.word());
        if i % arguments.threads == own {
            counts.compare_drawing(drawing::made(&mut random), &mut drawers);
            counts.compare_drawing(damaged(&mut random), &mut drawers);
        }
    }
    counts
}

/// The fixed sheets of order 8, and such sheets from the seed, as above.
fn compare_certainties(arguments: &Arguments, own: u64) -> Counts {
    let mut sides = sides();
    let mut counts = Counts::default();
    if own == 0 {
        certainty::fixed().into_iter().for_each(|c| counts.compare_certainty(c, &mut sides));
    }
    let mut random = Random::new(arguments.seed);
    for i in 0..arguments.certainty {
        let mut random = Random::new(random.word());
        if i % arguments.threads == own {
            counts.compare_certainty(certainty::made(&mut random), &mut sides);
        }
    }
    counts
}

/// Lists of calls by several callers, from the seed, as above.
fn compare_lists(arguments: &Arguments, own: u64) -> Counts {
    let mut servers = servers();
    let mut counts = Counts::default();
    let mut random = Random::new(arguments.seed);
    for i in 0..arguments.callers {
        let mut random = Random::new(random.word());
        if i % arguments.threads == own {
            counts.compare_list(&callers::made(&mut random), &mut servers);
        }
    }
    counts
}

/// Texts of sheets from the seed, given to Graphviz. It takes long for a graph of a thousand edges, so
/// that only shorter texts are taken.
fn compare_pictures(arguments: &Arguments) -> Result<Counts, String> {
    const LONGEST: usize = 8_000;
    let mut counts = Counts::default();
    let mut random = Random::new(arguments.seed);
    while counts.pictures.0 < arguments.graphviz {
        let call = drawing::made(&mut random);
        let Ok(whole) = plain::read_whole(&call.sheet) else { continue };
        if plain::dot::judge(&call.sheet).is_ok_and(|text| text.len() <= LONGEST) {
            let (nodes, edges) = compare_picture(&whole.sheet)?;
            counts.pictures.0 += 1;
            counts.pictures.1 += nodes as u64;
            counts.pictures.2 += edges as u64;
        }
    }
    Ok(counts)
}

/// Runs of the program: on the fixed files, then on files from the seed.
fn compare_runs(path: &Path, arguments: &Arguments) -> Result<Counts, String> {
    let mut counts = Counts::default();
    let mut random = Random::new(arguments.seed);
    let place = target("program.sheet");
    let mut run = |bytes: &[u8]| {
        counts.runs += 1;
        let found = compare_run(path, &place, bytes).map_err(|error| error.to_string())?;
        let differs = found.is_some();
        found.into_iter().for_each(|(words, difference)| counts.differs(roomy(&words), difference));
        Ok::<bool, String>(differs)
    };
    let fixed = program::fixed()?;
    for file in &fixed {
        if run(&file.bytes)? {
            println!("the program differs on a fixed file: {}", file.name);
        }
    }
    for _ in 0..arguments.runs {
        run(&program::made(&mut random))?;
    }
    counts.fixed_runs = fixed.len() as u64;
    Ok(counts)
}

fn compare_file(file: &str, sides: &mut [Box<dyn Side>]) -> std::io::Result<Counts> {
    let words = file_words(&std::fs::read(file)?);
    let mut counts = Counts { sheets: 1, ..Counts::default() };
    let refusal = counts.compare(roomy(&words), sides);
    counts.refusals[refusal as usize] += 1;
    println!("{file}");
    for line in lines(&plain::outcome(&words, 16_384, usize::MAX)) {
        println!("plain: {line}");
    }
    if let Ok(sheet) = plain::read(&words) {
        for line in original_lines(&sheet) {
            println!("original: {line}");
        }
    }
    Ok(counts)
}

/// A part of the work in every thread.
fn in_threads(arguments: &Arguments, part: fn(&Arguments, u64) -> Counts) -> Counts {
    let mut counts = Counts::default();
    std::thread::scope(|scope| {
        let start = |own| scope.spawn(move || part(arguments, own));
        let threads: Vec<_> = (0..arguments.threads).map(start).collect();
        threads.into_iter().for_each(|t| counts.add(t.join().expect("a thread ends")));
    });
    counts
}

fn compare_all(arguments: &Arguments) -> Result<Counts, String> {
    let mut counts = Counts::default();
    for file in &arguments.files {
        let of_file = compare_file(file, &mut sides()).map_err(|e| format!("{file}: {e}"))?;
        counts.add(of_file);
    }
    if arguments.files.is_empty() && arguments.sheets > 0 {
        counts.add(compare_fixed());
    }
    if arguments.files.is_empty() {
        counts.add(in_threads(arguments, compare_made));
        counts.add(in_threads(arguments, compare_recreated));
        if arguments.loads > 0 {
            counts.add(in_threads(arguments, compare_loads));
        }
        if arguments.drawings > 0 {
            counts.add(in_threads(arguments, compare_drawings));
        }
        if arguments.callers > 0 {
            counts.add(in_threads(arguments, compare_lists));
        }
        counts.add(compare_pictures(arguments)?);
        if arguments.certainty > 0 {
            counts.add(in_threads(arguments, compare_certainties));
        }
    }
    if let Some(program) = &arguments.program {
        let runs = compare_runs(program, arguments);
        counts.add(runs.map_err(|e| format!("{}: {e}", program.display()))?);
    }
    Ok(counts)
}

fn main() -> ExitCode {
    let fail = |message: String| {
        eprintln!("{message}");
        ExitCode::from(2)
    };
    let arguments = match arguments() {
        Ok(arguments) => arguments,
        Err(message) => return fail(message),
    };
    // A panic of the module is a difference and is reported as one.
    std::panic::set_hook(Box::new(|_| {}));
    let mut counts = match compare_all(&arguments) {
        Ok(counts) => counts,
        Err(message) => return fail(message),
    };
    if let Some((call, difference)) = counts.shortest.take() {
        report(&call, &difference);
    }
    println!("{}", counts.line());
    ExitCode::from((counts.differences > 0) as u8)
}
