//! soak [CALLS [SEED]]
//!
//! Calls of 16 callers over their records in one process: random, damaged and hostile sheets. Buffers
//! and records stand right before forbidden pages (the workspace between two), and sheets in memory
//! that cannot be written, so that a word touched outside stops the process.
//!
//! Every call is held to what is cheap to check (`check`), and after it every record to the serial that
//! is counted here; some are for callers outside the records. Calls from the pool are held to their
//! whole answer, by a hash of what the plain implementation and the original said when the pool
//! was made. A sample of the others is compared with both as well. Between them class loads are made,
//! each held word by word to the oracle's, and drawings, each held byte by byte to the original's graph
//! and the plain implementation's.
//!
//! Prints a line for each of 20 slices: memory and time are to stay flat.

use std::process::ExitCode;

use bench::clock::processor;
use bench::guarded::Guarded;
use oracle::callers::Named;
use oracle::compare::{Side, compare};
use oracle::damage::{Call, Change, EDGES, Room, change, damaged};
use oracle::drawing::compare_drawing;
use oracle::generate;
use oracle::load;
use oracle::plain::dot::{Drawn, judge, lend};
use oracle::plain::sheet::ABSENT;
use oracle::plain::{self, Outcome};
use oracle::random::Random;
use service_host::ffi::{self, Caller, Reply};
use service_host::{Service, limits};

const SLICES: u64 = 20;
/// So many callers have a record; the serials of the first half wrap, one after another, and those of
/// the others do not.
const CALLERS: usize = 16;
const WRAPPING: usize = CALLERS / 2;
const POOL: usize = 4_096;
const LEAST_WORKSPACE: usize = 16_384;
/// Words of the answer buffer: the longest answer of a pool fits.
const ROOM: usize = 1 << 16;
/// One of so many calls is looked at in full, and one of so many compared; a class load and a drawing
/// come after one of so many.
const LOOKED_AT: u64 = 16;
const COMPARED: u64 = 256;
const LOADED: u64 = 256;
/// One of so many calls is for a caller outside the records.
const OUTSIDE: usize = 64;
const DRAWN: u64 = 256;

/// A call whose outcome is known.
struct Known {
    /// The sheet's words in the pool's memory.
    at: usize,
    words: usize,
    workspace: usize,
    room: usize,
    refusal: u32,
    length: usize,
    hash: u64,
}

/// Calls with known outcomes, their sheets in memory that cannot be written.
struct Pool {
    memory: Guarded,
    calls: Vec<Known>,
}

fn hash(words: &[u32]) -> u64 {
    let mix = |h: u64, &w: &u32| (h ^ u64::from(w)).wrapping_mul(0x0100_0000_01b3).rotate_left(17);
    words.iter().fold(0xcbf2_9ce4_8422_2325, mix)
}

impl Pool {
    fn new(random: &mut Random) -> Pool {
        let mut all: Vec<(Call, Vec<u32>, u32)> = Vec::new();
        while all.len() < POOL {
            let call = if random.percent(50) {
                damaged(random)
            } else if random.percent(85) {
                Call::good(&generate::tiny(random), random)
            } else {
                Call::good(&generate::sheet(random), random)
            };
            // The original and the plain implementation agree, or the soak is over.
            let (refusal, difference) = compare(&call, &mut []);
            assert!(difference.is_none(), "{difference:?}");
            let answer = match plain::outcome(&call.sheet, LEAST_WORKSPACE, usize::MAX) {
                Outcome::Accepted(words) => words,
                Outcome::Refused(_) => Vec::new(),
            };
            if answer.len() + 40 < ROOM {
                all.push((call, answer, refusal));
            }
        }
        let mut memory = Guarded::new(all.iter().map(|(call, ..)| call.sheet.len()).sum());
        let mut calls = Vec::new();
        let mut at = 0;
        for (call, answer, refusal) in &all {
            memory.words_mut()[at..][..call.sheet.len()].copy_from_slice(&call.sheet);
            let accepted = *refusal == 0;
            calls.push(Known {
                at,
                words: call.sheet.len(),
                workspace: call.workspace.min(LEAST_WORKSPACE),
                room: call.room.words(answer.len()),
                refusal: *refusal,
                length: if accepted { answer.len() } else { 0 },
                hash: hash(if accepted { answer } else { &[] }),
            });
            at += call.sheet.len();
        }
        memory.read_only();
        Pool { memory, calls }
    }

    fn sheet(&self, known: &Known) -> &[u32] {
        &self.memory.words()[known.at..][..known.words]
    }
}

/// What a host lends, and which caller it names.
struct Host {
    records: Guarded,
    /// For each caller its first serial, how many of its calls were accepted, and the next serial.
    first: [u32; CALLERS],
    accepted: [u64; CALLERS],
    next: [u32; CALLERS],
    named: Random,
    sheet: Guarded,
    workspace: Guarded,
    answer: Guarded,
    text: Guarded,
}

/// The counts of a slice.
#[derive(Default)]
struct Tally {
    refusals: [u64; 12],
    compared: u64,
    looked_at: u64,
    loads: u64,
    /// Sheets that were drawn, and those refused.
    drawings: [u64; 2],
}

fn is(what: &str, holds: bool) -> Result<(), String> {
    if holds { Ok(()) } else { Err(what.to_string()) }
}

/// What every call promises, as far as it is cheap to check.
fn check(
    reply: Reply,
    outside: bool,
    sheet: &[u32],
    workspace: usize,
    answer: &[u32],
) -> Result<(), String> {
    is("the refusal's number", reply.refusal <= 11)?;
    is("refusal 11", (reply.refusal == 11) == outside)?;
    is("refusal 1", outside || (reply.refusal == 1) == (workspace < LEAST_WORKSPACE))?;
    if reply.refusal != 0 {
        return is("length and serial of a refusal", reply.length == 0 && reply.serial == 0);
    }
    is("the length", reply.length <= answer.len())?;
    // The sections, each after its count.
    let mut sections = [&answer[..0]; 10];
    let mut rest = &answer[..reply.length];
    for (section, size) in sections.iter_mut().zip([2, 3, 3, 2, 8, 1, 3, 3, 3, 3]) {
        let (count, after) = rest.split_first().ok_or("a section is missing")?;
        (*section, rest) =
            after.split_at_checked(*count as usize * size).ok_or("a section is cut")?;
    }
    is("the sections' length", rest.is_empty())?;
    // The sheet's identifiers stand from word 4 on.
    let identifiers = sheet[3] as usize;
    is("the count of ranges", sections[0].len() == 2 * identifiers)?;
    let ranges = sections[0].chunks_exact(2).zip(sheet[4..].chunks_exact(3));
    for (range, identifier) in ranges {
        is("a range's start", range[0] == identifier[0] || identifier[0] == 0)?;
        is("a range's end", range[1] >= identifier[1] && range[1] <= 1_000_000)?;
    }
    is("a walk's entries", sections[5].iter().all(|w| (1..=4_097).contains(w)))?;
    let tracked = (sections[1].len() + sections[2].len()) / 3 + 1;
    is("the count of walks", sections[5].len() >= tracked)?;
    let places = sections[6..].iter().flat_map(|section| section.chunks_exact(3));
    let mut places = places.map(|place| (place[0] as usize, place[1]));
    is("a place", places.all(|(id, traits)| id < identifiers && traits <= 15))?;
    is("an effect's kind", sections[4].chunks_exact(8).all(|e| e[0] <= 17))
}

/// So many records, right before the forbidden page.
fn lent_records(records: &mut Guarded, count: usize) -> &mut [Caller] {
    let words = records.last_mut(count);
    // SAFETY: a record is a word; the words are borrowed mutably, and so are the records.
    unsafe { std::slice::from_raw_parts_mut(words.as_mut_ptr().cast(), count) }
}

impl Host {
    fn new(first: [u32; CALLERS]) -> Host {
        let mut records = Guarded::new(CALLERS);
        records.last_mut(CALLERS).copy_from_slice(&first);
        Host {
            records,
            first,
            accepted: [0; CALLERS],
            next: first,
            named: Random::new(16),
            sheet: Guarded::new(20_000),
            workspace: Guarded::new(LEAST_WORKSPACE),
            answer: Guarded::new(ROOM),
            text: Guarded::new((limits::DRAWING + 200) / 4),
        }
    }

    /// How many records are lent, the last of them, and the position that is named.
    fn name(&mut self, outside: bool) -> (usize, usize) {
        if !outside {
            return (CALLERS, self.named.below(CALLERS));
        }
        let lent = self.named.choose(&[CALLERS, CALLERS, 3, 1, 0]);
        (lent, self.named.choose(&[lent, lent + 1, CALLERS, 1 << 32, usize::MAX]))
    }

    /// After a call every record is the one that is counted here.
    fn count(&mut self, reply: Reply, position: usize) -> Result<(), String> {
        if reply.refusal == 0 {
            is("the serial", reply.serial == self.next[position])?;
            self.next[position] = self.next[position].wrapping_add(1);
            self.accepted[position] += 1;
        }
        is("the records", *self.records.last_mut(CALLERS) == self.next)
    }

    /// One call on a sheet that stands elsewhere, or on the host's own.
    fn call(
        &mut self,
        sheet: Option<&[u32]>,
        own: usize,
        workspace: usize,
        room: usize,
        look: bool,
        outside: bool,
        tally: &mut Tally,
    ) -> Result<(Reply, &[u32]), String> {
        let (lent, position) = self.name(outside);
        let sheet = match sheet {
            Some(sheet) => sheet,
            None => self.sheet.last_mut(own),
        };
        let workspace = self.workspace.last_mut(workspace);
        let answer = self.answer.last_mut(room);
        if look {
            workspace.fill(0xdead_beef);
            answer.fill(0xbadd_cafe);
        }
        let callers = lent_records(&mut self.records, lent);
        let reply = ffi::infer(callers, position, sheet, workspace, answer);
        check(reply, outside, sheet, workspace.len(), answer)?;
        if look {
            tally.looked_at += 1;
            is("zeros in the workspace", workspace.iter().all(|&w| w == 0))?;
            is("zeros behind the answer", answer[reply.length..].iter().all(|&w| w == 0))?;
        }
        tally.refusals[reply.refusal as usize] += 1;
        self.count(reply, position)?;
        Ok((reply, &self.answer.words()[self.answer.room() - room..][..reply.length]))
    }
}

/// A drawing of a sheet that stands elsewhere, or of the host's own, into guarded bytes, with rubbish
/// before in all that is lent.
fn drawing(
    host: &mut Host,
    sheet: Option<&[u32]>,
    own: usize,
    random: &mut Random,
    tally: &mut Tally,
) -> Result<(), String> {
    let sheet = match sheet {
        Some(sheet) => sheet,
        None => host.sheet.last_mut(own),
    };
    let before = sheet.to_vec();
    // The original and the plain implementation agree.
    let call = Call { sheet: before, workspace: LEAST_WORKSPACE, room: Room::Exact };
    is("the original's drawing", compare_drawing(&call, &mut []).difference.is_none())?;
    let judged = judge(&call.sheet);
    let full = judged.as_ref().map_or(100, Vec::len);
    let room = random.choose(&[full, full, full - 1, full + 1, full + 150, full / 2, 0]);
    let words = if random.percent(5) { random.below(LEAST_WORKSPACE) } else { LEAST_WORKSPACE };
    let workspace = host.workspace.last_mut(words);
    let text = host.text.last_bytes_mut(room);
    workspace.fill(0xdead_beef);
    text.fill(0xa5);
    let reply = ffi::dot(sheet, workspace, text);
    let (refusal, mut bytes) = match lend(&judged, words, room) {
        Drawn::Refused(number) => (number, Vec::new()),
        Drawn::Text(bytes) => (0, bytes),
    };
    tally.drawings[(refusal != 0) as usize] += 1;
    is("a drawing's reply", reply == Reply { refusal, serial: 0, length: bytes.len() })?;
    bytes.resize(room, 0);
    is("a drawing's bytes", *text == bytes)?;
    is("zeros in the workspace after a drawing", workspace.iter().all(|&w| w == 0))?;
    is("the sheet after a drawing", *sheet == call.sheet)
}

/// A class load, or arguments outside, into the host's own memory for sheets, with rubbish before: for
/// nobody, or for a caller inside the records or outside.
fn class_load(host: &mut Host, random: &mut Random) -> Result<(), String> {
    let load = if random.percent(80) { load::made(random) } else { load::made_outside(random) };
    let room = random.choose(&load.rooms());
    let named = random.percent(50).then(|| host.name(random.percent(50)));
    let sheet = host.sheet.last_mut(room);
    sheet.fill(0xdead_beef);
    let reply = match named {
        None => ffi::load(load.seed, load.n, load.m, sheet),
        Some((lent, position)) => {
            let callers = lent_records(&mut host.records, lent);
            ffi::load_for(callers, position, load.seed, load.n, load.m, sheet)
        }
    };
    is("the records after a load", *host.records.last_mut(CALLERS) == host.next)?;
    let named = named.map(|(callers, position)| Named { callers, position });
    let (refusal, mut words) = match load.outcome_for(named, room) {
        Outcome::Refused(number) => (number, Vec::new()),
        Outcome::Accepted(words) => (0, words),
    };
    is("a load's reply", reply == Reply { refusal, serial: 0, length: words.len() })?;
    words.resize(room, 0);
    is("a load's words", *sheet == words)
}

/// The original and the plain implementation beside what the library said.
struct Said<'a> {
    reply: Reply,
    answer: &'a [u32],
}

impl Side for Said<'_> {
    fn name(&self) -> &'static str {
        "library"
    }

    fn outcome(&mut self, _: &[u32], _: usize, _: usize) -> Result<Outcome, String> {
        Ok(match self.reply.refusal {
            0 => Outcome::Accepted(self.answer.to_vec()),
            number => Outcome::Refused(number),
        })
    }
}

fn compared(sheet: &[u32], workspace: usize, room: usize, said: Said) -> Result<(), String> {
    let mut said = said;
    let expected = plain::outcome(sheet, workspace, room);
    is("the plain implementation's outcome", said.outcome(sheet, 0, 0)? == expected)?;
    let call = Call { sheet: sheet.to_vec(), workspace, room: Room::Exact };
    is("the original's answer", compare(&call, &mut []).1.is_none())
}

/// A small number, 0 or, where this is the count of an empty list, absent; or a limit.
const CHANGES: [Change; 3] = [
    |_, _, random| random.below(16) as u32,
    |words, at, _| if words[at] == 0 { ABSENT } else { 0 },
    |_, _, random| random.choose(&EDGES),
];

/// Makes a sheet in the host's own memory and gives its length.
fn hostile(memory: &mut [u32], good: &[u32], random: &mut Random) -> usize {
    let room = memory.len();
    match random.below(100) {
        // One to four words of a sheet changed.
        0..70 => {
            let words = &mut memory[room - good.len()..];
            words.copy_from_slice(good);
            for _ in 0..random.between(1, 4) {
                change(words, random, CHANGES);
            }
            good.len()
        }
        // Cut anywhere.
        70..80 => {
            let length = random.below(good.len() + 1);
            memory[room - length..].copy_from_slice(&good[..length]);
            length
        }
        // More words behind.
        80..88 => {
            let length = (good.len() + random.between(1, 50)).min(room);
            let words = &mut memory[room - length..];
            words.fill(random.choose(&EDGES));
            words[..good.len()].copy_from_slice(good);
            length
        }
        // Any words.
        88..96 => {
            let length = random.below(200);
            memory[room - length..].iter_mut().for_each(|w| *w = random.choose(&EDGES));
            if length > 4 {
                memory[room - length..][..4].copy_from_slice(&[2, 0, 1, 3]);
            }
            length
        }
        // All words alike, up to and above the longest sheet.
        _ => {
            let length = random.choose(&[0, 1, 16_383, 16_384, 16_385, 20_000]);
            memory[room - length..].fill(random.choose(&EDGES));
            length
        }
    }
}

unsafe extern "C" {
    fn malloc_trim(pad: usize) -> std::ffi::c_int;
}

/// Gives back what the soak's own lists have freed, so that only what is in use is measured.
fn trim() {
    // SAFETY: the C library's function takes no pointer and touches freed memory alone.
    unsafe { malloc_trim(0) };
}

/// A line of /proc/self/status, in kB.
fn memory(line: &str) -> u64 {
    let status = std::fs::read_to_string("/proc/self/status").unwrap_or_default();
    let line = status.lines().find_map(|l| l.strip_prefix(line));
    line.and_then(|l| l.trim().strip_suffix(" kB")?.parse().ok()).unwrap_or(0)
}

/// The time of one call in a fixed set of calls, in nanoseconds: the same in every slice.
fn probe(host: &mut Host, probes: &Pool, tally: &mut Tally) -> Result<f64, String> {
    let mut best = f64::INFINITY;
    for _ in 0..5 {
        let start = processor();
        for known in &probes.calls {
            let (sheet, workspace, room) = (probes.sheet(known), known.workspace, known.room);
            host.call(Some(sheet), 0, workspace, room, false, false, tally)?;
        }
        best = best.min((processor() - start) / probes.calls.len() as f64);
    }
    Ok(best)
}

fn slice(
    calls: u64,
    host: &mut Host,
    service: &mut Service,
    random: &mut Random,
    tally: &mut Tally,
) -> Result<(), String> {
    let pool = Pool::new(random);
    for i in 0..calls {
        if i % LOADED == 0 {
            tally.loads += 1;
            class_load(host, random)?;
        }
        let known = &pool.calls[random.below(POOL)];
        let sheet = pool.sheet(known);
        if i % DRAWN == 0 {
            let own = hostile(host.sheet.words_mut(), sheet, random);
            let chosen = random.percent(50).then_some(sheet);
            drawing(host, chosen, own, random, tally)?;
        }
        let look = i % LOOKED_AT == 0;
        if random.percent(40) {
            let (workspace, room) = (known.workspace, known.room);
            let (reply, answer) = host.call(Some(sheet), 0, workspace, room, look, false, tally)?;
            is("the pool's refusal", reply.refusal == known.refusal)?;
            is("the pool's answer", reply.length == known.length && hash(answer) == known.hash)?;
            continue;
        }
        let own = hostile(host.sheet.words_mut(), sheet, random);
        let workspace =
            if random.percent(1) { random.below(LEAST_WORKSPACE) } else { LEAST_WORKSPACE };
        let room = match random.below(8) {
            0 => random.below(200),
            _ => 1_024 + random.below(64),
        };
        if random.below(OUTSIDE) == 0 {
            host.call(None, own, workspace, room, look, true, tally)?;
            continue;
        }
        let chosen = i % COMPARED == 1;
        let sheet = if chosen { host.sheet.last_mut(own).to_vec() } else { Vec::new() };
        let (reply, answer) = host.call(None, own, workspace, room, look, false, tally)?;
        if chosen {
            tally.compared += 1;
            compared(&sheet, workspace, room, Said { reply, answer })?;
            // The wrapper says the same, but for buffers, which it has itself.
            match service.infer(0, &sheet) {
                Ok(wrapped) if reply.refusal == 0 => {
                    is("the wrapper's answer", wrapped.words() == answer)?;
                }
                Ok(_) => is("the wrapper's acceptance", matches!(reply.refusal, 1 | 9))?,
                Err(refusal) => is(
                    "the wrapper's refusal",
                    refusal.number() == reply.refusal || reply.refusal == 1,
                )?,
            }
        }
    }
    Ok(())
}

fn soak(calls: u64, seed: u64) -> Result<(), String> {
    let mut random = Random::new(seed);
    // Some three of ten calls are accepted: the first caller wraps within the first slice.
    let step = (calls / 1_024) as u32;
    let first = |caller: usize| match caller {
        0..WRAPPING => u32::MAX - step * caller as u32 - step / 2,
        _ => caller as u32,
    };
    let mut host = Host::new(std::array::from_fn(first));
    let mut service = Service::new();
    let probes = Pool::new(&mut Random::new(99));
    let (mut accepted, mut compared, mut looked_at) = (0, 0, 0);
    let (mut loads, mut drawings) = (0, [0; 2]);
    println!(
        "slice | calls | accepted | refused 1 to 11 | compared | memory kB | most kB | processor s | µs a call | probe µs"
    );
    for number in 1..=SLICES {
        let mut tally = Tally::default();
        let before = processor();
        slice(calls / SLICES, &mut host, &mut service, &mut random, &mut tally)?;
        let took = (processor() - before) / 1e9;
        let mut aside = Tally::default();
        let probed = probe(&mut host, &probes, &mut aside)?;
        accepted += tally.refusals[0] + aside.refusals[0];
        compared += tally.compared;
        looked_at += tally.looked_at;
        loads += tally.loads;
        drawings = [drawings[0] + tally.drawings[0], drawings[1] + tally.drawings[1]];
        let made: u64 = tally.refusals.iter().sum();
        trim();
        println!(
            "{number} | {made} | {} | {} | {} | {} | {} | {took:.1} | {:.2} | {:.2}",
            tally.refusals[0],
            tally.refusals[1..].iter().map(u64::to_string).collect::<Vec<_>>().join(" "),
            tally.compared,
            memory("VmRSS:"),
            memory("VmHWM:"),
            1e6 * took / made as f64,
            probed / 1e3,
        );
    }
    let mut wraps = [0; CALLERS];
    for (caller, wraps) in wraps.iter_mut().enumerate() {
        let next = u64::from(host.first[caller]) + host.accepted[caller];
        *wraps = next >> 32;
        is("a caller's serial at the end", u64::from(host.next[caller]) == next % (1 << 32))?;
    }
    is("all accepted calls", accepted == host.accepted.iter().sum::<u64>())?;
    is("half of the serials wrapped", wraps == std::array::from_fn(|c| (c < WRAPPING) as u64))?;
    println!(
        "{calls} calls of {CALLERS} callers, {accepted} accepted with the probes', {looked_at} looked at \
         in full, {compared} compared with the original; {loads} class loads; {} drawings, {} more \
         refused; the serials of {WRAPPING} callers wrapped, those of the others did not; nothing differs",
        drawings[0], drawings[1]
    );
    Ok(())
}

fn main() -> ExitCode {
    let mut args = std::env::args().skip(1);
    let mut number = |default: u64| {
        args.next().map_or(default, |n| n.replace('_', "").parse().expect("a number"))
    };
    let (calls, seed) = (number(100_000_000), number(1));
    match soak(calls, seed) {
        Ok(()) => ExitCode::SUCCESS,
        Err(what) => {
            println!("differs: {what}");
            ExitCode::FAILURE
        }
    }
}
