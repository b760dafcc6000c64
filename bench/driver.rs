// The benchmark: looks at the same programs with the proved library and with its unproved twin, in turn in one run,
// compares the answers, and prints tables of times and ratios. Built without `--cfg proved` it has the twin alone.
// Not here: the method (twin.rs), the programs (programs.rs), SPIN (spin.sh).
//
// Times are the thread's processor time, since the machines may be shared; of several calls of a program the quickest
// counts. Both get the same lent memory, which is never cleared between calls, and was written to once at the start.

mod programs;
mod twin;

use std::time::Duration;
use twin::{Answer, Counters, How, Listing, Table};

// ---------------------------------------------------------------------------------------------------------------
// The proved library, as include/fences.h declares it

#[cfg(proved)]
mod proved {
    use crate::twin::{Answer, Listing};

    #[repr(C)]
    struct Looked {
        kind: u32,
        moves: u64,
        fences: u64,
    }

    #[repr(C)]
    struct Listed {
        kind: u32,
        outcomes: u64,
        states: u64,
    }

    extern "C" {
        fn fences_look(
            words: *const u32, words_len: usize, most: u32,
            out: *mut u32, out_len: usize, work: *mut u32, work_len: usize,
        ) -> Looked;
        fn fences_outcomes(
            words: *const u32, words_len: usize, most: u32,
            out: *mut u32, out_len: usize, work: *mut u32, work_len: usize,
        ) -> Listed;
    }

    pub fn look(words: &[u32], most: u32, out: &mut [u32], work: &mut [u32]) -> Answer {
        // each pointer comes from a slice, with that slice's length
        let looked = unsafe {
            fences_look(
                words.as_ptr(), words.len(), most,
                out.as_mut_ptr(), out.len(), work.as_mut_ptr(), work.len(),
            )
        };
        match looked.kind {
            0 => Answer::Plain,
            1 => Answer::Fences { moves: looked.moves as usize, fences: looked.fences as usize },
            2 => Answer::Crowded,
            3 => Answer::OutFull,
            4 => Answer::NoProgram,
            5 => Answer::Few,
            other => panic!("the library answered {other}"),
        }
    }

    /// The listing, and how many states were explored.
    pub fn outcomes(words: &[u32], most: u32, out: &mut [u32], work: &mut [u32]) -> (Listing, usize) {
        // each pointer comes from a slice, with that slice's length
        let listed = unsafe {
            fences_outcomes(
                words.as_ptr(), words.len(), most,
                out.as_mut_ptr(), out.len(), work.as_mut_ptr(), work.len(),
            )
        };
        let listing = match listed.kind {
            0 => Listing::Listed { outcomes: listed.outcomes as usize },
            2 => Listing::Crowded,
            3 => Listing::OutFull,
            4 => Listing::NoProgram,
            5 => Listing::Few,
            other => panic!("the library answered {other}"),
        };
        (listing, listed.states as usize)
    }
}

/// Stands in for the library where it isn't linked; never called.
#[cfg(not(proved))]
mod proved {
    use crate::twin::{Answer, Listing};

    pub fn look(_: &[u32], _: u32, _: &mut [u32], _: &mut [u32]) -> Answer {
        unreachable!("built without the library")
    }

    pub fn outcomes(_: &[u32], _: u32, _: &mut [u32], _: &mut [u32]) -> (Listing, usize) {
        unreachable!("built without the library")
    }
}

const HAVE_PROVED: bool = cfg!(proved);

// ---------------------------------------------------------------------------------------------------------------
// The clock

#[repr(C)]
struct Timespec {
    seconds: i64,
    nanoseconds: i64,
}

extern "C" {
    fn clock_gettime(clock: i32, time: *mut Timespec) -> i32;
}

/// The processor time of this thread.
fn processor_time() -> Duration {
    const THREAD_CPUTIME: i32 = 3;
    let mut time = Timespec { seconds: 0, nanoseconds: 0 };
    // the struct is the C library's on 64-bit Linux, and lives through the call
    let status = unsafe { clock_gettime(THREAD_CPUTIME, &mut time) };
    assert_eq!(status, 0, "the thread's processor time can be read");
    Duration::new(time.seconds as u64, time.nanoseconds as u32)
}

/// Whole calls are timed from outside, with a clock inside that costs nothing, as the library has none.
fn no_clock() -> Duration {
    Duration::ZERO
}

const ALL_STATES: How = How { table: Table::AllStates, clock: no_clock };
const ONE_LEVEL: How = How { table: Table::OneLevel, clock: no_clock };

/// With the time of the exploration told apart.
fn in_parts(how: How) -> How {
    How { clock: processor_time, ..how }
}

// ---------------------------------------------------------------------------------------------------------------
// Measuring

/// The states allowed in all tables but those about memory, and the words that must be lent for them.
const MOST: u32 = 400_000;
const OUT: usize = 1 << 20;

fn lent_for(most: u32) -> usize {
    65_536 + 128 * (most as usize + 1)
}

struct Buffers {
    out: Vec<u32>,
    other_out: Vec<u32>,
    work: Vec<u32>,
}

/// What was measured of one program or of the sum of several.
#[derive(Clone, Copy, Default)]
struct Row {
    programs: usize,
    states: usize,
    edges: usize,
    looks: usize,
    most_looks: usize,
    crowded: usize,
    plain: usize,
    differ: usize,
    proved: Duration,
    twin: Duration,
    twin_exploring: Duration,
    by_level: Duration,
    by_level_exploring: Duration,
}

impl Row {
    fn add(&mut self, other: &Row) {
        self.programs += other.programs;
        self.states += other.states;
        self.edges += other.edges;
        self.looks += other.looks;
        self.most_looks = self.most_looks.max(other.most_looks);
        self.crowded += other.crowded;
        self.plain += other.plain;
        self.differ += other.differ;
        self.proved += other.proved;
        self.twin += other.twin;
        self.twin_exploring += other.twin_exploring;
        self.by_level += other.by_level;
        self.by_level_exploring += other.by_level_exploring;
    }
}

/// The fences of an answer, where it has some.
fn fences_in(answer: Answer, out: &[u32]) -> &[u32] {
    match answer {
        Answer::Fences { moves, fences } => &out[moves..moves + 2 * fences],
        _ => &[],
    }
}

/// Makes a call so many times at a stretch: what the last one gave, and the time of one. A call before them isn't
/// timed: without it whoever comes first after another's turn would pay for what the processor has yet to learn.
fn timed<R>(calls: u32, mut call: impl FnMut() -> R) -> (R, Duration) {
    call();
    let begin = processor_time();
    for _ in 1..calls {
        call();
    }
    let result = call();
    (result, (processor_time() - begin) / calls)
}

/// So many calls at a stretch, that neither reading the clock shows nor the first calls, in which the processor learns
/// a small program's branches. (Held against itself under another name, the twin must come out at a ratio of 1.)
fn calls_for(states: usize) -> u32 {
    if states < 10_000 { 20 } else { 1 }
}

fn keep_least(least: &mut Duration, time: Duration) {
    if least.is_zero() || time < *least {
        *least = time;
    }
}

/// Looks at a program so many times, with each in turn.
fn measure_look(words: &[u32], most: u32, repeats: usize, buffers: &mut Buffers) -> Row {
    let mut row = Row { programs: 1, ..Row::default() };
    let Buffers { out, other_out, work } = buffers;
    let work = &mut work[..lent_for(most)];
    for _ in 0..repeats {
        let (answer, counters) = twin::look(words, most, out, work, in_parts(ALL_STATES));
        count(&mut row, answer, &counters);
        keep_least(&mut row.twin_exploring, counters.exploring);
        let calls = calls_for(row.states);
        let (_, time) = timed(calls, || twin::look(words, most, out, work, ALL_STATES));
        keep_least(&mut row.twin, time);
        if HAVE_PROVED {
            let (other, time) = timed(calls, || proved::look(words, most, other_out, work));
            keep_least(&mut row.proved, time);
            row.differ = usize::from(answer != other || fences_in(answer, out) != fences_in(other, other_out));
        }
        let ((other, _), time) = timed(calls, || twin::look(words, most, other_out, work, ONE_LEVEL));
        assert_eq!((other, fences_in(other, other_out)), (answer, fences_in(answer, out)));
        keep_least(&mut row.by_level, time);
        let (_, counters) = twin::look(words, most, other_out, work, in_parts(ONE_LEVEL));
        keep_least(&mut row.by_level_exploring, counters.exploring);
    }
    row
}

fn count(row: &mut Row, answer: Answer, counters: &Counters) {
    row.states = counters.states;
    row.edges = counters.edges;
    row.looks = counters.looks;
    row.most_looks = counters.looks;
    row.crowded = usize::from(answer == Answer::Crowded);
    row.plain = usize::from(answer == Answer::Plain);
}

/// Lists a program's outcomes so many times, with each in turn.
fn measure_outcomes(words: &[u32], most: u32, repeats: usize, buffers: &mut Buffers) -> Row {
    let mut row = Row { programs: 1, ..Row::default() };
    let Buffers { out, work, .. } = buffers;
    let work = &mut work[..lent_for(most)];
    for _ in 0..repeats {
        let (listing, counters) = twin::outcomes(words, most, out, work, in_parts(ALL_STATES));
        keep_least(&mut row.twin_exploring, counters.exploring);
        row.states = counters.states;
        row.edges = counters.edges;
        row.crowded = usize::from(listing == Listing::Crowded);
        let calls = calls_for(row.states);
        let (_, time) = timed(calls, || twin::outcomes(words, most, out, work, ALL_STATES));
        keep_least(&mut row.twin, time);
        if HAVE_PROVED {
            let ((other, states), time) = timed(calls, || proved::outcomes(words, most, out, work));
            keep_least(&mut row.proved, time);
            row.differ = usize::from(listing != other || counters.states != states);
        }
        let ((other, counters), time) = timed(calls, || twin::outcomes(words, most, out, work, ONE_LEVEL));
        assert_eq!((other, counters.states), (listing, row.states));
        keep_least(&mut row.by_level, time);
        let (_, counters) = twin::outcomes(words, most, out, work, in_parts(ONE_LEVEL));
        keep_least(&mut row.by_level_exploring, counters.exploring);
    }
    row
}

// ---------------------------------------------------------------------------------------------------------------
// Printing

fn seconds(time: Duration) -> String {
    let s = time.as_secs_f64();
    if s >= 0.01 { format!("{s:.3} s") } else { format!("{:.4} ms", s * 1e3) }
}

fn a_state(time: Duration, row: &Row) -> String {
    if row.states == 0 { "-".into() } else { format!("{:.0}", time.as_nanos() as f64 / row.states as f64) }
}

fn head() {
    print!("| programs | states | moves | looks |");
    if HAVE_PROVED {
        print!(" proved | ns a state | twin / proved |");
    }
    println!(" twin | of it exploring | ns a state | twin by levels | of it exploring | ns a state |");
    print!("|---|---|---|---|");
    if HAVE_PROVED {
        print!("---|---|---|");
    }
    println!("---|---|---|---|---|---|");
}

fn line(name: &str, row: &Row) {
    print!("| {name} | {} | {} | {} |", row.states, row.edges, row.looks);
    if HAVE_PROVED {
        let ratio = row.twin.as_secs_f64() / row.proved.as_secs_f64();
        print!(" {} | {} | {ratio:.2} |", seconds(row.proved), a_state(row.proved, row));
    }
    println!(
        " {} | {} | {} | {} | {} | {} |",
        seconds(row.twin),
        seconds(row.twin_exploring),
        a_state(row.twin, row),
        seconds(row.by_level),
        seconds(row.by_level_exploring),
        a_state(row.by_level, row)
    );
}

fn agreement(rows: &[Row]) {
    if HAVE_PROVED {
        let differ: usize = rows.iter().map(|row| row.differ).sum();
        let programs: usize = rows.iter().map(|row| row.programs).sum();
        println!("\nAnswers of the proved library and the twin differ for {differ} of {programs} programs.");
        assert_eq!(differ, 0, "answers differ");
    }
}

// ---------------------------------------------------------------------------------------------------------------
// The tables

const SEED: u64 = 1;

struct Sets {
    two: Vec<Vec<u32>>,
    three: Vec<Vec<u32>>,
    large: Vec<u32>,
    worked: Vec<programs::Named>,
}

fn spread(name: &str, rows: &[Row]) {
    let mut states: Vec<usize> = rows.iter().map(|row| row.states).collect();
    states.sort_unstable();
    let total = sum(rows);
    println!(
        "{name}: states median {}, most {}; plain {}, with fences {}; looks at most {}.",
        states[states.len() / 2],
        states[states.len() - 1],
        total.plain,
        total.programs - total.plain - total.crowded,
        total.most_looks
    );
}

fn sum(rows: &[Row]) -> Row {
    let mut sum = Row::default();
    for row in rows {
        sum.add(row);
    }
    sum
}

fn answers(sets: &Sets, buffers: &mut Buffers) {
    println!("\n## Whole answers (`look`)\n");
    let two: Vec<Row> = sets.two.iter().map(|words| measure_look(words, MOST, 7, buffers)).collect();
    let three: Vec<Row> = sets.three.iter().map(|words| measure_look(words, MOST, 3, buffers)).collect();
    let large = measure_look(&sets.large, MOST, 9, buffers);
    let worked: Vec<Row> = sets
        .worked
        .iter()
        .filter(|program| program.expected.as_deref() != Some("crowded"))
        .map(|program| measure_look(&program.words, MOST, 10, buffers))
        .collect();
    head();
    line(&format!("two threads of eight lines, {} random", two.len()), &sum(&two));
    line(&format!("three threads of eight lines, {} random", three.len()), &sum(&three));
    line("the large program", &large);
    line(&format!("worked programs, {}", worked.len()), &sum(&worked));
    println!();
    spread("Two threads", &two);
    spread("Three threads", &three);
    println!(
        "The large program: {} states, {} moves, {:.2} million states a second by the twin ({:.2} by levels).",
        large.states,
        large.edges,
        large.states as f64 / large.twin_exploring.as_secs_f64() / 1e6,
        large.states as f64 / large.by_level_exploring.as_secs_f64() / 1e6
    );
    agreement(&[sum(&two), sum(&three), large, sum(&worked)]);
}

fn exploration(sets: &Sets, buffers: &mut Buffers) {
    println!("\n## Exploration, marks at once and all outcomes listed (`outcomes`)\n");
    let of = |programs: &[Vec<u32>], repeats, buffers: &mut Buffers| {
        let rows: Vec<Row> = programs.iter().map(|words| measure_outcomes(words, MOST, repeats, buffers)).collect();
        sum(&rows)
    };
    let two = of(&sets.two, 7, buffers);
    let three = of(&sets.three, 3, buffers);
    let large = measure_outcomes(&sets.large, MOST, 9, buffers);
    head();
    line("two threads of eight lines", &two);
    line("three threads of eight lines", &three);
    line("the large program", &large);
    agreement(&[two, three, large]);
}

fn growth(buffers: &mut Buffers) {
    println!("\n## Growth: one program cut after so many lines a thread (`look`)\n");
    let rows: Vec<([usize; 3], Row)> = programs::CUTS
        .iter()
        .map(|&lines| {
            let repeats = if lines[0] < 6 { 10 } else { 5 };
            (lines, measure_look(&programs::cut(lines), MOST, repeats, buffers))
        })
        .collect();
    head();
    for ([a, b, c], row) in &rows {
        line(&format!("{a}, {b} and {c} lines"), row);
    }
    let rows: Vec<Row> = rows.into_iter().map(|(_, row)| row).collect();
    agreement(&rows);
}

/// The time of a small program must not depend on how much memory is lent.
fn lent_memory(sets: &Sets, buffers: &mut Buffers) {
    println!("\n## Little and much lent memory (`look`)\n");
    let little = 2_000;
    head();
    let mut rows = Vec::new();
    let programs = [("store buffering", &sets.worked[0].words), ("a random program of two threads", &sets.two[0])];
    for (name, words) in programs {
        for most in [little, MOST] {
            let row = measure_look(words, most, 100, buffers);
            line(&format!("{name}, {} words lent", lent_for(most)), &row);
            rows.push(row);
        }
    }
    agreement(&rows);
}

/// How many programs are answered when all buffers together are at most 4 MiB.
fn four_mebibytes(sets: &Sets, buffers: &mut Buffers) {
    println!("\n## In 4 MiB in all\n");
    let all = (4 << 20) / 4;
    let out = 4_096;
    let words_at_most = 1 + 4 * 33;
    let work = all - out - words_at_most;
    let most = ((work - 65_536) / 128 - 1) as u32;
    println!("Of 1,048,576 words {work} are lent, {out} are for the answer; {most} states allowed.\n");
    println!("| programs | crowded, proved | crowded, twin |");
    println!("|---|---|---|");
    for (name, programs) in [("two threads", &sets.two), ("three threads", &sets.three)] {
        let (mut by_proved, mut by_twin) = (0, 0);
        for words in programs {
            let Buffers { out: answer, work: lent, .. } = &mut *buffers;
            let (answer, lent) = (&mut answer[..out], &mut lent[..work]);
            by_twin += usize::from(twin::look(words, most, answer, lent, ALL_STATES).0 == Answer::Crowded);
            if HAVE_PROVED {
                by_proved += usize::from(proved::look(words, most, answer, lent) == Answer::Crowded);
            }
        }
        let by_proved = if HAVE_PROVED { by_proved.to_string() } else { "-".into() };
        println!("| {name}, {} | {by_proved} | {by_twin} |", programs.len());
    }
}

/// The worked programs with 2,000 states allowed, each answer held to the one in the file.
fn worked(sets: &Sets, buffers: &mut Buffers) {
    println!("\n## Worked programs, 2,000 states allowed (`look`)\n");
    head();
    let mut rows = Vec::new();
    for program in &sets.worked {
        let row = measure_look(&program.words, 2_000, 10, buffers);
        let work = &mut buffers.work[..lent_for(2_000)];
        let (answer, _) = twin::look(&program.words, 2_000, &mut buffers.out, work, ALL_STATES);
        let said = match answer {
            Answer::Plain => "plain".to_string(),
            Answer::Crowded => "crowded".to_string(),
            Answer::Fences { fences, .. } => format!("{fences} fences"),
            other => format!("{other:?}"),
        };
        assert_eq!(Some(&said), program.expected.as_ref(), "{}", program.name);
        line(&format!("{}: {said}", program.name), &row);
        rows.push(row);
    }
    agreement(&rows);
}

/// Arguments: the folder with the files of words; then which tables are wanted, all if none is named.
fn main() {
    let folder = std::env::args().nth(1).expect("the folder with the files of words");
    let sets = Sets {
        two: programs::random(SEED, 2, 1_000),
        three: programs::random(SEED, 3, 100),
        large: programs::from_file(&format!("{folder}/huge.words")),
        worked: programs::named_from_file(&format!("{folder}/worked.words")),
    };
    // not zeros, so that nobody is served by memory that happens to be clear
    let filled = |len| vec![0x5a5a_5a5a; len];
    let mut buffers = Buffers { out: filled(OUT), other_out: filled(OUT), work: filled(lent_for(MOST)) };
    if !HAVE_PROVED {
        println!("Built without the proved library: the twin alone.");
    }
    println!("Lent memory is not cleared between calls. Times are processor time, the quickest of several calls.");
    let parts: Vec<String> = std::env::args().skip(2).collect();
    let wanted = |part: &str| parts.is_empty() || parts.iter().any(|one| one == part);
    if wanted("answers") {
        answers(&sets, &mut buffers);
    }
    if wanted("exploration") {
        exploration(&sets, &mut buffers);
    }
    if wanted("growth") {
        growth(&mut buffers);
    }
    if wanted("worked") {
        worked(&sets, &mut buffers);
    }
    if wanted("lent") {
        lent_memory(&sets, &mut buffers);
    }
    if wanted("small") {
        four_mebibytes(&sets, &mut buffers);
    }
}
