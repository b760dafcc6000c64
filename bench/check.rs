// Holds the twin's answers to the definition, on small random programs: every list of fences is put into the program as
// instructions, shortest first and in order, and the program with them is looked at; the first list with which it is
// plain must be the one the twin gave. This shares the exploration with the twin, but neither guards nor clauses.

#[allow(dead_code)]
mod programs;
#[allow(dead_code)]
mod twin;

use std::time::Duration;
use twin::{Answer, How, Table};

const MOST: u32 = 20_000;

/// A program's threads, each a list of instructions of four words.
type Threads = Vec<Vec<[u32; 4]>>;

/// The first lines of each thread.
fn cut(words: &[u32], lines: usize) -> Threads {
    let thread = |t: usize| words[2 + 33 * t..].chunks_exact(4).take(lines).map(|w| [w[0], w[1], w[2], w[3]]).collect();
    (0..words[0] as usize).map(thread).collect()
}

fn words_of(threads: &Threads) -> Vec<u32> {
    let mut words = vec![threads.len() as u32];
    for thread in threads {
        words.push(thread.len() as u32);
        words.extend(thread.concat());
    }
    words
}

/// The program with a fence before each spot. Spots are in order, so the last is put in first.
fn fenced(threads: &Threads, spots: &[(usize, usize)]) -> Threads {
    let mut threads = threads.clone();
    for &(t, k) in spots.iter().rev() {
        threads[t].insert(k, [4, 0, 0, 0]);
    }
    threads
}

struct Lent {
    out: Vec<u32>,
    work: Vec<u32>,
}

impl Lent {
    fn look(&mut self, threads: &Threads, table: Table) -> Answer {
        let how = How { table, clock: || Duration::ZERO };
        twin::look(&words_of(threads), MOST, &mut self.out, &mut self.work, how).0
    }
}

/// The first list of so many spots, all from `from` on, with which the program is plain.
fn first(
    lent: &mut Lent, threads: &Threads, all: &[(usize, usize)], from: usize, more: usize,
    chosen: &mut Vec<(usize, usize)>,
) -> bool {
    if more == 0 {
        let answer = lent.look(&fenced(threads, chosen), Table::AllStates);
        assert!(matches!(answer, Answer::Plain | Answer::Fences { .. }), "answered {answer:?}");
        return answer == Answer::Plain;
    }
    for next in from..all.len() {
        chosen.push(all[next]);
        if first(lent, threads, all, next + 1, more - 1, chosen) {
            return true;
        }
        chosen.pop();
    }
    false
}

fn main() {
    let mut lent = Lent { out: vec![7; 256], work: vec![7; 65_536 + 128 * (MOST as usize + 1)] };
    let (mut programs, mut not_plain) = (0, 0);
    for (threads, lines, count) in [(2, 5, 3_000), (3, 4, 1_000), (4, 3, 100)] {
        for words in programs::random(2, threads, count) {
            let program = cut(&words, lines);
            let all: Vec<(usize, usize)> =
                (0..program.len()).flat_map(|t| (0..program[t].len()).map(move |k| (t, k))).collect();
            let mut chosen = Vec::new();
            let mut more = 0;
            while !first(&mut lent, &program, &all, 0, more, &mut chosen) {
                more += 1;
            }
            for table in [Table::AllStates, Table::OneLevel] {
                let told: Vec<(usize, usize)> = match lent.look(&program, table) {
                    Answer::Plain => Vec::new(),
                    Answer::Fences { moves, fences } => {
                        let pairs = lent.out[moves..moves + 2 * fences].chunks_exact(2);
                        pairs.map(|pair| (pair[0] as usize, pair[1] as usize)).collect()
                    }
                    other => panic!("answered {other:?}"),
                };
                assert_eq!(told, chosen, "of the program {words:?} cut to {lines} lines");
            }
            programs += 1;
            not_plain += usize::from(more > 0);
        }
    }
    println!("The twin's fences are the fewest and first for {programs} programs, {not_plain} of them not plain.");
}
