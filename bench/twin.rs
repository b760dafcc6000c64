// The benchmark's yardstick: the method of the proved library in ordinary, safe, unproved Rust.
// Here: words to program, packed states, exploration with one table and kept successors, the marks of what is reached
// at once, the fewest fences by clauses learnt from bad runs with the fewest hits, and the list of all outcomes.
// Not here: which programs are looked at and what is timed (programs.rs, driver.rs).
//
// Memory is lent, as it is to the proved library, so that neither pays for pages the other gets for nothing. None of
// it is cleared beforehand, and no more of it is touched than the states found need.

use std::time::Duration;

/// What `look` says. `Fences` carries how many moves and how many fences stand in `out`.
#[derive(Clone, Copy, PartialEq, Eq, Debug)]
pub enum Answer {
    Plain,
    Fences { moves: usize, fences: usize },
    Crowded,
    OutFull,
    NoProgram,
    Few,
}

/// What `outcomes` says. `Listed` carries how many outcomes stand in `out`.
#[derive(Clone, Copy, PartialEq, Eq, Debug)]
pub enum Listing {
    Listed { outcomes: usize },
    Crowded,
    OutFull,
    NoProgram,
    Few,
}

/// How a call is made: the table, and the clock that the caller measures with.
#[derive(Clone, Copy)]
pub struct How {
    pub table: Table,
    pub clock: fn() -> Duration,
}

/// Which states the table of the exploration knows.
#[derive(Clone, Copy, PartialEq, Eq, Debug)]
pub enum Table {
    /// All states found: the plain method, which asks nothing of the machine.
    AllStates,
    /// Only the states with as many moves behind them as the one being added. Every move adds one to the sum of all
    /// pcs and of all stores gone, so states found earlier can't be the same; their slots count as free, with no
    /// clearing. The part of the table and of the states in use is then small enough for the processor's caches.
    OneLevel,
}

/// What a call did, and how long it took.
#[derive(Clone, Copy, Default, Debug)]
pub struct Counters {
    pub states: usize,
    pub edges: usize,
    pub looks: usize,
    pub exploring: Duration,
    pub rest: Duration,
}

// ---------------------------------------------------------------------------------------------------------------
// Programs

#[derive(Clone, Copy)]
enum Instruction {
    Set(u32, u32),
    Add(u32, u32, u32),
    Load(u32, u32),
    Store(u32, u32),
    Fence,
    /// Behind a thread's last instruction, so that a pc always has something to stand on.
    End,
}

struct Program {
    threads: usize,
    code: [[Instruction; 9]; 4],
}

fn instruction(words: &[u32]) -> Option<Instruction> {
    match *words {
        [0, r, n, 0] if r < 4 && n < 16 => Some(Instruction::Set(r, n)),
        [1, r, a, b] if r < 4 && a < 4 && b < 4 => Some(Instruction::Add(r, a, b)),
        [2, r, x, 0] if r < 4 && x < 8 => Some(Instruction::Load(r, x)),
        [3, x, r, 0] if x < 8 && r < 4 => Some(Instruction::Store(x, r)),
        [4, 0, 0, 0] => Some(Instruction::Fence),
        _ => None,
    }
}

fn program(words: &[u32]) -> Option<Program> {
    let (&threads, mut rest) = words.split_first()?;
    if !(1..=4).contains(&threads) {
        return None;
    }
    let threads = threads as usize;
    let mut code = [[Instruction::End; 9]; 4];
    for thread in code.iter_mut().take(threads) {
        let (&len, more) = rest.split_first()?;
        if len > 8 || more.len() < 4 * len as usize {
            return None;
        }
        let (these, more) = more.split_at(4 * len as usize);
        for (place, four) in thread.iter_mut().zip(these.chunks_exact(4)) {
            *place = instruction(four)?;
        }
        rest = more;
    }
    rest.is_empty().then_some(Program { threads, code })
}

// ---------------------------------------------------------------------------------------------------------------
// States
//
// A state of T threads is W = 1 + 3 T words: memory as eight nibbles; then for each thread its head (registers in the
// low 16 bits, pc in the next 4, number of waiting stores above), the values of its waiting stores and their places,
// the oldest lowest. Nibbles above the waiting stores are 0, so equal states are equal words.
// T, W and S = 2 T, the number of moves, are constants of each of the four copies the compiler makes.

const HEAD: usize = 1;
const VALUES: usize = 2;
const PLACES: usize = 3;

fn pc(head: u32) -> usize {
    (head >> 16 & 15) as usize
}

fn waiting(head: u32) -> u32 {
    head >> 20
}

fn nibble(word: u32, at: u32) -> u32 {
    word >> (4 * at) & 15
}

fn with_nibble(word: u32, at: u32, value: u32) -> u32 {
    word & !(15 << (4 * at)) | value << (4 * at)
}

/// What a thread reads at `place`: its own newest waiting store to it, else memory's.
fn read(memory: u32, head: u32, values: u32, places: u32, place: u32) -> u32 {
    let mut at = waiting(head);
    while at > 0 {
        at -= 1;
        if nibble(places, at) == place {
            return nibble(values, at);
        }
    }
    nibble(memory, place)
}

/// The state after thread t's next instruction; none at its end, or at a fence while a store of the thread waits.
#[inline(always)]
fn next<const W: usize>(p: &Program, s: &[u32; W], t: usize) -> Option<[u32; W]> {
    let head = s[3 * t + HEAD];
    let mut d = *s;
    let done = head + (1 << 16);
    match p.code[t][pc(head).min(8)] {
        Instruction::Set(r, n) => d[3 * t + HEAD] = with_nibble(done, r, n),
        Instruction::Add(r, a, b) => {
            d[3 * t + HEAD] = with_nibble(done, r, (nibble(head, a) + nibble(head, b)) & 15);
        }
        Instruction::Load(r, x) => {
            let value = read(s[0], head, s[3 * t + VALUES], s[3 * t + PLACES], x);
            d[3 * t + HEAD] = with_nibble(done, r, value);
        }
        Instruction::Store(x, r) => {
            let at = waiting(head);
            d[3 * t + HEAD] = done + (1 << 20);
            d[3 * t + VALUES] |= nibble(head, r) << (4 * at);
            d[3 * t + PLACES] |= x << (4 * at);
        }
        Instruction::Fence if waiting(head) == 0 => d[3 * t + HEAD] = done,
        Instruction::Fence | Instruction::End => return None,
    }
    Some(d)
}

/// The state after thread t's oldest waiting store has gone to memory; none if nothing waits.
#[inline(always)]
fn flush<const W: usize>(s: &[u32; W], t: usize) -> Option<[u32; W]> {
    let head = s[3 * t + HEAD];
    if waiting(head) == 0 {
        return None;
    }
    let mut d = *s;
    d[0] = with_nibble(s[0], nibble(s[3 * t + PLACES], 0), nibble(s[3 * t + VALUES], 0));
    d[3 * t + HEAD] = head - (1 << 20);
    d[3 * t + VALUES] >>= 4;
    d[3 * t + PLACES] >>= 4;
    Some(d)
}

// ---------------------------------------------------------------------------------------------------------------
// The table: open addressing, each slot 0 or a state's index + 1. It begins small and grows with the states, so that
// a small program clears little; it is never more than half full.

const FIRST_SLOTS: usize = 1024;

/// A sum of products with odd factors; its high half spreads well, and the products don't wait for each other.
#[inline(always)]
fn hash<const W: usize>(s: &[u32; W]) -> u32 {
    const FACTORS: [u64; 13] = [
        0x9e37_79b9_7f4a_7c15, 0xbf58_476d_1ce4_e5b9, 0x94d0_49bb_1331_11eb, 0xd6e8_feb8_6659_fd93,
        0xa076_1d64_78bd_642f, 0xe703_7ed1_a0b4_28db, 0x8ebc_6af0_9c88_c6e3, 0x5899_65cc_7537_4cc3,
        0x1d8e_4e27_c47d_124f, 0xeb44_acca_b455_d165, 0xc2b2_ae3d_27d4_eb4f, 0x1656_67b1_9e37_79f9,
        0x27d4_eb2f_1656_67c5,
    ];
    let mut sum = 0u64;
    for (&word, &factor) in s.iter().zip(&FACTORS) {
        sum = sum.wrapping_add(factor.wrapping_mul(u64::from(word)));
    }
    (sum >> 32) as u32
}

fn home(hash: u32, slots: usize) -> usize {
    (u64::from(hash) * slots as u64 >> 32) as usize
}

/// Are two states equal? Written out, since `==` of arrays becomes a call of memcmp.
#[inline(always)]
fn same<const W: usize>(a: &[u32; W], b: &[u32; W]) -> bool {
    a.iter().zip(b).fold(0, |differs, (x, y)| differs | (x ^ y)) == 0
}

// ---------------------------------------------------------------------------------------------------------------
// Exploration

/// The lent words, in parts: for each state that fits its words, its successors (index + 1, or 0; first each thread's
/// next instruction, then each thread's oldest store), a mark and a number of hits; and two slots of the table.
struct Parts<'a, const W: usize, const S: usize> {
    states: &'a mut [[u32; W]],
    successors: &'a mut [[u32; S]],
    marks: &'a mut [u32],
    least: &'a mut [u32],
    table: &'a mut [u32],
}

impl<'a, const W: usize, const S: usize> Parts<'a, W, S> {
    fn of(work: &'a mut [u32]) -> Self {
        let room = (work.len() / (W + S + 4)).min(u32::MAX as usize / 2);
        let (states, work) = work.split_at_mut(room * W);
        let (successors, work) = work.split_at_mut(room * S);
        let (marks, work) = work.split_at_mut(room);
        let (least, work) = work.split_at_mut(room);
        let (table, _) = work.split_at_mut(room * 2);
        Parts { states: states.as_chunks_mut().0, successors: successors.as_chunks_mut().0, marks, least, table }
    }
}

/// The states found so far and the table that knows them.
struct Found<'a, const W: usize> {
    states: &'a mut [[u32; W]],
    count: usize,
    table: &'a mut [u32],
    slots: usize,
    /// How many of the states, the first ones, the table has forgotten: slots with these are free.
    older: u32,
}

impl<const W: usize> Found<'_, W> {
    /// Makes the table eight times as large, or as large as it can be, and puts its states in again.
    #[cold]
    #[inline(never)]
    fn grow(&mut self) {
        self.slots = (self.slots * 8).min(self.table.len());
        let table = &mut self.table[..self.slots];
        table.fill(0);
        for (i, s) in self.states.iter().enumerate().take(self.count).skip(self.older as usize) {
            let mut at = home(hash(s), table.len());
            while table[at] != 0 {
                at += 1;
                if at == table.len() {
                    at = 0;
                }
            }
            table[at] = i as u32 + 1;
        }
    }

    /// The index + 1 of state d, which is added if it is new; none if there's no room for it.
    #[inline(always)]
    fn visit(&mut self, d: &[u32; W]) -> Option<u32> {
        let mut at = home(hash(d), self.slots);
        loop {
            let entry = self.table[at];
            if entry <= self.older {
                break;
            }
            if same(&self.states[entry as usize - 1], d) {
                return Some(entry);
            }
            at += 1;
            if at == self.slots {
                at = 0;
            }
        }
        *self.states.get_mut(self.count)? = *d;
        self.count += 1;
        self.table[at] = self.count as u32;
        if (self.count - self.older as usize) * 2 > self.slots {
            self.grow();
        }
        Some(self.count as u32)
    }
}

/// All states that runs come to, breadth first, and their successors: how many states and edges; none if there's no
/// room for all. Each move adds one to the sum of all pcs and of all stores gone, so a state's index is smaller than
/// its successors', and the finished states stand last.
fn explore<const T: usize, const W: usize, const S: usize>(
    p: &Program,
    parts: &mut Parts<W, S>,
    table: Table,
) -> Option<(usize, usize)> {
    let slots = FIRST_SLOTS.min(parts.table.len());
    parts.table[..slots].fill(0);
    let mut found = Found { states: parts.states, count: 0, table: parts.table, slots, older: 0 };
    let mut level_end = 0;
    found.visit(&[0; W])?;
    let mut edges = 0;
    let mut i = 0;
    while i < found.count {
        if i == level_end {
            level_end = found.count;
            if table == Table::OneLevel {
                found.older = level_end as u32;
            }
        }
        let s = found.states[i];
        let mut to = [0; S];
        for t in 0..T {
            if let Some(d) = next(p, &s, t) {
                to[t] = found.visit(&d)?;
                edges += 1;
            }
            if let Some(d) = flush(&s, t) {
                to[T + t] = found.visit(&d)?;
                edges += 1;
            }
        }
        parts.successors[i] = to;
        i += 1;
    }
    Some((found.count, edges))
}

// ---------------------------------------------------------------------------------------------------------------
// Marks

/// Marks the states reached at once: one pass, since successors stand behind.
fn mark_at_once<const T: usize, const W: usize, const S: usize>(
    p: &Program,
    states: &[[u32; W]],
    successors: &[[u32; S]],
    marks: &mut [u32],
) {
    marks.fill(0);
    marks[0] = 1;
    for i in 0..states.len() {
        if marks[i] == 0 {
            continue;
        }
        for t in 0..T {
            let mut to = successors[i][t];
            if to == 0 {
                continue;
            }
            if let Instruction::Store(..) = p.code[t][pc(states[i][3 * t + HEAD]).min(8)] {
                to = successors[to as usize - 1][T + t];
            }
            marks[to as usize - 1] = 1;
        }
    }
}

/// Where the finished states begin: they alone have no successor, and they stand last.
fn first_finished<const S: usize>(successors: &[[u32; S]]) -> usize {
    successors.iter().rposition(|to| *to != [0; S]).map_or(0, |last| last + 1)
}

// ---------------------------------------------------------------------------------------------------------------
// The fewest fences
//
// A fence before instruction k of thread t is bit 31 - (8 t + k), so that of two lists of one length the first is the
// greater number.

const NEVER: u32 = u32::MAX;

fn spot(t: usize, head: u32) -> u32 {
    0x8000_0000 >> (8 * t + pc(head))
}

struct Search<'a, const T: usize, const W: usize, const S: usize> {
    states: &'a [[u32; W]],
    successors: &'a [[u32; S]],
    /// Of the finished states: 1 where reached at once.
    marks: &'a [u32],
    finished: usize,
    /// From each state, the fewest hits of a way to a bad state under the guards last looked at.
    least: &'a mut [u32],
}

impl<const T: usize, const W: usize, const S: usize> Search<'_, T, W, S> {
    /// The hit that the next instruction of thread t would be in state i: its spot if something waits, else 0.
    #[inline(always)]
    fn hit(&self, i: usize, t: usize) -> u32 {
        let head = self.states[i][3 * t + HEAD];
        if waiting(head) == 0 { 0 } else { spot(t, head) }
    }

    /// Looks at the program under guards: can a bad state still be reached? One pass backwards.
    #[inline(never)]
    fn look(&mut self, guards: u32) -> bool {
        for i in self.finished..self.states.len() {
            self.least[i] = if self.marks[i] == 0 { 0 } else { NEVER };
        }
        for i in (0..self.finished).rev() {
            let mut best = NEVER;
            let to = &self.successors[i];
            for t in 0..T {
                if to[t] != 0 {
                    let hit = self.hit(i, t);
                    if hit & guards == 0 {
                        best = best.min(self.least[to[t] as usize - 1].saturating_add(u32::from(hit != 0)));
                    }
                }
                if to[T + t] != 0 {
                    best = best.min(self.least[to[T + t] as usize - 1]);
                }
            }
            self.least[i] = best;
        }
        self.least[0] != NEVER
    }

    /// A run with the fewest hits to a bad state, by what the last look left: its moves go to `run`, a thread's number
    /// for its instruction and 4 more for its store. How many moves, and the hits.
    fn run(&self, guards: u32, run: &mut [u32; 64]) -> (usize, u32) {
        let (mut i, mut moves, mut hits) = (0, 0, 0);
        'walk: while i < self.finished {
            for t in 0..T {
                let (next, out) = (self.successors[i][t] as usize, self.successors[i][T + t] as usize);
                let hit = self.hit(i, t);
                if out != 0 && self.least[out - 1] == self.least[i] {
                    run[moves] = 4 + t as u32;
                    i = out - 1;
                } else if next != 0
                    && hit & guards == 0
                    && self.least[next - 1].saturating_add(u32::from(hit != 0)) == self.least[i]
                {
                    run[moves] = t as u32;
                    hits |= hit;
                    i = next - 1;
                } else {
                    continue;
                }
                moves += 1;
                continue 'walk;
            }
            unreachable!("a way goes on");
        }
        (moves, hits)
    }
}

/// Clauses: sets of spots of which every working list has one. Any list of the fewest that meets all of them lies in
/// their union.
struct Clauses {
    all: Vec<u32>,
    union: u32,
}

impl Clauses {
    fn learn(&mut self, clause: u32) {
        self.all.push(clause);
        self.union |= clause;
    }

    /// The greatest mask of at most `bits` bits, not above x, within the union, that meets every clause.
    fn from(&self, mut x: u32, bits: u32) -> Option<u32> {
        loop {
            if x.count_ones() > bits {
                // all masks between these two have too many bits as well
                x &= x - 1;
            } else if let Some(clause) = self.all.iter().find(|&&clause| clause & x == 0) {
                // all masks that agree with x from the clause's lowest bit on miss it as well
                let low = clause.trailing_zeros();
                x = (x >> low << low).checked_sub(1)? & self.union;
            } else {
                return Some(x);
            }
        }
    }
}

/// The fewest fences and first among those, and a bad run; if there is a bad state. How many moves `run` holds, the
/// fences, how many looks it took.
fn fewest<const T: usize, const W: usize, const S: usize>(
    mut search: Search<T, W, S>,
    run: &mut [u32; 64],
) -> (usize, u32, usize) {
    let mut looks = 1;
    search.look(0);
    let (moves, hits) = search.run(0, run);
    let mut clauses = Clauses { all: Vec::new(), union: 0 };
    clauses.learn(hits);
    let mut bits = 1;
    let mut x = clauses.union;
    loop {
        // what stands above x is settled for this length, whatever is learnt later
        let Some(fences) = clauses.from(x, bits) else {
            bits += 1;
            x = clauses.union;
            continue;
        };
        looks += 1;
        if !search.look(fences) {
            return (moves, fences, looks);
        }
        let (_, hits) = search.run(fences, &mut [0; 64]);
        clauses.learn(hits);
        let low = hits.trailing_zeros();
        x = (fences >> low << low).wrapping_sub(1) & clauses.union;
        if fences >> low == 0 {
            bits += 1;
            x = clauses.union;
        }
    }
}

// ---------------------------------------------------------------------------------------------------------------
// The calls

fn few(most: u32, work: &[u32]) -> bool {
    (work.len() as u64) < 65_536 + 128 * (u64::from(most) + 1)
}

/// Is the program plain, and if not, which are the fewest fences, and a run that shows it.
pub fn look(words: &[u32], most: u32, out: &mut [u32], work: &mut [u32], how: How) -> (Answer, Counters) {
    if few(most, work) {
        return (Answer::Few, Counters::default());
    }
    let Some(p) = program(words) else {
        return (Answer::NoProgram, Counters::default());
    };
    match p.threads {
        1 => look_at::<1, 4, 2>(&p, out, work, how),
        2 => look_at::<2, 7, 4>(&p, out, work, how),
        3 => look_at::<3, 10, 6>(&p, out, work, how),
        _ => look_at::<4, 13, 8>(&p, out, work, how),
    }
}

fn look_at<const T: usize, const W: usize, const S: usize>(
    p: &Program,
    out: &mut [u32],
    work: &mut [u32],
    how: How,
) -> (Answer, Counters) {
    let mut counters = Counters::default();
    let begin = (how.clock)();
    let mut parts = Parts::<W, S>::of(work);
    let explored = explore::<T, W, S>(p, &mut parts, how.table);
    counters.exploring = (how.clock)() - begin;
    let Some((count, edges)) = explored else {
        return (Answer::Crowded, counters);
    };
    counters.states = count;
    counters.edges = edges;
    let begin = (how.clock)();
    let answer = fences_of::<T, W, S>(p, parts, count, out, &mut counters.looks);
    counters.rest = (how.clock)() - begin;
    (answer, counters)
}

fn fences_of<const T: usize, const W: usize, const S: usize>(
    p: &Program,
    parts: Parts<W, S>,
    count: usize,
    out: &mut [u32],
    looks: &mut usize,
) -> Answer {
    let states = &parts.states[..count];
    let successors = &parts.successors[..count];
    let marks = &mut parts.marks[..count];
    mark_at_once::<T, W, S>(p, states, successors, marks);
    let finished = first_finished(successors);
    if marks[finished..].iter().all(|&mark| mark != 0) {
        return Answer::Plain;
    }
    if out.len() < 256 {
        return Answer::OutFull;
    }
    let least = &mut parts.least[..count];
    let mut run = [0; 64];
    let (moves, mut mask, looked) =
        fewest(Search::<T, W, S> { states, successors, marks, finished, least }, &mut run);
    *looks = looked;
    out[..moves].copy_from_slice(&run[..moves]);
    let fences = mask.count_ones() as usize;
    for pair in out[moves..].chunks_exact_mut(2).take(fences) {
        let first = mask.leading_zeros();
        pair[0] = first / 8;
        pair[1] = first % 8;
        mask &= !(0x8000_0000 >> first);
    }
    Answer::Fences { moves, fences }
}

/// Lists all outcomes: for each whether it comes out at once (1) or only where stores wait (0), each thread's
/// registers as four nibbles, and memory as eight.
pub fn outcomes(words: &[u32], most: u32, out: &mut [u32], work: &mut [u32], how: How) -> (Listing, Counters) {
    if few(most, work) {
        return (Listing::Few, Counters::default());
    }
    let Some(p) = program(words) else {
        return (Listing::NoProgram, Counters::default());
    };
    match p.threads {
        1 => outcomes_of::<1, 4, 2>(&p, out, work, how),
        2 => outcomes_of::<2, 7, 4>(&p, out, work, how),
        3 => outcomes_of::<3, 10, 6>(&p, out, work, how),
        _ => outcomes_of::<4, 13, 8>(&p, out, work, how),
    }
}

fn outcomes_of<const T: usize, const W: usize, const S: usize>(
    p: &Program,
    out: &mut [u32],
    work: &mut [u32],
    how: How,
) -> (Listing, Counters) {
    let mut counters = Counters::default();
    let begin = (how.clock)();
    let mut parts = Parts::<W, S>::of(work);
    let explored = explore::<T, W, S>(p, &mut parts, how.table);
    counters.exploring = (how.clock)() - begin;
    let Some((count, edges)) = explored else {
        return (Listing::Crowded, counters);
    };
    counters.states = count;
    counters.edges = edges;
    let begin = (how.clock)();
    let states = &parts.states[..count];
    let successors = &parts.successors[..count];
    let marks = &mut parts.marks[..count];
    mark_at_once::<T, W, S>(p, states, successors, marks);
    let finished = first_finished(successors);
    let size = T + 2;
    if out.len() / size < count - finished {
        counters.rest = (how.clock)() - begin;
        return (Listing::OutFull, counters);
    }
    for ((s, &mark), row) in states.iter().zip(marks.iter()).skip(finished).zip(out.chunks_exact_mut(size)) {
        row[0] = mark;
        for t in 0..T {
            row[1 + t] = s[3 * t + HEAD] & 0xffff;
        }
        row[1 + T] = s[0];
    }
    counters.rest = (how.clock)() - begin;
    (Listing::Listed { outcomes: count - finished }, counters)
}
