// The benchmark's programs, as words: seeded random ones, the ones in files, and a family that grows.
// Not here: how they are looked at (twin.rs) and what is timed (driver.rs).

/// A named program as words. `expected` is what the answer is to be, where that is known beforehand.
pub struct Named {
    pub name: String,
    pub expected: Option<String>,
    pub words: Vec<u32>,
}

fn words_of(text: &str) -> Vec<u32> {
    text.split_whitespace().map(|word| word.parse().expect("a number")).collect()
}

/// A file of words alone.
pub fn from_file(path: &str) -> Vec<u32> {
    words_of(&std::fs::read_to_string(path).expect("the file of words"))
}

/// A file with a program a line: name; expected answer; words. Lines that begin with # are comments.
pub fn named_from_file(path: &str) -> Vec<Named> {
    let text = std::fs::read_to_string(path).expect("the file of programs");
    text.lines()
        .filter(|line| !line.starts_with('#') && !line.is_empty())
        .map(|line| {
            let mut parts = line.split(';');
            let mut part = || parts.next().expect("three parts").trim();
            Named { name: part().into(), expected: Some(part().into()), words: words_of(part()) }
        })
        .collect()
}

// ---------------------------------------------------------------------------------------------------------------
// Random programs

/// A sequence of numbers that follows from its seed alone (splitmix64).
pub struct Random(pub u64);

impl Random {
    /// A number below `end`.
    fn below(&mut self, end: u32) -> u32 {
        self.0 = self.0.wrapping_add(0x9e37_79b9_7f4a_7c15);
        let mut z = self.0;
        z = (z ^ z >> 30).wrapping_mul(0xbf58_476d_1ce4_e5b9);
        z = (z ^ z >> 27).wrapping_mul(0x94d0_49bb_1331_11eb);
        ((z ^ z >> 31) >> 32) as u32 % end
    }

    /// True so many times in a hundred.
    fn percent(&mut self, of_hundred: u32) -> bool {
        self.below(100) < of_hundred
    }
}

/// A thread of eight lines that begins with a number above 0 in register 0. Of the seven others a third store (register
/// 0 three times in four), a third load (into a register other than 0); of a hundred 14 set, 12 add and 8 are fences.
fn thread(random: &mut Random, places: u32, words: &mut Vec<u32>) {
    words.extend([8, 0, 0, 1 + random.below(15), 0]);
    for _ in 1..8 {
        let four = match random.below(100) {
            0..33 => {
                let place = random.below(places);
                let register = if random.percent(75) { 0 } else { random.below(4) };
                [3, place, register, 0]
            }
            33..66 => [2, 1 + random.below(3), random.below(places), 0],
            66..80 => [0, random.below(4), random.below(16), 0],
            80..92 => [1, random.below(4), random.below(4), random.below(4)],
            _ => [4, 0, 0, 0],
        };
        words.extend(four);
    }
}

/// A known shape, changed: each thread sets register 0, stores it to a place and loads the next thread's place, so that
/// together they are a ring; the lines up to the eighth come at random, each put in somewhere behind the first.
fn ring(random: &mut Random, threads: u32, places: u32, words: &mut Vec<u32>) {
    for t in 0..threads {
        let mut lines = vec![
            [0, 0, 1 + random.below(15), 0],
            [3, t % places, 0, 0],
            [2, 1 + random.below(3), (t + 1) % threads % places, 0],
        ];
        let mut more = Vec::new();
        thread(random, places, &mut more);
        for line in more[5..].chunks_exact(4).take(5) {
            let at = 1 + random.below(lines.len() as u32) as usize;
            lines.insert(at, [line[0], line[1], line[2], line[3]]);
        }
        words.push(8);
        words.extend(lines.concat());
    }
}

/// `count` programs of so many threads of eight lines each, over two or three places; every other one is a changed
/// ring.
pub fn random(seed: u64, threads: u32, count: usize) -> Vec<Vec<u32>> {
    let mut random = Random(seed);
    (0..count)
        .map(|k| {
            let places = 2 + random.below(2);
            let mut words = vec![threads];
            if k % 2 == 0 {
                for _ in 0..threads {
                    thread(&mut random, places, &mut words);
                }
            } else {
                ring(&mut random, threads, places, &mut words);
            }
            words
        })
        .collect()
}

// ---------------------------------------------------------------------------------------------------------------
// Growth

/// Three threads that store and load in turn, cut after so many lines each. The whole has one and a half million
/// states; it is the large program with each load into a register of its own.
pub fn cut(lines: [usize; 3]) -> Vec<u32> {
    const WHOLE: [[[u32; 4]; 8]; 3] = [
        [[0, 0, 1, 0], [3, 0, 0, 0], [2, 3, 0, 0], [3, 1, 0, 0], [2, 1, 1, 0], [3, 1, 0, 0], [2, 2, 2, 0], [3, 1, 0, 0]],
        [[0, 0, 2, 0], [3, 0, 0, 0], [2, 1, 1, 0], [3, 0, 0, 0], [2, 2, 1, 0], [3, 2, 0, 0], [2, 3, 2, 0], [3, 1, 0, 0]],
        [[0, 0, 3, 0], [3, 1, 0, 0], [2, 3, 0, 0], [3, 2, 0, 0], [2, 1, 1, 0], [3, 0, 0, 0], [2, 2, 0, 0], [3, 2, 0, 0]],
    ];
    let mut words = vec![3];
    for (thread, &len) in WHOLE.iter().zip(&lines) {
        words.push(len as u32);
        words.extend(thread[..len].concat());
    }
    words
}

/// Where the family is cut: from a thousand states to more than a million, each about three times the one before.
pub const CUTS: [[usize; 3]; 7] =
    [[3, 4, 4], [4, 4, 4], [5, 5, 5], [5, 6, 6], [6, 6, 7], [7, 7, 7], [8, 8, 8]];
