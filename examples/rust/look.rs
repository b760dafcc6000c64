// The library from Rust: the two threads that each write their own place and read the other's.
// Build and run it by `scripts/c-and-rust`.

/// What `fences_look` answers, as include/fences.h has it.
#[repr(C)]
struct Looked {
    kind: u32,
    moves: usize,
    fences: usize,
}

#[link(name = "capi", kind = "static")]
extern "C" {
    fn fences_look(
        words: *const u32, words_len: usize, most: u32,
        out: *mut u32, out_len: usize, work: *mut u32, work_len: usize,
    ) -> Looked;
}

enum Answer {
    Plain,
    Fences { run: Vec<u32>, fences: Vec<(u32, u32)> },
    Crowded,
    NoProgram,
}

/// Is the program that the words are plain, in at most so many states?
fn look(words: &[u32], most: u32) -> Answer {
    let mut out = vec![0; 256];
    let mut work = vec![0; 65_536 + 128 * (most as usize + 1)];
    // each pointer comes from a slice, with that slice's length, and the slices are apart
    let looked = unsafe {
        fences_look(
            words.as_ptr(), words.len(), most,
            out.as_mut_ptr(), out.len(), work.as_mut_ptr(), work.len(),
        )
    };
    match looked.kind {
        0 => Answer::Plain,
        1 => {
            let (run, rest) = out.split_at(looked.moves);
            let fences = rest.chunks_exact(2).take(looked.fences).map(|f| (f[0], f[1])).collect();
            Answer::Fences { run: run.to_vec(), fences }
        }
        2 => Answer::Crowded,
        4 => Answer::NoProgram,
        other => unreachable!("out and work are long enough, yet the answer is {other}"),
    }
}

fn print(name: &str, answer: Answer) {
    match answer {
        Answer::Plain => println!("{name}: plain"),
        Answer::Fences { run, fences } => println!("{name}: the run {run:?} shows what else comes out; fences {fences:?}"),
        Answer::Crowded => println!("{name}: crowded"),
        Answer::NoProgram => println!("{name}: no program"),
    }
}

/// Four threads that each store register 0 to places 0 to 7.
fn four_writers() -> Vec<u32> {
    let thread: Vec<u32> = [8].into_iter().chain((0..8).flat_map(|place| [3, place, 0, 0])).collect();
    [4].into_iter().chain(thread.repeat(4)).collect()
}

fn main() {
    let program = [
        2,
        3, 0, 0, 1, 0, 3, 0, 0, 0, 2, 1, 1, 0, // r0 = 1; [0] = r0; r1 = [1]
        3, 0, 0, 1, 0, 3, 1, 0, 0, 2, 1, 0, 0, // r0 = 1; [1] = r0; r1 = [0]
    ];
    print("store buffering", look(&program, 1000));
    print("its words but the first", look(&program[1..], 1000));
    print("four writers", look(&four_writers(), 2000));
    print("a thread of nothing", look(&[1, 0], 1));
    print("no words", look(&[], 1));
}
