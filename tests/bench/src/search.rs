//! The search of components, stepped through: how the Rust code is held to the proved calls, and what is timed. It has no naive program.
use crate::files::{dense, desk, followers, roster, Plan, Seed, ALL};
use crate::{fast, port, repeated, Turn};
use std::hint::black_box;
use std::process::exit;

extern "C" {
    fn founded_begin(file: *const u8, length: usize, sets: *mut u64, words: usize) -> u64;
    fn founded_step(sets: *mut u64, words: usize, variables: usize, k: usize) -> bool;
    fn founded_components(sets: *const u64, words: usize, variables: usize, buffer: *mut u8, room: usize) -> bool;
}

/// The three calls of one program.
struct Calls {
    begin: fn(&[u8], &mut [u64]) -> u64,
    step: fn(&mut [u64], usize, usize) -> bool,
    components: fn(&[u64], usize, &mut [u8]) -> bool,
}

/// Proved, fast, port.
static PROGRAMS: [Calls; 3] = [
    Calls {
        begin: |file, sets| unsafe { founded_begin(file.as_ptr(), file.len(), sets.as_mut_ptr(), sets.len()) },
        step: |sets, n, k| unsafe { founded_step(sets.as_mut_ptr(), sets.len(), n, k) },
        components: |sets, n, b| unsafe { founded_components(sets.as_ptr(), sets.len(), n, b.as_mut_ptr(), b.len()) },
    },
    Calls { begin: fast::begin_call, step: fast::step_call, components: fast::components_call },
    Calls { begin: port::begin_call, step: port::step_call, components: port::components_call },
];

/// The words of all sets.
const ALL_WORDS: usize = 4 * port::VARIABLES;

impl Calls {
    /// A search begun and every step of it; the answer is that of the beginning.
    fn search(&self, file: &[u8], sets: &mut [u64]) -> u64 {
        let answer = (self.begin)(file, sets);
        let n = begun(answer).unwrap_or(0);
        for k in 0..n {
            (self.step)(sets, n, k);
        }
        answer
    }
}

/// How many variables a search that is begun has.
fn begun(answer: u64) -> Option<usize> {
    (answer & 0xFF == 11).then_some((answer >> 8 & 0xFFFF) as usize)
}

/// What a call answers and leaves in a copy of these elements, of which all but so many at each end are lent.
fn lent<T: Copy, A>(from: &[T], guard: usize, call: impl Fn(&mut [T]) -> A) -> (A, Vec<T>) {
    let mut all = from.to_vec();
    let end = all.len() - guard;
    let answer = call(&mut all[guard..end]);
    (answer, all)
}

/// Whether the fast and the ported program do what the proved one does.
fn agree<A: PartialEq>(seen: impl Fn(&Calls) -> A) -> bool {
    let want = seen(&PROGRAMS[0]);
    PROGRAMS[1..].iter().all(|calls| seen(calls) == want)
}

const GUARD: usize = 8;
const FILL: u64 = 0xA5A5_A5A5_A5A5_A5A5;

/// A search begun on this file with so many words lent, then all its steps, and the components read off.
fn same_search(file: &[u8], words: usize) -> bool {
    let around = vec![FILL; words + 2 * GUARD];
    let names = vec![0xA5; port::VARIABLES + 2 * GUARD];
    agree(|calls| {
        let before = lent(&around, GUARD, |sets| (calls.begin)(file, sets));
        let (answer, after) = lent(&around, GUARD, |sets| calls.search(file, sets));
        let n = begun(answer).unwrap_or(0);
        let sets = &after[GUARD..after.len() - GUARD];
        let named = lent(&names, GUARD, |buffer| (calls.components)(sets, n, buffer));
        (before, answer, after, named)
    })
}

/// The same on as many words as the file's variables need, on one too few, on more, and on all that any file needs. It answers how many variables
/// have sets.
fn same_begun(file: &[u8]) -> Option<usize> {
    let need = 4 * begun((PROGRAMS[0].begin)(file, &mut [0; ALL_WORDS])).unwrap_or(0);
    let same = [need, need.saturating_sub(1), need + 5, ALL_WORDS].iter().all(|&words| same_search(file, words));
    same.then_some(need / 4)
}

/// Words of any bits, or of few, or of most.
fn drawn(s: &mut Seed, density: usize) -> u64 {
    let mut word = || (s.next(1 << 32) as u64) << 32 | s.next(1 << 32) as u64;
    match density {
        0 => word() & word() & word() & word(),
        1 => word(),
        2 => word() | word() | word(),
        3 => !0,
        _ => 0,
    }
}

/// A step and the components on sets that are those of no file, with lengths around those that are asked for.
fn same_sets(seed: u64) -> bool {
    let mut s = Seed(seed.wrapping_mul(0x9E37_79B9_7F4A_7C15) | 1);
    let n = [s.next(12), s.next(70), s.next(258), 256][s.next(4)];
    let density = s.next(5);
    let words = (4 * n + [0, 0, 0, 1, 7][s.next(5)]).saturating_sub([0, 0, 0, 1][s.next(4)]);
    let sets: Vec<u64> = (0..words + 2 * GUARD).map(|_| drawn(&mut s, density)).collect();
    let room = (n + [0, 0, 3][s.next(3)]).saturating_sub(s.next(8) / 7);
    let names = vec![0xA5; room + 2 * GUARD];
    let k = if s.next(8) == 0 { n + s.next(3) } else { s.next(n.max(1)) };
    let inside = &sets[GUARD..words + GUARD];
    agree(|calls| {
        let stepped = lent(&sets, GUARD, |sets| (calls.step)(sets, n, k));
        (stepped, lent(&names, GUARD, |buffer| (calls.components)(inside, n, buffer)))
    })
}

fn fail(what: &str) -> ! {
    println!("answers differ: {what}");
    exit(1);
}

/// The files of the seeds, the same with variables founded from above, and sets that are those of no file.
pub fn hold(first: u64, inputs: u64) {
    let (mut files, mut refused) = (0, 0);
    for seed in first..first + inputs {
        let input = second::gen::input(seed);
        let turned = crate::turned::turned(seed, &input.file, &input.assignment);
        for file in [&input.file, &turned.file] {
            let Some(n) = same_begun(file) else { fail(&format!("seed {seed}, a search")) };
            files += (n > 0) as u64;
            refused += (n > 0 && port::read_call(file) & 0xFFFFFF == 13 << 8 | 6) as u64;
        }
        if !same_sets(seed) {
            fail(&format!("seed {seed}, sets"));
        }
    }
    println!("So do begin, step and components on these inputs, of which {files} have sets, {refused} of these refused with 13, and on {inputs} seeded sets.");
}

/// Sets that no step changes.
pub struct Sets {
    name: String,
    variables: usize,
    words: Vec<u64>,
}

impl Sets {
    fn of(name: &str, variables: usize, has: impl Fn(usize, usize) -> bool) -> Sets {
        let mut words = vec![0; 4 * variables];
        for (x, y) in (0..variables).flat_map(|x| (0..variables).map(move |y| (x, y))) {
            words[4 * x + y / 64] |= u64::from(has(x, y)) << (y % 64);
        }
        Sets { name: name.to_string(), variables, words }
    }

    /// Each reaches those that come after it in an order of no pattern.
    fn line(name: &str, variables: usize) -> Sets {
        let mut s = Seed(0x5851_F42D_4C95_7F2D);
        let place: Vec<usize> = (0..variables).map(|_| s.next(1 << 40)).collect();
        Sets::of(name, variables, |x, y| place[x] < place[y])
    }
}

/// What a row of the table times: a search begun, a search begun with all its steps, one step and then the next, or the components.
pub enum Row {
    Begin(Plan),
    Search(Plan),
    Step(Sets),
    Components(Sets),
}

impl Row {
    /// The input's name and the call's.
    pub fn names(&self) -> (&str, &str) {
        match self {
            Row::Begin(p) => (&p.name, "begin"),
            Row::Search(p) => (&p.name, "search"),
            Row::Step(s) => (&s.name, "step"),
            Row::Components(s) => (&s.name, "components"),
        }
    }

    /// Whether the Rust code does on this row what the proved calls do.
    fn holds(&self) -> bool {
        match self {
            Row::Begin(p) | Row::Search(p) => same_begun(&p.file).is_some(),
            Row::Step(s) => (0..s.variables).all(|k| agree(|c| lent(&s.words, 0, |sets| (c.step)(sets, s.variables, k)))),
            Row::Components(s) => agree(|c| lent(&[0; port::VARIABLES], 0, |buffer| (c.components)(&s.words, s.variables, buffer))),
        }
    }

    fn turn(&self, calls: &'static Calls) -> Turn<'_> {
        let mut lent = vec![0; ALL_WORDS];
        match self {
            Row::Begin(p) => repeated(move || {
                black_box((calls.begin)(black_box(&p.file), black_box(&mut lent)));
            }),
            Row::Search(p) => repeated(move || {
                black_box(calls.search(black_box(&p.file), black_box(&mut lent)));
            }),
            Row::Step(s) => {
                lent = s.words.clone();
                let mut k = 0;
                repeated(move || {
                    black_box((calls.step)(black_box(&mut lent), s.variables, k));
                    k = (k + 1) % s.variables;
                })
            }
            Row::Components(s) => {
                let mut names = [0; port::VARIABLES];
                repeated(move || {
                    black_box((calls.components)(black_box(&s.words), s.variables, black_box(&mut names)));
                })
            }
        }
    }

    pub fn turns(&self) -> Vec<Turn<'_>> {
        PROGRAMS.iter().map(|calls| self.turn(calls)).collect()
    }
}

/// The rows, held to the proved calls.
pub fn rows() -> Vec<Row> {
    let mut rows = vec![
        Row::Begin(roster("small roster, forms 1 to 8", 16, 40, 4, 3, ALL)),
        Row::Begin(roster("week's desk, forms 1 to 8", 64, 300, 20, 4, ALL)),
        Row::Begin(desk("file at the limits, literals", 256, 1_180, 512, 9)),
        Row::Begin(roster("file at the limits, forms 1 to 8", 256, 1_350, 512, 9, ALL)),
    ];
    for n in [16, 64, 256] {
        rows.push(Row::Search(dense(&format!("dense circle of {n}"), n)));
    }
    for n in [16, 64, 256] {
        rows.push(Row::Search(followers(&format!("chain of {n}"), n, false)));
    }
    rows.extend([
        Row::Step(Sets::of("256 sets, all have k", 256, |_, _| true)),
        Row::Step(Sets::line("256 sets, half of them have k", 256)),
        Row::Step(Sets::of("256 sets, none has k", 256, |_, _| false)),
        Row::Components(Sets::of("256 variables, one component", 256, |_, _| true)),
        Row::Components(Sets::of("256 components, nothing reached", 256, |_, _| false)),
        Row::Components(Sets::line("256 components, half reached", 256)),
    ]);
    if let Some(row) = rows.iter().find(|row| !row.holds()) {
        fail(row.names().0);
    }
    rows
}
