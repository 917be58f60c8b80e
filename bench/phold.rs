// PHOLD: each message draws a target and a delay and sends one message on, so as many wait as there were at the start.
// The verified run, called through C, against three in plain Rust. All have the same memory and must end in the same state.

use std::collections::BinaryHeap;
use std::hint::black_box;
use std::process::exit;
use std::time::{Duration, Instant};

// The memory, as the verified library declares it.

#[derive(Clone, Copy, Default)]
#[repr(C)]
struct Message {
    time: u64,
    to: u32,
    from: u32,
    count: u64,
    number: u32,
}

#[derive(Clone, Copy, Default)]
#[repr(C)]
struct Line {
    time: u64,
    process: u32,
    number: u32,
}

#[derive(Clone, Copy, Default)]
#[repr(C)]
struct Process {
    kind: u32,
    width: u32,
    seed: u32,
    sent: u64,
}

#[derive(Clone, Copy, Default)]
#[repr(C)]
struct Progress {
    waiting: usize,
    said: usize,
}

unsafe extern "C" {
    // Returns the number of steps done.
    fn sequential_run(
        code: *const u32,
        code_len: usize,
        kinds: *const u32,
        kinds_len: usize,
        processes: *mut Process,
        processes_len: usize,
        vars: *mut u32,
        vars_len: usize,
        row: *mut Message,
        row_len: usize,
        sends: *mut Message,
        sends_len: usize,
        lines: *mut Line,
        lines_len: usize,
        progress: *mut Progress,
        end: u32,
        budget: u64,
    ) -> u64;
}

const WIDTH: usize = 64;
const ROUNDS: u32 = 1000;
const END: u32 = u32::MAX;

// The same design in plain Rust.

struct Event {
    it: u32,
    me: u32,
    clock: u32,
    processes: u32,
    sent: u64,
}

struct Tally {
    seed: u32,
    sends: u64,
    lines: u64,
}

fn word(words: &[u32], k: usize) -> u32 {
    words.get(k).copied().unwrap_or(0)
}

fn skip(words: &[u32], k: usize) -> &[u32] {
    &words[k.min(words.len())..]
}

fn place<T>(row: &mut [T], at: u64, x: T) {
    if let Some(slot) = row.get_mut(at as usize) {
        *slot = x;
    }
}

fn eval<'a>(code: &'a [u32], fuel: usize, event: &Event, vars: &[u32]) -> (u32, &'a [u32]) {
    if fuel == 0 {
        return (0, code);
    }
    let Some((&op, rest)) = code.split_first() else {
        return (0, code);
    };
    match op {
        0 => (word(rest, 0), skip(rest, 1)),
        1 => (word(vars, word(rest, 0) as usize), skip(rest, 1)),
        2 => (event.it, rest),
        3 => (event.me, rest),
        4 => (event.clock, rest),
        5..=11 => {
            let (a, rest) = eval(rest, fuel - 1, event, vars);
            let (b, rest) = eval(rest, fuel - 1, event, vars);
            let x = match op {
                5 => a.wrapping_add(b),
                6 => a.wrapping_sub(b),
                7 => a.wrapping_mul(b),
                8 => a.checked_div(b).unwrap_or(0),
                9 => a.checked_rem(b).unwrap_or(0),
                10 => (a < b) as u32,
                _ => (a == b) as u32,
            };
            (x, rest)
        }
        _ => (0, rest),
    }
}

fn next_seed(seed: u32) -> u32 {
    seed.wrapping_mul(1664525).wrapping_add(1013904223)
}

fn play(
    mut code: &[u32],
    mut fuel: usize,
    event: &Event,
    vars: &mut [u32],
    tally: &mut Tally,
    sends: &mut [Message],
    lines: &mut [Line],
) {
    while fuel > 0 {
        let Some((&op, rest)) = code.split_first() else {
            return;
        };
        fuel -= 1;
        match op {
            1 => {
                let (a, behind) = eval(skip(rest, 1), fuel, event, vars);
                place(vars, word(rest, 0) as u64, a);
                code = behind;
            }
            2 => {
                let (n, behind) = eval(skip(rest, 1), fuel, event, vars);
                tally.seed = next_seed(tally.seed);
                let drawn = (tally.seed >> 16).checked_rem(n).unwrap_or(0);
                place(vars, word(rest, 0) as u64, drawn);
                code = behind;
            }
            3 => {
                let (number, behind) = eval(rest, fuel, event, vars);
                let line = Line {
                    time: event.clock as u64,
                    process: event.me,
                    number,
                };
                place(lines, tally.lines, line);
                tally.lines = tally.lines.saturating_add(1);
                code = behind;
            }
            4 => {
                let (delay, behind) = eval(rest, fuel, event, vars);
                let (to, behind) = eval(behind, fuel, event, vars);
                let (number, behind) = eval(behind, fuel, event, vars);
                if to < event.processes {
                    let message = Message {
                        time: event.clock as u64 + delay.max(1) as u64,
                        to,
                        from: event.me,
                        count: event.sent.saturating_add(tally.sends),
                        number,
                    };
                    place(sends, tally.sends, message);
                    tally.sends = tally.sends.saturating_add(1);
                }
                code = behind;
            }
            5 => {
                let (x, then) = eval(skip(rest, 2), fuel, event, vars);
                let otherwise = skip(then, word(rest, 0) as usize);
                let chosen = if x == 0 { otherwise } else { then };
                play(chosen, fuel, event, vars, tally, sends, lines);
                code = skip(otherwise, word(rest, 1) as usize);
            }
            6 => {
                let (x, body) = eval(skip(rest, 1), fuel, event, vars);
                for _ in 0..x.min(ROUNDS) {
                    play(body, fuel, event, vars, tally, sends, lines);
                }
                code = skip(body, word(rest, 0) as usize);
            }
            _ => return,
        }
    }
}

// How many messages and lines there would be: played on a copy and with no places.
fn measure(code: &[u32], event: &Event, seed: u32, vars: &[u32]) -> Tally {
    let mut copy = [0; WIDTH];
    let part = &mut copy[..vars.len()];
    part.copy_from_slice(vars);
    let mut tally = Tally {
        seed,
        sends: 0,
        lines: 0,
    };
    play(code, code.len(), event, part, &mut tally, &mut [], &mut []);
    tally
}

// How many messages and lines there were, or nothing where there is no room for them. With COUNTING a first pass asks for that
// before anything changes; without, it comes out after the fact.
fn handle<const COUNTING: bool>(
    code: &[u32],
    processes: u32,
    process: &mut Process,
    vars: &mut [u32],
    m: &Message,
    sends: &mut [Message],
    lines: &mut [Line],
) -> Option<(usize, usize)> {
    let event = Event {
        it: m.number,
        me: m.to,
        clock: m.time as u32,
        processes,
        sent: process.sent,
    };
    let (most_sends, most_lines) = (sends.len() as u64, lines.len() as u64);
    let fits = |t: &Tally| {
        t.sends <= most_sends && t.lines <= most_lines && t.sends <= u64::MAX - event.sent
    };
    if COUNTING && !fits(&measure(code, &event, process.seed, vars)) {
        return None;
    }
    let mut tally = Tally {
        seed: process.seed,
        sends: 0,
        lines: 0,
    };
    play(code, code.len(), &event, vars, &mut tally, sends, lines);
    if !COUNTING && !fits(&tally) {
        return None;
    }
    process.seed = tally.seed;
    process.sent += tally.sends;
    Some((tally.sends as usize, tally.lines as usize))
}

// The order of messages: by time, then to whom, then from whom, then count.
fn is_before(a: &Message, b: &Message) -> bool {
    if a.time != b.time {
        a.time < b.time
    } else if a.to != b.to {
        a.to < b.to
    } else if a.from != b.from {
        a.from < b.from
    } else {
        a.count < b.count
    }
}

// Where messages wait.
trait Waiting {
    fn first(&self) -> Option<Message>;
    fn places(&self) -> usize;
    fn take(&mut self);
    fn put(&mut self, m: Message);
}

// The first `len` places are in use, and the last in use is the first to be handled.
struct Row<'a> {
    row: &'a mut [Message],
    len: usize,
}

impl Waiting for Row<'_> {
    fn first(&self) -> Option<Message> {
        self.row[..self.len].last().copied()
    }

    fn places(&self) -> usize {
        self.row.len() - self.len
    }

    fn take(&mut self) {
        self.len -= 1;
    }

    fn put(&mut self, m: Message) {
        let row = &mut self.row[..=self.len];
        let mut at = self.len;
        while at > 0 {
            let other = row[at - 1];
            if is_before(&m, &other) {
                break;
            }
            row[at] = other;
            at -= 1;
        }
        row[at] = m;
        self.len += 1;
    }
}

// A message in the heap: the first to be handled is the greatest.
struct Heaped(Message);

impl Ord for Heaped {
    fn cmp(&self, other: &Heaped) -> std::cmp::Ordering {
        let key = |m: &Message| (m.time, m.to, m.from, m.count);
        key(&other.0).cmp(&key(&self.0))
    }
}

impl PartialOrd for Heaped {
    fn partial_cmp(&self, other: &Heaped) -> Option<std::cmp::Ordering> {
        Some(self.cmp(other))
    }
}

impl PartialEq for Heaped {
    fn eq(&self, other: &Heaped) -> bool {
        self.cmp(other).is_eq()
    }
}

impl Eq for Heaped {}

struct Heap {
    heap: BinaryHeap<Heaped>,
    most: usize,
}

impl Waiting for Heap {
    fn first(&self) -> Option<Message> {
        self.heap.peek().map(|x| x.0)
    }

    fn places(&self) -> usize {
        self.most - self.heap.len()
    }

    fn take(&mut self) {
        self.heap.pop();
    }

    fn put(&mut self, m: Message) {
        self.heap.push(Heaped(m));
    }
}

// The code of a kind.
fn code_of<'a>(code: &'a [u32], kinds: &[u32], kind: u32) -> &'a [u32] {
    match kinds.get(kind as usize) {
        Some(&at) => skip(code, at as usize),
        None => &[],
    }
}

// A run of at most budget steps; how many were done.
fn run<const COUNTING: bool, W: Waiting>(
    memory: &mut Memory,
    waiting: &mut W,
    end: u32,
    budget: u64,
) -> u64 {
    let Memory {
        code,
        kinds,
        processes,
        vars,
        sends,
        lines,
        progress,
        ..
    } = memory;
    let count = processes.len() as u32;
    for steps in 0..budget {
        let Some(m) = waiting.first() else {
            return steps;
        };
        if m.time >= end as u64 {
            return steps;
        }
        let k = m.to as usize;
        let Some(process) = processes.get_mut(k) else {
            return steps;
        };
        let from = k * WIDTH;
        let own = &mut vars[from..from + WIDTH.min(process.width as usize)];
        let places = waiting.places() + 1;
        let code = code_of(code, kinds, process.kind);
        let said = progress.said;
        let done = handle::<COUNTING>(
            code,
            count,
            process,
            own,
            &m,
            &mut sends[..places],
            &mut lines[said..],
        );
        let Some((sent, more)) = done else {
            return steps;
        };
        waiting.take();
        for x in &sends[..sent] {
            waiting.put(*x);
        }
        progress.said += more;
    }
    budget
}

// The model and its memory.

#[derive(Clone)]
struct Memory {
    code: Vec<u32>,
    kinds: Vec<u32>,
    processes: Vec<Process>,
    vars: Vec<u32>,
    row: Vec<Message>,
    sends: Vec<Message>,
    lines: Vec<Line>,
    progress: Progress,
}

// The start of PHOLD with so many processes and as many messages.
fn start(population: u32) -> Memory {
    #[rustfmt::skip]
    let code = vec![
        2, 0, 0, population, // a = draw population
        2, 1, 0, 100, // b = draw 100
        4, 5, 1, 1, 0, 1, 1, 0, 2, // send it to a after (b + 1)
        0,
    ];
    let processes = (0..population)
        .map(|k| Process {
            kind: 0,
            width: 2,
            seed: next_seed(next_seed(k + 1)),
            sent: 0,
        })
        .collect();
    let mut row: Vec<Message> = (0..population)
        .map(|k| Message {
            time: k as u64 * 7919 % 100,
            to: k,
            from: population,
            count: k as u64,
            number: k,
        })
        .collect();
    row.sort_by_key(|m| std::cmp::Reverse((m.time, m.to, m.from, m.count)));
    let waiting = row.len();
    row.resize(waiting + 64, Message::default());
    Memory {
        code,
        kinds: vec![0],
        processes,
        vars: vec![0; population as usize * WIDTH],
        sends: row.clone(),
        row,
        lines: vec![Line::default(); 64],
        progress: Progress { waiting, said: 0 },
    }
}

fn mixed(words: &[u64]) -> u64 {
    words.iter().fold(0x9e3779b97f4a7c15, |h, &w| {
        let x = (h ^ w).wrapping_mul(0xbf58476d1ce4e5b9);
        x ^ (x >> 29)
    })
}

// A sum over all processes, variables and waiting messages, the latter in any order.
fn checksum(memory: &Memory, waiting: &[Message], steps: u64) -> u64 {
    let processes = memory
        .processes
        .iter()
        .enumerate()
        .map(|(k, p)| mixed(&[1, k as u64, p.seed as u64, p.sent]));
    let vars = memory
        .vars
        .iter()
        .enumerate()
        .map(|(k, &x)| mixed(&[2, k as u64, x as u64]));
    let waiting = waiting.iter().map(|m| {
        mixed(&[
            3,
            m.time,
            m.to as u64,
            m.from as u64,
            m.count,
            m.number as u64,
        ])
    });
    let rest = mixed(&[
        4,
        steps,
        memory.progress.waiting as u64,
        memory.progress.said as u64,
    ]);
    processes
        .chain(vars)
        .chain(waiting)
        .fold(rest, u64::wrapping_add)
}

// The contenders: each runs from the start that it is given, and says how long it took and what it ended in.

type Contender = fn(Memory, u64) -> (Duration, u64);

fn verified(mut memory: Memory, budget: u64) -> (Duration, u64) {
    let Memory {
        code,
        kinds,
        processes,
        vars,
        row,
        sends,
        lines,
        progress,
    } = &mut memory;
    let begun = Instant::now();
    // SAFETY: each pointer comes with the length of its own vector, and the layouts are those of the library.
    let steps = unsafe {
        sequential_run(
            code.as_ptr(),
            code.len(),
            kinds.as_ptr(),
            kinds.len(),
            processes.as_mut_ptr(),
            processes.len(),
            vars.as_mut_ptr(),
            vars.len(),
            row.as_mut_ptr(),
            row.len(),
            sends.as_mut_ptr(),
            sends.len(),
            lines.as_mut_ptr(),
            lines.len(),
            progress,
            END,
            budget,
        )
    };
    let took = begun.elapsed();
    (
        took,
        checksum(&memory, &memory.row[..memory.progress.waiting], steps),
    )
}

fn with_row<const COUNTING: bool>(mut memory: Memory, budget: u64) -> (Duration, u64) {
    let mut places = std::mem::take(&mut memory.row);
    let begun = Instant::now();
    let mut row = Row {
        row: &mut places,
        len: memory.progress.waiting,
    };
    let steps = run::<COUNTING, _>(&mut memory, &mut row, END, budget);
    memory.progress.waiting = row.len;
    let took = begun.elapsed();
    (
        took,
        checksum(&memory, &places[..memory.progress.waiting], steps),
    )
}

fn with_heap(mut memory: Memory, budget: u64) -> (Duration, u64) {
    let waiting = memory.row[..memory.progress.waiting]
        .iter()
        .map(|m| Heaped(*m))
        .collect();
    let mut heap = Heap {
        heap: waiting,
        most: memory.row.len(),
    };
    let begun = Instant::now();
    let steps = run::<false, _>(&mut memory, &mut heap, END, budget);
    memory.progress.waiting = heap.heap.len();
    let took = begun.elapsed();
    let left: Vec<Message> = heap.heap.into_iter().map(|x| x.0).collect();
    (took, checksum(&memory, &left, steps))
}

const CONTENDERS: [(&str, Contender); 4] = [
    ("verified", verified),
    ("same design", with_row::<true>),
    ("no counting pass", with_row::<false>),
    ("heap, no counting pass", with_heap),
];

// The messages put in during a run, in their order: one at each step.
fn puts(mut memory: Memory, budget: u64) -> Vec<Message> {
    let mut places = std::mem::take(&mut memory.row);
    let mut row = Row {
        row: &mut places,
        len: memory.progress.waiting,
    };
    (0..budget)
        .map(|_| {
            assert_eq!(run::<false, _>(&mut memory, &mut row, END, 1), 1);
            memory.sends[0]
        })
        .collect()
}

// How long it takes to take the first out of the row and put the next one in, for each of these.
fn replay(mut places: Vec<Message>, len: usize, puts: &[Message]) -> Duration {
    let begun = Instant::now();
    let mut row = Row {
        row: &mut places,
        len,
    };
    for m in puts {
        row.take();
        row.put(*m);
    }
    let took = begun.elapsed();
    black_box(&places);
    took
}

const RUNS: usize = 3;

fn measured(population: u32, budget: u64) {
    let memory = start(population);
    let puts = puts(memory.clone(), budget);
    let mut best = [Duration::MAX; CONTENDERS.len()];
    let mut inserting = Duration::MAX;
    let mut expected = None;
    for _ in 0..RUNS {
        for ((name, contender), best) in CONTENDERS.iter().zip(&mut best) {
            let (took, sum) = contender(memory.clone(), budget);
            if *expected.get_or_insert(sum) != sum {
                eprintln!("phold: {name} ends in another state at {population}");
                exit(1);
            }
            *best = took.min(*best);
        }
        inserting = replay(memory.row.clone(), memory.progress.waiting, &puts).min(inserting);
    }
    let each = |d: Duration| d.as_nanos() as f64 / budget as f64;
    print!("| {population} | {budget} |");
    for took in best {
        print!(" {:.1} |", each(took));
    }
    let ratio = |k: usize| best[k].as_secs_f64() / best[0].as_secs_f64();
    print!(" {:.2} | {:.2} | {:.3} |", ratio(1), ratio(2), ratio(3));
    println!(
        " {:.1} | {:.0} % |",
        each(inserting),
        100.0 * inserting.as_secs_f64() / best[0].as_secs_f64()
    );
}

const SIZES: [(u32, u64); 3] = [(1_000, 2_000_000), (10_000, 200_000), (65_000, 50_000)];

fn main() {
    println!(
        "ns for each message handled, the best of {RUNS} runs; speed: the time of the other over that of the verified run."
    );
    println!("insertion: the same puts in plain Rust, and their share of the verified run's time.");
    println!();
    print!("| waiting | handled |");
    for (name, _) in CONTENDERS {
        print!(" {name} |");
    }
    println!(" speed to same design | to no counting pass | to heap | insertion | share |");
    println!("|{}", "--:|".repeat(CONTENDERS.len() + 7));
    for (population, budget) in SIZES {
        measured(population, budget);
    }
}
