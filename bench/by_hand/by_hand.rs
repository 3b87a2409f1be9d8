//! What a careful programmer writes who has one question, no language for it, and cares for speed:
//! one thread, std alone, only the columns that the question needs, a hasher of two instructions a
//! word, and no check of any row. It prints the lines that mawk prints.
//!
//! usage: by_hand reading|counts|latency|heavy|dense < TRACE
use std::collections::HashMap;
use std::error::Error;
use std::hash::{BuildHasherDefault, Hash, Hasher};
use std::io::{self, BufWriter, Read, Write};

/// Calls that took this long, in nanoseconds, are in the last step.
const LONG: u64 = 1_000_000;
const STEP: u64 = 50_000;
const STEPS: usize = (LONG / STEP) as usize + 1;

/// Hashes by a multiplication a word.
#[derive(Default)]
struct Multiplying(u64);

impl Hasher for Multiplying {
    fn finish(&self) -> u64 {
        self.0 ^ (self.0 >> 29)
    }

    fn write(&mut self, bytes: &[u8]) {
        for chunk in bytes.chunks(8) {
            let mut word = [0; 8];
            word[..chunk.len()].copy_from_slice(chunk);
            self.write_u64(u64::from_le_bytes(word));
        }
    }

    fn write_u64(&mut self, word: u64) {
        self.0 = (self.0.rotate_left(5) ^ word).wrapping_mul(0x517c_c1b7_2722_0a95);
    }

    fn write_usize(&mut self, word: usize) {
        self.write_u64(word as u64);
    }

    fn write_i64(&mut self, word: i64) {
        self.write_u64(word as u64);
    }
}

type Map<K, V> = HashMap<K, V, BuildHasherDefault<Multiplying>>;
type Name<'a> = &'a [u8];
type Pair<'a> = (Name<'a>, Name<'a>);

/// What the questions ask of a row. Names are lent from the bytes.
struct Firing<'a> {
    thread: u64,
    program: Name<'a>,
    timestamp: u64,
    provider: Name<'a>,
    function: Name<'a>,
    name: Name<'a>,
    descriptor: i64,
    size: i64,
}

/// The bytes of a trace that weren't read yet.
struct Rows<'a> {
    left: &'a [u8],
}

impl<'a> Rows<'a> {
    /// Reads up to a byte, and past it.
    #[inline(always)]
    fn up_to(&mut self, end: u8) -> Name<'a> {
        let left = self.left;
        let length = left
            .iter()
            .position(|byte| *byte == end)
            .unwrap_or(left.len());
        self.left = left.get(length + 1..).unwrap_or_default();
        &left[..length]
    }

    #[inline(always)]
    fn name(&mut self) -> Name<'a> {
        self.up_to(b',')
    }

    #[inline(always)]
    fn number(&mut self) -> u64 {
        let mut number = 0u64;
        while let [byte, left @ ..] = self.left {
            self.left = left;
            if *byte == b',' {
                break;
            }
            number = number.wrapping_mul(10).wrapping_add((byte - b'0').into());
        }
        number
    }

    #[inline(always)]
    fn signed(&mut self) -> i64 {
        match self.left {
            [b'-', left @ ..] => {
                self.left = left;
                (self.number() as i64).wrapping_neg()
            }
            _ => self.number() as i64,
        }
    }

    /// Reads a row, and its arguments if `ARGUMENTS` are asked for.
    #[inline(always)]
    fn next<const ARGUMENTS: bool>(&mut self) -> Option<Firing<'a>> {
        if self.left.is_empty() {
            return None;
        }
        let (_number, _processor) = (self.name(), self.name());
        let (thread, _process, program) = (self.number(), self.name(), self.name());
        let (timestamp, provider, _module) = (self.number(), self.name(), self.name());
        let (function, name) = (self.name(), self.name());
        let (mut descriptor, mut size) = (0, 0);
        if ARGUMENTS {
            descriptor = self.signed();
            self.name();
            size = self.signed();
        }
        self.up_to(b'\n');
        Some(Firing {
            thread,
            program,
            timestamp,
            provider,
            function,
            name,
            descriptor,
            size,
        })
    }

    /// Reads the arguments of system calls alone.
    #[inline(always)]
    fn next_call(&mut self) -> Option<Firing<'a>> {
        while let Some(firing) = self.next::<true>() {
            if firing.provider == b"syscall" {
                return Some(firing);
            }
        }
        None
    }
}

/// Counts by powers of two.
struct Powers([u64; 64]);

impl Default for Powers {
    fn default() -> Powers {
        Powers([0; 64])
    }
}

impl Powers {
    fn add(&mut self, took: u64) {
        self.0[took.checked_ilog2().unwrap_or(0) as usize] += 1;
    }
}

fn step_of(took: u64) -> usize {
    (took.min(LONG) / STEP) as usize
}

fn counts(mut rows: Rows, out: &mut impl Write) -> io::Result<()> {
    let mut counts = Map::<Name, u64>::default();
    counts.insert(b"dtrace", 2);
    while let Some(it) = rows.next::<false>() {
        *counts.entry(it.program).or_default() += 1;
    }
    print_numbers(&counts, out)
}

fn latency(mut rows: Rows, out: &mut impl Write) -> io::Result<()> {
    let mut entered = Map::<u64, u64>::default();
    let mut took_by = Map::<Name, (u64, Powers)>::default();
    while let Some(it) = rows.next::<false>() {
        if it.name == b"entry" {
            entered.insert(it.thread, it.timestamp);
        } else if it.name == b"return" {
            if let Some(start) = entered.remove(&it.thread) {
                let (total, spread) = took_by.entry(it.function).or_default();
                let took = it.timestamp.wrapping_sub(start);
                *total = total.wrapping_add(took);
                spread.add(took);
            }
        }
    }
    for (function, (total, spread)) in &took_by {
        print(function, out)?;
        writeln!(out, "{total}")?;
        print_powers(function, spread, out)?;
    }
    Ok(())
}

#[derive(Default)]
struct Heavy<'a> {
    calls: Map<Pair<'a>, (u64, i64)>,
    total: Map<Name<'a>, u64>,
    spread: Map<Name<'a>, [u64; STEPS]>,
}

impl<'a> Heavy<'a> {
    /// Takes the end of a call: how long it took, and how many bytes were asked for by then.
    fn end(&mut self, it: &Firing<'a>, took: u64, bytes: i64) {
        let call = (it.program, it.function);
        let (count, most) = self.calls.entry(call).or_insert((0, bytes));
        *count += 1;
        *most = bytes.max(*most);
        *self.total.entry(it.function).or_default() += took;
        self.spread.entry(it.program).or_default()[step_of(took)] += 1;
    }

    fn print(&self, out: &mut impl Write) -> io::Result<()> {
        for ((program, function), (count, most)) in &self.calls {
            print_pair(program, function, out)?;
            writeln!(out, "{count}")?;
            print_pair(program, function, out)?;
            writeln!(out, "bytes {most}")?;
        }
        print_numbers(&self.total, out)?;
        self.spread
            .iter()
            .try_for_each(|(program, steps)| print_steps(program, steps, out))
    }
}

fn heavy(mut rows: Rows, out: &mut impl Write) -> io::Result<()> {
    let mut found = Heavy::default();
    let (mut started, mut bytes) = (Map::default(), Map::<(u64, Name, Name), i64>::default());
    while let Some(it) = rows.next_call() {
        let sum = bytes.entry((it.thread, it.program, it.function));
        if it.name == b"entry" {
            started.insert((it.thread, it.function), it.timestamp);
            *sum.or_default() += it.size;
        } else if it.name == b"return" {
            if let Some(start) = started.remove(&(it.thread, it.function)) {
                let took = it.timestamp.wrapping_sub(start);
                found.end(&it, took, *sum.or_default());
                if took > LONG {
                    print_pair(it.program, it.function, out)?;
                    writeln!(out, "took {took}")?;
                }
            }
        }
    }
    found.print(out)
}

#[derive(Default)]
struct Dense<'a> {
    calls: Map<Pair<'a>, u64>,
    uses: Map<i64, u64>,
    bytes: Map<Name<'a>, i64>,
    largest: Map<(Name<'a>, i64), i64>,
    mean: Map<Name<'a>, (u64, u64)>,
    spread: Map<Name<'a>, Powers>,
    steps: Map<Name<'a>, [u64; STEPS]>,
}

impl<'a> Dense<'a> {
    /// Takes the end of a call that took so long.
    fn end(&mut self, it: &Firing<'a>, took: u64) {
        let (total, count) = self.mean.entry(it.function).or_default();
        *total += took;
        *count += 1;
        self.spread.entry(it.program).or_default().add(took);
        self.steps.entry(it.function).or_default()[step_of(took)] += 1;
    }

    fn print(&self, out: &mut impl Write) -> io::Result<()> {
        for ((program, function), count) in &self.calls {
            print_pair(program, function, out)?;
            writeln!(out, "{count}")?;
        }
        for (descriptor, most) in &self.uses {
            writeln!(out, "{descriptor} {most}")?;
        }
        print_numbers(&self.bytes, out)?;
        for ((program, descriptor), most) in &self.largest {
            print(program, out)?;
            writeln!(out, "{descriptor} {most}")?;
        }
        for (function, (total, count)) in &self.mean {
            print(function, out)?;
            writeln!(out, "{}", total / count)?;
        }
        for (program, spread) in &self.spread {
            print_powers(program, spread, out)?;
        }
        self.steps
            .iter()
            .try_for_each(|(function, steps)| print_steps(function, steps, out))
    }
}

fn dense(mut rows: Rows, out: &mut impl Write) -> io::Result<()> {
    let mut found = Dense::default();
    let (mut started, mut uses) = (Map::default(), Map::<(u64, i64), u64>::default());
    let mut bytes = Map::<(u64, Name), i64>::default();
    while let Some(it) = rows.next_call() {
        if it.name == b"entry" {
            started.insert((it.thread, it.function), it.timestamp);
            *found.calls.entry((it.program, it.function)).or_default() += 1;
            let used = uses.entry((it.thread, it.descriptor)).or_default();
            *used += 1;
            raise(&mut found.uses, it.descriptor, *used);
            if it.size > 4096 {
                let sum = bytes.entry((it.thread, it.function)).or_default();
                *sum += it.size;
                *found.bytes.entry(it.program).or_default() += it.size;
                raise(&mut found.largest, (it.program, it.descriptor), *sum);
            }
        } else if it.name == b"return" {
            if let Some(start) = started.remove(&(it.thread, it.function)) {
                found.end(&it, it.timestamp.wrapping_sub(start));
            }
        }
    }
    found.print(out)
}

/// Keeps the largest number of each key.
fn raise<K: Eq + Hash, V: Copy + Ord>(most: &mut Map<K, V>, key: K, number: V) {
    let there = most.entry(key).or_insert(number);
    *there = number.max(*there);
}

fn print(name: Name, out: &mut impl Write) -> io::Result<()> {
    out.write_all(name)?;
    out.write_all(b" ")
}

fn print_pair(first: Name, second: Name, out: &mut impl Write) -> io::Result<()> {
    print(first, out)?;
    print(second, out)
}

fn print_numbers<V: std::fmt::Display>(all: &Map<Name, V>, out: &mut impl Write) -> io::Result<()> {
    all.iter().try_for_each(|(name, number)| {
        print(name, out)?;
        writeln!(out, "{number}")
    })
}

fn print_powers(name: Name, spread: &Powers, out: &mut impl Write) -> io::Result<()> {
    let used = spread.0.iter().enumerate().filter(|(_, count)| **count > 0);
    for (log, count) in used {
        print(name, out)?;
        writeln!(out, "{} {count}", 1u64 << log)?;
    }
    Ok(())
}

fn print_steps(name: Name, steps: &[u64; STEPS], out: &mut impl Write) -> io::Result<()> {
    let used = steps.iter().enumerate().filter(|(_, count)| **count > 0);
    for (step, count) in used {
        print(name, out)?;
        match step as u64 * STEP {
            LONG => writeln!(out, ">= {LONG} {count}")?,
            low => writeln!(out, "{low} {count}")?,
        }
    }
    Ok(())
}

fn main() -> Result<(), Box<dyn Error>> {
    let mut trace = Vec::new();
    io::stdin().read_to_end(&mut trace)?;
    let mut rows = Rows { left: &trace };
    rows.up_to(b'\n');
    let mut out = BufWriter::new(io::stdout().lock());
    match std::env::args().nth(1).as_deref() {
        Some("reading") => {
            while rows.next::<false>().is_some() {}
            writeln!(out, "end 1")?
        }
        Some("counts") => counts(rows, &mut out)?,
        Some("latency") => latency(rows, &mut out)?,
        Some("heavy") => heavy(rows, &mut out)?,
        Some("dense") => dense(rows, &mut out)?,
        _ => return Err("usage: by_hand reading|counts|latency|heavy|dense < TRACE".into()),
    }
    Ok(out.flush()?)
}
