//! Writes a trace of this program, which dreplay reads: rustc -O writer.rs && ./writer run.csv
use std::fs::File;
use std::io::{BufWriter, Result, Write};
use std::sync::atomic::{AtomicU32, Ordering};
use std::sync::Mutex;
use std::time::{SystemTime, UNIX_EPOCH};

const HEADER: &str = "number,cpu,thread,pid,execname,time,provider,module,function,name,\
    arg0,arg1,arg2,arg3,arg4,arg5,arg6,arg7,arg8,arg9";
static THREADS: AtomicU32 = AtomicU32::new(1);
thread_local!(static THREAD: u32 = THREADS.fetch_add(1, Ordering::Relaxed));

/// A trace that is written: the file, and how many rows it has.
struct Trace(Mutex<(BufWriter<File>, u64)>);

impl Trace {
    fn create(path: &str) -> Result<Trace> {
        let mut file = BufWriter::new(File::create(path)?);
        writeln!(file, "{HEADER}")?;
        Ok(Trace(Mutex::new((file, 0))))
    }

    /// Writes a firing of app:module:function:name with one argument. Names have no comma and no
    /// quote.
    fn fire(&self, module: &str, function: &str, name: &str, arg0: i64) -> Result<()> {
        let (thread, process) = (THREAD.with(|own| *own), std::process::id());
        let mut guard = self.0.lock().unwrap(); // numbers rise in the file, and times with them
        let (file, number) = &mut *guard;
        *number += 1;
        let time = SystemTime::now().duration_since(UNIX_EPOCH).unwrap().as_nanos();
        write!(file, "{number},0,{thread},{process},shop,{time},app,{module},{function},{name},")?;
        writeln!(file, "{arg0},,,,,,,,,")
    }
}

fn work(trace: &Trace, calls: i64) -> Result<()> {
    for call in 0..calls {
        trace.fire("orders", "submit", "entry", call % 512)?;
        trace.fire("orders", "submit", "return", if call % 100 == 0 { -1 } else { 0 })?;
    }
    Ok(())
}

fn main() -> Result<()> {
    let words: Vec<String> = std::env::args().collect();
    let calls = words.get(2).map_or(1000, |word| word.parse().expect("a number of calls"));
    let trace = Trace::create(&words[1])?;
    std::thread::scope(|scope| {
        let threads: Vec<_> = (0..4).map(|_| scope.spawn(|| work(&trace, calls))).collect();
        threads.into_iter().try_for_each(|thread| thread.join().unwrap())
    })?;
    trace.0.into_inner().unwrap().0.flush()
}
