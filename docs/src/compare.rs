//! Running programs on the cases of a run: what they print, and all cases on all processors.

use crate::program;
use std::io::{Read, Write};
use std::process::{Child, Stdio};
use std::sync::atomic::{AtomicUsize, Ordering};
use std::sync::mpsc::channel;
use std::time::{Duration, Instant};

/// How long a program may take, how often it is asked whether it ended, and how many bytes of each output are kept.
const PATIENCE: Duration = Duration::from_secs(20);
const PAUSE: Duration = Duration::from_millis(1);
const MOST_PRINTED: u64 = 1_000_000;
/// What is shown in place of the outputs where there are none.
pub const NO_END: &str = "(it did not end in time with status 0)";

// ---- One program on one input ----

/// What a program prints on standard output, and on standard error if that is a pipe.
pub type Printed = [Vec<u8>; 2];

/// What a program prints for the bytes on its standard input; none if it does not end in time, or with another status than 0.
pub fn printed(program: &str, error: Stdio, bytes: &[u8]) -> Result<Option<Printed>, String> {
    let child = program::command(program).stderr(error).spawn();
    let mut child = child.map_err(|error| format!("{program}: {error}"))?;
    let end = Instant::now() + PATIENCE;
    let (stdin, stdout, stderr) = (child.stdin.take(), child.stdout.take(), child.stderr.take());
    let (sender, receiver) = channel();
    let printed = std::thread::scope(|scope| {
        scope.spawn(move || {
            if let Some(mut stdin) = stdin {
                // The program may stop reading before the end.
                let _ = stdin.write_all(bytes);
            }
            let _ = sender.send([kept(stdout), kept(stderr)]);
        });
        let printed = receiver.recv_timeout(PATIENCE);
        // Its outputs can end before it does.
        let is_good = ends_well(&mut child, end);
        // One that is still at work is ended here.
        let _ = child.kill();
        printed.ok().filter(|_| is_good)
    });
    let _ = child.wait();
    Ok(printed)
}

/// Whether a program ends by itself up to this time, and with status 0.
fn ends_well(child: &mut Child, end: Instant) -> bool {
    loop {
        match child.try_wait() {
            Ok(Some(status)) => return status.success(),
            Ok(None) if Instant::now() < end => std::thread::sleep(PAUSE),
            _ => return false,
        }
    }
}

/// What comes through a pipe, as far as it is kept.
fn kept(pipe: Option<impl Read>) -> Vec<u8> {
    let mut bytes = Vec::new();
    if let Some(pipe) = pipe {
        let _ = pipe.take(MOST_PRINTED).read_to_end(&mut bytes);
    }
    bytes
}

// ---- All cases ----

/// What cases covered: gathered by each worker, and then joined.
pub trait Gathered: Default + Send {
    fn join(&mut self, other: Self);
}

/// What `look` gathers on the cases before `count`, on all processors, up to the first one it says no to.
pub fn all_cases<G: Gathered>(
    count: usize,
    look: impl Fn(usize, &mut G) -> Result<bool, String> + Sync,
) -> Result<G, String> {
    let workers = std::thread::available_parallelism().map_or(1, |n| n.get());
    let end = AtomicUsize::new(count);
    let work = |first| {
        let mut gathered = G::default();
        for index in (first..count).step_by(workers) {
            if index > end.load(Ordering::SeqCst) {
                break;
            }
            if !look(index, &mut gathered)? {
                end.fetch_min(index, Ordering::SeqCst);
                break;
            }
        }
        Ok(gathered)
    };
    let mut whole = G::default();
    std::thread::scope(|scope| {
        let work = &work;
        let start = |first| scope.spawn(move || work(first));
        let threads: Vec<_> = (0..workers).map(start).collect();
        for thread in threads {
            let part: Result<G, String> = thread
                .join()
                .map_err(|_| String::from("a worker stopped"))?;
            whole.join(part?);
        }
        Ok(whole)
    })
}
