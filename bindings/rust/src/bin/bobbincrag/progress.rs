//! A line on standard error that says what long work is about, where that is a terminal: how far it is, where that is known, and for how long it runs.
use std::io::{IsTerminal, Write};
use std::sync::atomic::{AtomicUsize, Ordering};
use std::sync::mpsc::{self, RecvTimeoutError, Sender};
use std::sync::Arc;
use std::thread::JoinHandle;
use std::time::{Duration, Instant};

/// Nothing is said of work that takes less.
const FIRST: Duration = Duration::from_millis(500);

pub struct Progress {
    done: Arc<AtomicUsize>,
    thread: Option<(Sender<()>, JoinHandle<()>)>,
}

impl Progress {
    /// Work on `total` bytes; 0 where it can't be told how far it is.
    pub fn new(what: String, total: usize) -> Progress {
        let done = Arc::new(AtomicUsize::new(0));
        let thread = std::io::stderr().is_terminal().then(|| {
            let (stop, stopped) = mpsc::channel();
            let done = done.clone();
            (stop, std::thread::spawn(move || tell(&what, total, &done, &stopped)))
        });
        Progress { done, thread }
    }

    /// So many bytes are done.
    pub fn at(&self, bytes: usize) {
        self.done.store(bytes, Ordering::Relaxed);
    }
}

impl Drop for Progress {
    fn drop(&mut self) {
        if let Some((stop, thread)) = self.thread.take() {
            drop(stop);
            let _ = thread.join();
        }
    }
}

/// Writes the line anew twice a second, and wipes it at the end.
fn tell(what: &str, total: usize, done: &AtomicUsize, stopped: &mpsc::Receiver<()>) {
    let start = Instant::now();
    let mut said = false;
    while stopped.recv_timeout(FIRST) == Err(RecvTimeoutError::Timeout) {
        let far = match total {
            0 => String::new(),
            _ => format!(", {}%", done.load(Ordering::Relaxed) as u128 * 100 / total as u128),
        };
        let _ = write!(std::io::stderr().lock(), "\r\x1b[K{what}{far}, {} s ", start.elapsed().as_secs());
        said = true;
    }
    if said {
        let _ = write!(std::io::stderr().lock(), "\r\x1b[K");
    }
}
