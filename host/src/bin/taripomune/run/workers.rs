//! Threads that treat columns.

use super::column::{Column, Job, Treated};
use crate::column_file::Buffers;
use crate::failure::Failure;
use crate::system;
use std::sync::atomic::{AtomicBool, AtomicUsize, Ordering};
use std::sync::mpsc::{self, RecvTimeoutError, Sender};
use std::thread::{self, Scope};
use std::time::Duration;

/// How long an answer is waited for at a time.
const PAUSE: Duration = Duration::from_millis(500);

type Answer = (usize, Result<Treated, Failure>);

/// Treats columns with a thread for each pair of buffers. `take` gets each column when it is done, by its place in the list,
/// and nothing from time to time. After a signal, or where a thread can't go on, the columns at hand are finished and no
/// others are begun.
pub fn treat_all(
    job: &Job,
    columns: &[Column],
    buffers: &mut [Buffers],
    mut take: impl FnMut(Option<(usize, Treated)>) -> Result<(), Failure>,
) -> Result<(), Failure> {
    let queue = Queue { job, columns, next: AtomicUsize::new(0), stopped: AtomicBool::new(false) };
    thread::scope(|scope| {
        let (sender, answers) = mpsc::channel();
        let mut outcome = queue.start(scope, buffers, sender);
        loop {
            if outcome.is_err() {
                queue.stopped.store(true, Ordering::Relaxed);
            }
            let taken = match answers.recv_timeout(PAUSE) {
                Ok((place, answer)) => answer.and_then(|treated| take(Some((place, treated)))),
                Err(RecvTimeoutError::Timeout) => take(None),
                Err(RecvTimeoutError::Disconnected) => return outcome,
            };
            // The first failure is the one to tell.
            outcome = outcome.and(taken);
        }
    })
}

/// The columns that no thread has begun.
struct Queue<'a> {
    job: &'a Job<'a>,
    columns: &'a [Column],
    next: AtomicUsize,
    stopped: AtomicBool,
}

impl Queue<'_> {
    fn start<'s>(
        &'s self,
        scope: &'s Scope<'s, '_>,
        buffers: &'s mut [Buffers],
        answers: Sender<Answer>,
    ) -> Result<(), Failure> {
        for (worker, buffers) in buffers.iter_mut().enumerate().take(self.columns.len()) {
            let answers = answers.clone();
            let work = move || {
                while let Some(place) = self.take() {
                    let answer = self.job.treat(&self.columns[place], worker, buffers);
                    if answers.send((place, answer)).is_err() {
                        return;
                    }
                }
            };
            match thread::Builder::new().spawn_scoped(scope, work) {
                Ok(_) => {}
                // Fewer threads do it too.
                Err(_) if worker > 0 => break,
                Err(error) => return Err(Failure::Unavailable(format!("a thread can't be started: {error}"))),
            }
        }
        Ok(())
    }

    /// The place of the next column to treat, if there is one.
    fn take(&self) -> Option<usize> {
        let is_stopped = self.stopped.load(Ordering::Relaxed) || system::is_stopped();
        let place = (!is_stopped).then(|| self.next.fetch_add(1, Ordering::Relaxed))?;
        (place < self.columns.len()).then_some(place)
    }
}
