//! What publishers know of how far the receivers are.

use std::sync::atomic::{AtomicU64, AtomicUsize, Ordering::SeqCst};
use std::sync::{Condvar, Mutex, PoisonError};
use std::time::Duration;

/// How long a publisher waits at once for a receiver, and how many such waits in a row without any
/// message mean that no more will come: two seconds of them.
const PAUSE: Duration = Duration::from_millis(100);
const QUIET_PAUSES: u32 = 20;

/// How many messages have come, by those who have to get each message and by publisher.
pub struct Progress {
    arrived: Vec<Vec<AtomicU64>>,
    /// How often receivers have told that messages came.
    changes: AtomicU64,
    /// How many publishers wait for a change. Only where there are some, receivers take the lock.
    waiting: AtomicUsize,
    lock: Mutex<()>,
    changed: Condvar,
    /// How many publishers are not done.
    publishing: AtomicUsize,
}

/// One who publishes, until this is dropped.
pub struct Publishing<'a>(&'a Progress);

impl Drop for Publishing<'_> {
    fn drop(&mut self) {
        self.0.publishing.fetch_sub(1, SeqCst);
    }
}

impl Progress {
    /// Nothing has come to any of so many groups from so many publishers.
    pub fn new(groups: usize, publishers: usize) -> Self {
        let of_group = || (0..publishers).map(|_| AtomicU64::new(0)).collect();
        Progress {
            arrived: (0..groups).map(|_| of_group()).collect(),
            changes: AtomicU64::new(0),
            waiting: AtomicUsize::new(0),
            lock: Mutex::new(()),
            changed: Condvar::new(),
            publishing: AtomicUsize::new(0),
        }
    }

    /// One more publishes.
    pub fn publishing(&self) -> Publishing<'_> {
        self.publishing.fetch_add(1, SeqCst);
        Publishing(self)
    }

    /// Whether nobody publishes any more.
    pub fn has_ended(&self) -> bool {
        self.publishing.load(SeqCst) == 0
    }

    /// These messages more have come to this group: publishers with how many. Publishers that wait
    /// are woken.
    pub fn add(&self, group: usize, counts: impl Iterator<Item = (usize, u64)>) {
        for (publisher, count) in counts.filter(|&(_, count)| count > 0) {
            self.arrived[group][publisher].fetch_add(count, SeqCst);
        }
        self.changes.fetch_add(1, SeqCst);
        if self.waiting.load(SeqCst) > 0 {
            // who looked for a change before it was made waits by now, and is woken
            drop(self.lock.lock());
            self.changed.notify_all();
        }
    }

    /// How many messages of this publisher have come to every group.
    fn least(&self, publisher: usize) -> u64 {
        let counts = self
            .arrived
            .iter()
            .map(|group| group[publisher].load(SeqCst));
        counts.min().unwrap_or(u64::MAX)
    }

    /// Waits until so many messages of this publisher have come to every group: whether they have.
    /// They have not, where nothing has come to anyone for two seconds.
    pub fn wait_for(&self, publisher: usize, count: u64) -> bool {
        let mut quiet = 0;
        loop {
            let seen = self.changes.load(SeqCst);
            if self.least(publisher) >= count {
                return true;
            }
            if quiet >= QUIET_PAUSES {
                return false;
            }
            quiet = if self.wait_for_change(seen) {
                0
            } else {
                quiet + 1
            };
        }
    }

    /// Waits for a change beyond those that were seen, for up to a pause: whether there is one.
    fn wait_for_change(&self, seen: u64) -> bool {
        self.waiting.fetch_add(1, SeqCst);
        let guard = self.lock.lock().unwrap_or_else(PoisonError::into_inner);
        let is_unchanged = |(): &mut ()| self.changes.load(SeqCst) == seen;
        let waited = self.changed.wait_timeout_while(guard, PAUSE, is_unchanged);
        let (_guard, wait) = waited.unwrap_or_else(PoisonError::into_inner);
        self.waiting.fetch_sub(1, SeqCst);
        !wait.timed_out()
    }
}

#[cfg(test)]
mod tests {
    use super::*;
    use std::thread;
    use std::time::Instant;

    #[test]
    fn a_publisher_waits_for_the_slowest_group() {
        let progress = Progress::new(2, 2);
        progress.add(0, [(1, 10)].into_iter());
        thread::scope(|scope| {
            let waiter = scope.spawn(|| progress.wait_for(1, 10));
            while progress.waiting.load(SeqCst) == 0 {
                thread::yield_now();
            }
            progress.add(1, [(0, 10), (1, 9)].into_iter());
            assert!(!waiter.is_finished());
            progress.add(1, [(1, 1)].into_iter());
            assert!(waiter.join().unwrap());
        });
        assert!(progress.wait_for(1, 10));
    }

    #[test]
    fn where_nobody_receives_nobody_is_waited_for() {
        assert!(Progress::new(0, 1).wait_for(0, u64::MAX));
    }

    #[test]
    fn nothing_for_two_seconds_ends_the_wait() {
        let start = Instant::now();
        assert!(!Progress::new(1, 1).wait_for(0, 1));
        let taken = start.elapsed();
        assert!(taken >= Duration::from_secs(2), "{taken:?}");
    }

    #[test]
    fn it_has_ended_when_all_publishers_are_dropped() {
        let progress = Progress::new(1, 2);
        let both = [progress.publishing(), progress.publishing()];
        assert!(!progress.has_ended());
        drop(both);
        assert!(progress.has_ended());
    }
}
