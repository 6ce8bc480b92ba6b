//! Many histories on all cores, with what they come to in their order.
use std::collections::BTreeMap;
use std::sync::atomic::{AtomicU64, Ordering};
use std::sync::mpsc::channel;

/// Runs 0 to `count` - 1 and hands what each comes to on to `each`, one after
/// the other, until it says that there was enough. What `each` sees does not
/// depend on how many threads there are.
pub fn many<T: Send>(count: u64, run: impl Fn(u64) -> T + Sync, mut each: impl FnMut(u64, T) -> bool) {
    let threads = std::thread::available_parallelism().map_or(1, usize::from);
    let (next, (send, receive)) = (AtomicU64::new(0), channel());
    let taken = || Some(next.fetch_add(1, Ordering::Relaxed)).filter(|at| *at < count);
    std::thread::scope(|scope| {
        for _ in 0..threads {
            let (send, taken, run) = (send.clone(), &taken, &run);
            scope.spawn(move || {
                while let Some(at) = taken() {
                    if send.send((at, run(at))).is_err() {
                        break;
                    }
                }
            });
        }
        drop(send);
        let (mut early, mut due) = (BTreeMap::new(), 0);
        'all: for (at, result) in receive {
            early.insert(at, result);
            while let Some(result) = early.remove(&due) {
                if !each(due, result) {
                    break 'all;
                }
                due += 1;
            }
        }
        // Nobody takes another one.
        next.store(count, Ordering::Relaxed);
    });
}
