//! Work done side by side, one piece to a processor.

use std::sync::atomic::{AtomicUsize, Ordering};
use std::thread;

/// What the pieces come to, in their order. Each processor takes the next piece.
pub fn side_by_side<T: Sync, R: Send>(pieces: &[T], work: impl Fn(&T) -> R + Sync) -> Vec<R> {
    let next = AtomicUsize::new(0);
    let take = || {
        let mut done = Vec::new();
        loop {
            let number = next.fetch_add(1, Ordering::Relaxed);
            let Some(piece) = pieces.get(number) else {
                return done;
            };
            done.push((number, work(piece)));
        }
    };
    let jobs = thread::available_parallelism().map_or(1, usize::from);
    let mut done: Vec<(usize, R)> = thread::scope(|scope| {
        let workers: Vec<_> = (0..jobs).map(|_| scope.spawn(take)).collect();
        let ended = workers.into_iter().map(|w| w.join().expect("a worker"));
        ended.flatten().collect()
    });
    done.sort_by_key(|piece| piece.0);
    done.into_iter().map(|piece| piece.1).collect()
}

#[cfg(test)]
mod tests {
    #[test]
    fn in_their_order() {
        let pieces: Vec<u32> = (0..50).collect();
        let doubled: Vec<u32> = (0..50).map(|n| n * 2).collect();
        assert_eq!(super::side_by_side(&pieces, |n| n * 2), doubled);
    }
}
