//! Cards that take long are set aside, and no more are at hand afterwards than before.
use desk::batch;
use std::sync::atomic::{AtomicUsize, Ordering};
use std::sync::{Arc, Condvar, Mutex};
use std::thread::sleep;
use std::time::Duration;

/// What the cards of the test share: how many of the long ones wait, and how many of the others are at hand at once.
#[derive(Default)]
struct Shared {
    waiting: Mutex<usize>,
    come: Condvar,
    at_hand: AtomicUsize,
    most: AtomicUsize,
}

const LONG: usize = 3;

/// The first cards wait for each other: none of them ends before all have begun.
fn work(shared: &Shared, i: usize) -> usize {
    if i < LONG {
        let mut waiting = shared.waiting.lock().unwrap();
        *waiting += 1;
        shared.come.notify_all();
        while *waiting < LONG {
            waiting = shared.come.wait(waiting).unwrap();
        }
    } else {
        let now = 1 + shared.at_hand.fetch_add(1, Ordering::SeqCst);
        shared.most.fetch_max(now, Ordering::SeqCst);
        sleep(Duration::from_millis(5));
        shared.at_hand.fetch_sub(1, Ordering::SeqCst);
    }
    i * i
}

#[test]
fn long_cards_hold_up_none_and_leave_no_worker_more() {
    let shared = Arc::new(Shared::default());
    let worker = shared.clone();
    let mut told = Vec::new();
    let run =
        batch::run(40, 1, Arc::new(move |i: usize| work(&worker, i)), &|i| i.to_string(), |i, result| {
            told.push((i, result.expect("nothing fails")));
            Ok(())
        });
    assert!(run.is_ok());
    assert_eq!(told, (0..40).map(|i| (i, i * i)).collect::<Vec<_>>());
    assert_eq!(shared.most.load(Ordering::SeqCst), 1, "one at a time was asked for");
}

/// Three groups of cards; each card waits until all of the next group have begun, and tells whether they came.
fn in_groups(begun: &(Mutex<[usize; 3]>, Condvar), i: usize) -> bool {
    const SIZES: [usize; 3] = [128, 128, 5];
    let group = i / 128;
    let mut now = begun.0.lock().unwrap();
    now[group] += 1;
    begun.1.notify_all();
    while group < 2 && now[group + 1] < SIZES[group + 1] {
        let (after, late) = begun.1.wait_timeout(now, Duration::from_secs(60)).unwrap();
        if late.timed_out() {
            return false;
        }
        now = after;
    }
    true
}

#[test]
fn threads_that_stopped_make_room_for_others() {
    let begun = Arc::new((Mutex::new([0; 3]), Condvar::new()));
    let mut came = 0;
    let work = Arc::new(move |i: usize| in_groups(&begun, i));
    let run = batch::run(261, 128, work, &|i| i.to_string(), |_, result| {
        came += usize::from(result == Some(true));
        Ok(())
    });
    assert!(run.is_ok());
    assert_eq!(came, 261);
}
