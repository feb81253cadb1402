//! Calls that wait: for no longer than a time, and in eight threads, each of which is served.
use mst_store::{open, Edit, Error, Format, Options, Pass, Reads, TryError};
use std::sync::atomic::{AtomicBool, Ordering::SeqCst};
use std::sync::Mutex;
use std::thread;
use std::time::{Duration, Instant};

const SHORT: Duration = Duration::from_millis(1);
const LONG: Duration = Duration::from_secs(60);

/// Each test has the processors for itself.
static ALONE: Mutex<()> = Mutex::new(());

fn opened(rows: u32, passes: usize) -> Vec<Pass> {
    open(Options { rows, passes, ..Options::default() }).unwrap()
}

/// Calls with too short a time until one is busy, and has made nothing. With more time it is made.
fn busy_then_made<T>(
    pass: &mut Pass,
    mut within: impl FnMut(&mut Pass, Duration) -> Result<T, TryError>,
) {
    let began = Instant::now();
    let mut is_busy = false;
    while !is_busy {
        let before = pass.made();
        is_busy = match within(pass, SHORT) {
            Ok(_) => false,
            Err(TryError::Busy) => true,
            Err(other) => panic!("{other}"),
        };
        assert_eq!(is_busy, pass.made() == before);
        assert!(began.elapsed() < LONG, "it is never busy");
    }
    assert!(within(pass, LONG).is_ok());
}

#[test]
fn calls_wait_no_longer_than_they_may() {
    let _alone = ALONE.lock();
    let mut passes = opened(65_535, 2);
    let (mut mover, mut pass) = (passes.remove(0), passes.remove(0));
    let keys: Vec<_> = (0..20_000u32).map(u32::to_be_bytes).collect();
    let many: Vec<_> = keys.iter().map(|key| Edit::Put(key, b"")).collect();
    mover.apply_within(&many, Duration::ZERO).unwrap();
    let ended = AtomicBool::new(false);
    thread::scope(|scope| {
        scope.spawn(|| {
            for to in [Format::Two, Format::One].into_iter().cycle() {
                mover.migrate(to).unwrap();
                if ended.load(SeqCst) {
                    break;
                }
            }
        });
        busy_then_made(&mut pass, |pass, longest| pass.put_within(b"a", b"1", longest));
        busy_then_made(&mut pass, |pass, longest| pass.remove_within(b"a", longest));
        busy_then_made(&mut pass, |pass, longest| {
            pass.apply_within(&[Edit::Put(b"b", b"1")], longest)
        });
        busy_then_made(&mut pass, |pass, longest| pass.migrate_within(Format::One, longest));
        ended.store(true, SeqCst);
    });
    assert_eq!((pass.get(b"a"), pass.get(b"b")), (Ok(None), Ok(Some(b"1".to_vec()))));
}

#[test]
fn refusals_wait_for_no_time() {
    let refused = |error| Err(TryError::Refused(error));
    let mut full = opened(4, 1).remove(0);
    assert_eq!(full.put_within(b"a", b"1", Duration::MAX), Ok(None));
    assert_eq!(full.put_within(b"a", b"1", LONG), Ok(Some(b"1".to_vec())));
    let mut rest = (b'b'..).map(|key| full.put_within(&[key], b"", LONG));
    assert_eq!(rest.find(Result::is_err), Some(refused(Error::NoFreeRows)));
    assert_eq!(full.remove_within(b"", LONG), refused(Error::BadKey));
    let edits = [Edit::Put(b"a", b""), Edit::Put(b"a", &[0; 65])];
    assert_eq!(full.apply_within(&edits, LONG), Err(TryError::Refused(Error::BadValueAt(1))));
    std::mem::forget(full.pin());
    assert_eq!(full.migrate_within(Format::Two, LONG), Err(TryError::Refused(Error::WrongState)));
}

/// Whether of eight threads that write for two seconds the slowest makes a quarter of the mean.
fn all_are_served() -> bool {
    let passes = opened(4096, 8);
    let ended = AtomicBool::new(false);
    let puts: Vec<u64> = thread::scope(|scope| {
        let threads: Vec<_> = passes
            .into_iter()
            .enumerate()
            .map(|(who, mut pass)| {
                let ended = &ended;
                scope.spawn(move || {
                    let mut puts = 0u64;
                    while !ended.load(SeqCst) {
                        pass.put(&[who as u8], &puts.to_be_bytes()).unwrap();
                        puts += 1;
                    }
                    puts
                })
            })
            .collect();
        thread::sleep(Duration::from_secs(2));
        ended.store(true, SeqCst);
        threads.into_iter().map(|thread| thread.join().unwrap()).collect()
    });
    let (all, least) = (puts.iter().sum::<u64>(), puts.iter().min().unwrap());
    println!("{puts:?}");
    least * 4 * 8 >= all
}

#[test]
fn eight_threads_are_served() {
    let _alone = ALONE.lock();
    // ten times where other programs want all processors
    assert!((0..10).any(|_| all_are_served()));
}
