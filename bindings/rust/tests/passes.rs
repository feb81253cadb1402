//! Passes of one store: what each sees of the others' writes, pins and migrations, what is refused,
//! and what is left as they go.
use mst_store::Edit::{Put, Remove};
use mst_store::{open, Error, Format, Options, Pass, Reads, TryError};
use std::iter::FusedIterator;
use std::thread;

/// A store in format 1.
fn opened(rows: u32, passes: usize) -> Result<Vec<Pass>, Error> {
    open(Options { rows, passes, ..Options::default() })
}

fn one(rows: u32) -> Pass {
    opened(rows, 1).unwrap().pop().unwrap()
}

#[test]
fn a_batch_is_made_whole_or_not_at_all() {
    let mut passes = opened(64, 2).unwrap();
    let (mut reader, mut writer) = (passes.pop().unwrap(), passes.pop().unwrap());
    writer.apply(&[Put(b"a", b"1"), Put(b"b", b"2")]).unwrap();
    let mut then = reader.pin();
    let many: Vec<_> = (0..64u8).map(|key| [key]).collect();
    let edits: Vec<_> = many.iter().map(|key| Put(key, b"")).collect();
    assert_eq!(writer.apply(&edits), Err(Error::NoFreeRows));
    let long = [1; 70_000];
    for key in [&long[..0], &long[..33], &long[..]] {
        let refused = Error::BadKeyAt(1);
        assert_eq!(writer.apply(&[Remove(b"a"), Put(key, b"")]), Err(refused));
        assert_eq!(writer.apply(&[Remove(b"a"), Remove(key)]), Err(refused));
        assert_eq!((refused.code(), writer.version()), (-5, 1));
    }
    for value in [&long[..65], &long[..]] {
        let refused = Error::BadValueAt(0);
        assert_eq!(writer.try_apply(&[Put(b"a", value)]), Err(TryError::Refused(refused)));
        assert_eq!((refused.code(), writer.version()), (-6, 1));
    }
    assert_eq!(writer.try_apply(&[Remove(b"a"), Put(b"b", &long[..64])]), Ok(()));
    assert_eq!(writer.apply(&[]), Ok(()));
    assert_eq!((writer.version(), writer.get(b"a")), (3, Ok(None)));
    assert_eq!((then.version(), then.get(b"a")), (1, Ok(Some(b"1".to_vec()))));
}

#[test]
fn a_length_is_of_the_version() {
    let mut passes = opened(2000, 2).unwrap();
    let (mut reader, mut writer) = (passes.pop().unwrap(), passes.pop().unwrap());
    assert_eq!((writer.len(), reader.pin().len()), (0, 0));
    for i in 0..=255u8 {
        writer.put(&[i], b"1").unwrap();
    }
    writer.put(&[7], b"2").unwrap();
    let mut then = reader.pin();
    for i in 0..100u8 {
        writer.remove(&[i]).unwrap();
    }
    writer.remove(b"none").unwrap();
    assert_eq!((then.len(), writer.len()), (256, 156));
    drop(then);
    assert_eq!(reader.len(), 156);
    drop(writer);
    assert_eq!(reader.len(), 156);
}

#[test]
fn a_pinned_version_keeps_its_format() {
    let mut passes = opened(1000, 2).unwrap();
    let (mut reader, mut writer) = (passes.pop().unwrap(), passes.pop().unwrap());
    writer.put(b"key", b"value").unwrap();
    let (root, proof) = (writer.root(), writer.prove(b"key"));
    let mut then = reader.pin();
    assert_eq!(writer.try_migrate(Format::Two), Ok(Format::One));
    assert_eq!((then.format(), then.version(), then.root()), (Format::One, 1, root));
    assert_eq!(then.prove(b"key"), proof);
    assert_ne!((writer.root(), writer.prove(b"key")), (root, proof));
    drop(then);
    assert_eq!((reader.format(), reader.version()), (Format::Two, 2));
    assert_eq!(reader.migrate(Format::Two), Ok(Format::Two));
    assert_eq!(writer.migrate(Format::One), Ok(Format::Two));
    assert_eq!((reader.root(), reader.version()), (root, 4));
    std::mem::forget(reader.pin());
    assert_eq!(reader.migrate(Format::Two), Err(Error::WrongState));
}

#[test]
fn a_pinned_version_stays_while_another_thread_writes() {
    let mut passes = opened(20_000, 2).unwrap();
    let (mut reader, mut writer) = (passes.pop().unwrap(), passes.pop().unwrap());
    for i in 0..50u8 {
        writer.put(&[i], &[0]).unwrap();
    }
    thread::scope(|scope| {
        scope.spawn(move || {
            for i in 0..5000u64 {
                writer.put(&[(i % 50) as u8], &i.to_le_bytes()).unwrap();
            }
        });
        for _ in 0..200 {
            let mut then = reader.pin();
            let (version, root) = (then.version(), then.root());
            let pairs: Vec<_> = then.items(b"", b"").collect();
            assert_eq!(pairs.len(), 50);
            thread::yield_now();
            assert!(then.items(b"", b"").eq(pairs));
            assert_eq!((then.version(), then.root()), (version, root));
        }
    });
    assert_eq!(reader.version(), 5050);
}

#[test]
fn two_writers_wait_for_each_other() {
    let passes = opened(4000, 2).unwrap();
    thread::scope(|scope| {
        for (who, mut pass) in passes.into_iter().enumerate() {
            scope.spawn(move || {
                for i in 0..1000u32 {
                    let key = [who as u8, (i % 100) as u8];
                    let before = pass.put(&key, &i.to_le_bytes()).unwrap();
                    let expected = i.checked_sub(100).map(|old| old.to_le_bytes().to_vec());
                    assert_eq!(before, expected);
                    if i % 50 == 49 {
                        pass.migrate(if i % 100 == 49 { Format::Two } else { Format::One })
                            .unwrap();
                    }
                }
            });
        }
    });
}

#[test]
fn refusals_have_their_errors() {
    let mut pass = one(1000);
    for key in [vec![], vec![1; 33], vec![1; 5000]] {
        assert_eq!(pass.get(&key), Err(Error::BadKey));
        assert_eq!(pass.put(&key, b""), Err(Error::BadKey));
        assert_eq!(pass.remove(&key), Err(Error::BadKey));
        assert_eq!(pass.prove(&key), Err(Error::BadKey));
    }
    assert_eq!(pass.next(&[1; 33]), Err(Error::BadKey));
    assert_eq!(pass.next(&[]), Ok(None));
    assert_eq!(pass.range(&[], &[1; 33], 1), Err(Error::BadKey));
    assert_eq!(pass.range(&[1; 33], &[], 1), Err(Error::BadKey));
    assert_eq!(pass.range(b"b", b"a", 1), Ok(vec![]));
    assert_eq!(pass.page_after(&[], &[1; 33], 1), Err(Error::BadKey));
    assert_eq!(pass.page_after(&[1; 33], &[], 1), Err(Error::BadKey));
    assert_eq!(pass.page_after(&[255; 32], &[], 1), Ok(vec![]));
    for (from, to) in [(33, 0), (0, 33), (5000, 1)] {
        let bounds = (vec![1; from], vec![1; to]);
        let items = pass.items(&bounds.0, &bounds.1);
        assert!(items.eq([Err(Error::BadKey)]));
    }
    assert_eq!(pass.put(b"key", &[1; 65]), Err(Error::BadValue));
    assert_eq!(pass.try_put(b"key", &[1; 65]), Err(TryError::Refused(Error::BadValue)));
    assert_eq!(pass.put(&[255; 32], &[1; 64]), Ok(None));
    assert_eq!(pass.version(), 1);
    for (rows, passes) in [(3, 1), (65_536, 1), (1000, 0), (1000, 33), (1000, usize::MAX)] {
        assert_eq!(opened(rows, passes).err(), Some(Error::BadShape));
    }
    let options = Options { rows: 3, passes: 1, format: Format::Two };
    assert_eq!(open(options).err(), Some(Error::BadShape));
    assert_eq!(open(Options::default()).err(), Some(Error::BadShape));
    assert_eq!(Options::default().format, Format::One);
    for number in [0, 3, u32::MAX] {
        assert_eq!(Format::try_from(number), Err(Error::UnknownFormat));
    }
    assert_eq!(Format::try_from(Format::Two.number()), Ok(Format::Two));
    assert_eq!(Error::UnknownFormat.code(), -3);
    assert_eq!((Error::BadKey.code(), Error::RowsPinned.code()), (-5, -24));
    assert_eq!(Error::BadKey.to_string(), "a key has 1 to 32 bytes");
    assert_eq!(TryError::Busy.to_string(), "another pass writes");
}

#[test]
fn passes_are_shown_and_refusals_lifted() {
    fn written(pass: &mut Pass) -> Result<Option<Vec<u8>>, TryError> {
        pass.get(b"")?;
        pass.try_put(b"key", b"")
    }
    fn fused(items: impl FusedIterator) -> usize {
        items.count()
    }
    let mut pass = one(1000);
    assert_eq!(written(&mut pass), Err(TryError::Refused(Error::BadKey)));
    assert_eq!(opened(3, 1).unwrap_err(), Error::BadShape);
    assert!(format!("{pass:?}").starts_with("Pass"));
    assert!(format!("{:?}", pass.pin()).starts_with("Pinned"));
    assert!(format!("{:?}", pass.items(b"", b"")).starts_with("Items"));
    assert_eq!(fused(pass.items(b"", b"")), 0);
}

#[test]
fn rows_are_spent_and_counted() {
    let mut passes = opened(8, 2).unwrap();
    let (mut reader, mut writer) = (passes.pop().unwrap(), passes.pop().unwrap());
    let refused = (0..20u8).find_map(|i| writer.put(&[i], b"").err());
    assert_eq!(refused, Some(Error::NoFreeRows));
    assert_eq!(writer.migrate(Format::Two), Err(Error::NoFreeRows));
    assert_eq!(writer.try_migrate(Format::Two), Err(TryError::Refused(Error::NoFreeRows)));
    assert_eq!(writer.migrate(Format::One), Ok(Format::One));
    let then = reader.pin();
    assert_eq!(writer.rows(), Err(TryError::Refused(Error::RowsPinned)));
    let free = writer.free_rows().unwrap();
    drop(then);
    assert_eq!(writer.rows(), Ok(8 - free));
}

#[test]
fn pinned_versions_are_listed_once() {
    let mut passes = opened(32, 3).unwrap();
    let (mut one, mut two, mut writer) =
        (passes.pop().unwrap(), passes.pop().unwrap(), passes.pop().unwrap());
    assert_eq!(writer.pinned_versions(), Ok(vec![]));
    writer.put(b"key", b"1").unwrap();
    let (older, same) = (one.pin(), two.pin());
    assert_eq!(writer.pinned_versions(), Ok(vec![1]));
    drop(same);
    writer.put(b"key", b"2").unwrap();
    let newest = two.pin();
    assert_eq!(writer.pinned_versions(), Ok(vec![1, 2]));
    drop((older, newest));
    assert_eq!(writer.pinned_versions(), Ok(vec![]));
}

#[test]
fn a_pass_knows_the_version_that_it_made() {
    let mut passes = opened(32, 2).unwrap();
    let (mut one, mut other) = (passes.pop().unwrap(), passes.pop().unwrap());
    assert_eq!((one.made(), other.made()), (None, None));
    one.put(b"key", b"1").unwrap();
    other.put(b"key", b"2").unwrap();
    assert_eq!((one.made(), other.made(), one.version()), (Some(1), Some(2), 2));
}

#[test]
fn a_leaked_pin_ends_with_the_next() {
    let mut pass = one(1000);
    std::mem::forget(pass.pin());
    assert_eq!(pass.put(b"key", b""), Err(Error::WrongState));
    assert_eq!(pass.pin().version(), 0);
    assert_eq!(pass.put(b"key", b""), Ok(None));
}

#[test]
fn a_pin_ends_with_its_pass() {
    let mut passes = opened(1000, 2).unwrap();
    let (mut reader, mut writer) = (passes.pop().unwrap(), passes.pop().unwrap());
    std::mem::forget(reader.pin());
    assert_eq!(writer.rows(), Err(TryError::Refused(Error::RowsPinned)));
    drop(reader);
    assert_eq!(writer.rows(), Ok(0));
}

#[test]
fn the_store_goes_with_its_last_pass() {
    for _ in 0..200 {
        let mut passes = opened(65_535, 3).unwrap();
        let mut last = passes.remove(1);
        last.put(b"key", b"value").unwrap();
        drop(passes);
        assert_eq!(last.get(b"key"), Ok(Some(b"value".to_vec())));
    }
}
