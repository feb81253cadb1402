//! Sharded maps, compared with BTreeMaps: what a snapshot has is what one block left, and so has a
//! copy of it. Blocks by several threads are as those by one.
use mst_store::sharded::{open, BlockError, Options, Part, Reader, Snapshot, Writer};
use mst_store::Edit::{Put, Remove};
use mst_store::{Edit, Error, Format};
use std::collections::BTreeMap;
use std::sync::{Arc, Mutex};
use std::thread;

type Map = BTreeMap<Vec<u8>, Vec<u8>>;

/// A key with its new value, or with None to take it out.
type Change = (Vec<u8>, Option<Vec<u8>>);

/// What the writer tells of a block.
type Told = (u64, [u8; 32]);

/// Keys of one byte, in 16 shards.
fn opened(format: Format, rows: u32, readers: usize) -> (Writer, Vec<Reader>) {
    let splits: Vec<Vec<u8>> = (1..16).map(|number| vec![16 * number]).collect();
    let parts: Vec<&[u8]> = splits.iter().map(Vec::as_slice).collect();
    open(Options { rows, readers, splits: &parts, format }).unwrap()
}

/// Numbers that look random, from a seed.
fn next_of(seed: &mut u64) -> u64 {
    *seed = seed.wrapping_mul(6364136223846793005).wrapping_add(1442695040888963407);
    *seed >> 33
}

/// Up to 23 changes, some of one key.
fn changes(seed: &mut u64) -> Vec<Change> {
    let count = next_of(seed) % 24;
    let mut one = || {
        let (key, value) = (next_of(seed) as u8, next_of(seed));
        (vec![key], (value % 3 > 0).then(|| value.to_be_bytes().to_vec()))
    };
    (0..count).map(|_| one()).collect()
}

fn edits(changes: &[Change]) -> Vec<Edit<'_>> {
    changes
        .iter()
        .map(|(key, value)| match value {
            Some(value) => Put(key, value),
            None => Remove(key),
        })
        .collect()
}

/// Makes a block of changes, in a map too.
fn makes(writer: &mut Writer, map: &mut Map, seed: &mut u64) -> Told {
    let (changes, before) = (changes(seed), writer.number());
    assert_eq!(writer.apply(&edits(&changes)), Ok(before + 1));
    for (key, value) in changes {
        match value {
            Some(value) => map.insert(key, value),
            None => map.remove(&key),
        };
    }
    assert!((0..=255).all(|byte| writer.get(&[byte]) == Ok(map.get(&vec![byte]).cloned())));
    (writer.number(), writer.root())
}

fn shows(then: &mut Snapshot<'_>, told: Told, map: &Map) {
    assert_eq!((then.number(), then.root()), told);
    for key in 0..=255u8 {
        assert_eq!(then.get(&[key]), Ok(map.get(&vec![key]).cloned()));
    }
    let pairs: Vec<_> = map.clone().into_iter().collect();
    assert_eq!(then.len(), pairs.len() as u64);
    assert_eq!(then.next(b""), Ok(pairs.first().cloned()));
    assert_eq!(then.range(b"0", b"p", 9).unwrap().len(), pairs_within(map).min(9));
    assert_eq!(then.items(b"0", b"p").count(), pairs_within(map));
    assert!(then.items(b"", b"").eq(pairs.iter().cloned().map(Ok)));
    assert!(then.items(&[1; 33], b"").eq([Err(Error::BadKey)]));
    assert_eq!(then.range(b"", b"", usize::MAX), Ok(pairs));
}

fn pairs_within(map: &Map) -> usize {
    map.range(b"0".to_vec()..b"p".to_vec()).count()
}

#[test]
fn each_snapshot_keeps_its_block() {
    for format in [Format::One, Format::Two] {
        let (mut writer, mut readers) = opened(format, 256, 2);
        let (mut keeper, mut other) = (readers.remove(0), readers.remove(0));
        let (mut map, mut seed) = (Map::new(), 7);
        let mut told = (writer.number(), writer.root());
        assert_eq!((told.0, writer.shards(), keeper.shards()), (0, 16, 16));
        for _ in 0..30 {
            let (kept, kept_told) = (map.clone(), told);
            let mut then = keeper.snapshot();
            for _ in 0..4 {
                told = makes(&mut writer, &mut map, &mut seed);
                shows(&mut other.try_snapshot().unwrap(), told, &map);
            }
            shows(&mut then, kept_told, &kept);
            assert_eq!((then.format(), then.shards()), (format, 16));
            assert_eq!(then.directory().unwrap().len(), 16);
            assert!(!then.prove(b"a").unwrap().is_empty());
        }
        assert_eq!(keeper.get(b"a"), Ok(map.get(&b"a".to_vec()).cloned()));
    }
}

#[test]
fn a_refused_block_changes_no_shard() {
    let options =
        Options { rows: 12, readers: 2, splits: &[b"b", b"c", b"d"], format: Format::Two };
    let (mut writer, mut readers) = open(options).unwrap();
    let (mut reader, mut other) = (readers.remove(0), readers.remove(0));
    assert_eq!(writer.apply(&[Put(b"a", b"old"), Put(b"c", b"old")]), Ok(1));
    let (root, mut then) = (writer.root(), other.snapshot());
    // the third shard has no rows for its edits
    let keys: Vec<_> = (0..12).map(|last| [b'c', last]).collect();
    let mut edits = vec![Put(b"d", b"1"), Put(b"a", b"1")];
    edits.extend(keys.iter().map(|key| Put(key, b"1")));
    let refused = BlockError { shard: Some(2), error: Error::NoFreeRows };
    assert_eq!(refused.to_string(), format!("shard 2: {}", Error::NoFreeRows));
    for _ in 0..3 {
        assert_eq!(writer.apply(&edits), Err(refused));
        assert_eq!((writer.number(), writer.root()), (1, root));
        assert_eq!((reader.get(b"a"), reader.get(b"d")), (Ok(Some(b"old".to_vec())), Ok(None)));
        let mut now = reader.snapshot();
        assert_eq!((now.number(), now.root()), (1, root));
    }
    assert_eq!(writer.apply(&[Put(b"a", b"new"), Put(b"d", b"new")]), Ok(2));
    assert_eq!((then.get(b"a"), then.get(b"d")), (Ok(Some(b"old".to_vec())), Ok(None)));
    assert_eq!((then.number(), then.root()), (1, root));
    drop(then);
    let mut now = other.snapshot();
    assert_eq!((now.number(), now.root()), (2, writer.root()));
    assert_eq!(now.get(b"d"), Ok(Some(b"new".to_vec())));
}

#[test]
fn a_copy_is_a_map_that_was_filled_directly() {
    for (from, to) in [(Format::One, Format::Two), (Format::Two, Format::One)] {
        let (mut writer, mut readers) = opened(from, 256, 1);
        let (mut map, mut seed) = (Map::new(), 9);
        for _ in 0..30 {
            makes(&mut writer, &mut map, &mut seed);
        }
        let of =
            |rows, readers| open(Options { rows, readers, splits: &[b"a"], format: to }).unwrap();
        let (mut copied, mut lookers) = of(999, 1);
        let (mut direct, _) = of(500, 0);
        let puts: Vec<_> = map.iter().map(|(key, value)| Put(key, value)).collect();
        assert_eq!(direct.apply(&puts), Ok(1));
        let mut then = readers[0].snapshot();
        assert_eq!(writer.apply(&[Put(b"later", b"1")]), Ok(31));
        assert_eq!(then.copy_to(&mut copied), Ok(1));
        let mut now = lookers[0].snapshot();
        shows(&mut now, (1, direct.root()), &map);
        assert_eq!((now.format(), now.shards()), (to, 2));
        // a full map is as it was
        let (mut full, _) = of(8, 0);
        let refused = then.copy_to(&mut full).unwrap_err();
        assert_eq!(refused.error, Error::NoFreeRows);
        assert!(refused.shard.is_some_and(|shard| shard < 2));
        assert_eq!((full.number(), full.get(b"later")), (0, Ok(None)));
    }
}

#[test]
fn free_rows_are_counted_in_each_shard() {
    let options = Options { rows: 16, readers: 1, splits: &[b"m"], format: Format::One };
    let (mut writer, mut readers) = open(options).unwrap();
    let listed = writer.free_rows(2).unwrap().unwrap();
    assert_eq!(writer.apply(&[Put(b"a", b"1")]), Ok(1));
    assert_eq!((writer.free_rows(0), writer.free_rows(1)), (Ok(Some(14)), Ok(Some(16))));
    let then = readers[0].snapshot();
    assert_eq!(writer.apply(&[Put(b"a", b"2")]), Ok(2));
    assert_eq!((writer.free_rows(0), writer.free_rows(1)), (Ok(Some(12)), Ok(Some(16))));
    assert!(writer.free_rows(2).unwrap() < Some(listed));
    drop(then);
    assert_eq!((writer.free_rows(0), writer.free_rows(2)), (Ok(Some(14)), Ok(Some(listed))));
    assert_eq!((writer.free_rows(3), writer.free_rows(usize::MAX)), (Ok(None), Ok(None)));
}

#[test]
fn bad_edits_are_told_by_their_places() {
    let (mut writer, mut readers) = opened(Format::One, 16, 1);
    let at = |error| Err(BlockError { shard: None, error });
    assert_eq!(writer.apply(&[Put(b"a", b""), Remove(b"")]), at(Error::BadKeyAt(1)));
    assert_eq!(writer.apply(&[Put(b"a", &[0; 65])]), at(Error::BadValueAt(0)));
    assert_eq!(writer.apply(&[Put(b"a", b""), Put(&[1; 33], b"")]), at(Error::BadKeyAt(1)));
    assert_eq!((writer.number(), readers[0].get(b"a")), (0, Ok(None)));
    assert_eq!(writer.apply(&[]), Ok(1));
    let root = writer.root();
    assert_eq!((writer.apply(&[]), writer.root()), (Ok(2), root));
}

/// Prepares the parts in so many threads, some of them twice or not at all.
fn prepare(parts: &mut [Part], threads: usize) {
    let share = parts.len().div_ceil(threads);
    thread::scope(|all| {
        for share in parts.chunks_mut(share) {
            all.spawn(|| {
                for (times, part) in share.iter_mut().enumerate() {
                    assert!((0..times % 3).all(|_| part.prepare() == Ok(())));
                }
            });
        }
    });
}

#[test]
fn blocks_by_threads_are_those_by_one() {
    for format in [Format::One, Format::Two] {
        let [mut once, mut hers, mut writer] = [(); 3].map(|()| opened(format, 256, 0).0);
        let mut seed = 11;
        for number in 1..=60u64 {
            let many: Vec<_> = (0..number % 9).flat_map(|_| changes(&mut seed)).collect();
            let others = changes(&mut seed);
            assert_eq!(once.apply(&edits(&many)), Ok(number));
            assert_eq!(hers.apply_in_threads(&edits(&many), number as usize % 5), Ok(number));
            // a block that is dropped is not made, nor one that is cancelled, or leaked
            let (block, mut parts) = writer.begin(&edits(&others)).unwrap();
            prepare(&mut parts, 3);
            match number % 3 {
                0 => drop(block),
                1 => block.cancel(),
                _ => std::mem::forget(block),
            }
            assert_eq!(writer.number(), number - 1);
            let (block, mut parts) = writer.begin(&edits(&many)).unwrap();
            assert_eq!(parts.len(), 16);
            prepare(&mut parts, 1 + number as usize % 4);
            assert_eq!(block.commit(), Ok(number));
            assert_eq!(parts[0].prepare(), Err(Error::WrongState));
            assert_eq!((once.root(), once.root()), (writer.root(), hers.root()));
            assert_eq!(writer.number(), number);
        }
    }
}

#[test]
fn refused_blocks_by_threads() {
    fn sent<T: Send>(of: T) -> T {
        of
    }
    let splits: &[&[u8]] = &[b"b", b"c", b"d"];
    let (mut writer, _) =
        open(Options { rows: 12, splits, format: Format::Two, ..Options::default() }).unwrap();
    let root = writer.root();
    let keys: Vec<_> = (0..12).map(|last| [b'c', last]).collect();
    let mut edits = vec![Put(b"d", b"1"), Put(b"a", b"1")];
    edits.extend(keys.iter().map(|key| Put(key, b"1")));
    let refused = BlockError { shard: Some(2), error: Error::NoFreeRows };
    let bad = BlockError { shard: None, error: Error::BadKeyAt(1) };
    for threads in 0..4 {
        assert_eq!(writer.apply_in_threads(&edits, threads), Err(refused));
        assert_eq!(writer.apply_in_threads(&[Put(b"a", b""), Remove(b"")], threads), Err(bad));
    }
    assert_eq!(writer.begin(&[Put(b"a", b""), Remove(b"")]).map(|_| ()), Err(bad));
    let (block, mut parts) = writer.begin(&edits).unwrap();
    assert_eq!(parts[0].prepare(), Ok(()));
    assert_eq!(parts[2].prepare(), Err(Error::NoFreeRows));
    assert_eq!(sent(block).commit(), Err(refused));
    assert_eq!((writer.number(), writer.root(), writer.get(b"a")), (0, root, Ok(None)));
    // a part that another thread keeps outlives the writer
    let (block, mut parts) = writer.begin(&[Put(b"a", b"1")]).unwrap();
    let mut part = sent(parts.remove(0));
    drop(parts);
    assert_eq!(block.commit(), Ok(1));
    drop(writer);
    assert_eq!(part.prepare(), Err(Error::WrongState));
}

#[test]
fn openings_that_are_refused() {
    let of = |splits: &[&[u8]]| {
        open(Options { rows: 16, readers: 1, splits, ..Options::default() }).unwrap_err()
    };
    assert_eq!(of(&[b""]), Error::BadSplits);
    assert_eq!(of(&[b"b", b"b"]), Error::BadSplits);
    assert_eq!(of(&[&[1; 33]]), Error::BadSplits);
    assert_eq!(of(&[&[1; 300]]), Error::BadSplits);
    let shaped = |rows, readers| {
        let format = Format::Two;
        open(Options { rows, readers, format, ..Options::default() }).map(|_| ())
    };
    assert_eq!(open(Options::default()).unwrap_err(), Error::BadShape);
    assert_eq!(shaped(3, 1), Err(Error::BadShape));
    assert_eq!(shaped(16, 32), Err(Error::BadShape));
    assert_eq!(shaped(16, usize::MAX), Err(Error::BadShape));
    assert_eq!((shaped(16, 31), shaped(16, 0)), (Ok(()), Ok(())));
    assert_eq!((Error::Overtaken.code(), Error::Busy.code()), (-29, -21));
}

#[test]
fn readers_go_on_without_a_writer() {
    fn sent<T: Send>(of: T) -> T {
        of
    }
    let (mut writer, mut readers) = opened(Format::Two, 16, 2);
    assert_eq!(writer.apply(&[Put(b"a", b"1")]), Ok(1));
    let root = writer.root();
    drop(sent(writer));
    drop(readers.remove(0));
    let mut reader = sent(readers.remove(0));
    // a snapshot that was leaked ends with the next one
    std::mem::forget(reader.snapshot());
    let mut then = reader.snapshot();
    assert_eq!((then.number(), then.root()), (1, root));
    assert_eq!((then.get(b"a"), then.get(b"")), (Ok(Some(b"1".to_vec())), Err(Error::BadKey)));
    assert_eq!((then.prove(b""), then.next(&[1; 33])), (Err(Error::BadKey), Err(Error::BadKey)));
}

/// Whether a snapshot has the number of its block at each key.
fn has_one_block(then: &mut Snapshot<'_>) -> bool {
    let wanted = (then.number() > 0).then(|| then.number().to_be_bytes().to_vec());
    (0..16u8).all(|shard| then.get(&[16 * shard + 1]) == Ok(wanted.clone()))
}

/// Reads until the writer has told of so many blocks, and the last one is read.
fn reads(mut reader: Reader, roots: &Mutex<Vec<[u8; 32]>>, last: u64) {
    let mut before = 0;
    while before < last {
        let mut then = reader.snapshot();
        assert!(then.number() >= before && has_one_block(&mut then));
        before = then.number();
        // the writer tells of a block after it has made it
        if let Some(root) = roots.lock().unwrap().get(before as usize) {
            assert_eq!(then.root(), *root);
        }
    }
}

#[test]
fn threads_read_while_blocks_are_made() {
    const LAST: u64 = 2000;
    let (mut writer, readers) = opened(Format::One, 64, 3);
    let roots = Arc::new(Mutex::new(vec![writer.root()]));
    let mut threads = Vec::new();
    for reader in readers {
        let roots = Arc::clone(&roots);
        threads.push(thread::spawn(move || reads(reader, &roots, LAST)));
    }
    let keys: Vec<_> = (0..16u8).map(|shard| [16 * shard + 1]).collect();
    for number in 1..=LAST {
        let value = number.to_be_bytes();
        let edits: Vec<_> = keys.iter().map(|key| Put(key, &value)).collect();
        assert_eq!(writer.apply(&edits), Ok(number));
        roots.lock().unwrap().push(writer.root());
    }
    for thread in threads {
        thread.join().unwrap();
    }
}
