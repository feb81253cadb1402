//! Groups: threads that share the one writer of a sharded map. Each call is told the number of a
//! block that has its edits, or why they alone are refused.
use mst_store::sharded::{open, BlockError, Group, GroupError, Options, Reader, Writer};
use mst_store::Edit::{Put, Remove};
use mst_store::{Edit, Error, Format};
use std::collections::{BTreeMap, BTreeSet};
use std::sync::Arc;
use std::thread;

const THREADS: usize = 8;
const ROUNDS: u32 = 500;

type Map = BTreeMap<Vec<u8>, Vec<u8>>;

/// A key with its new value, or with None to take it out.
type Change = (Vec<u8>, Option<Vec<u8>>);

/// Shards for the keys that begin with "a" to "h".
fn opened(format: Format) -> (Writer, Vec<Reader>) {
    let splits: Vec<_> = (b'b'..=b'h').map(|first| [first]).collect();
    let parts: Vec<&[u8]> = splits.iter().map(|it| &it[..]).collect();
    open(Options { rows: 256, readers: 1, splits: &parts, format }).unwrap()
}

/// Up to three changes of keys of this thread alone.
fn changes(own: usize, round: u32) -> Vec<Change> {
    let one = |more: u32| {
        let at = 7 * round + more;
        let shard = b'a' + ((own as u32 + at) % 8) as u8;
        let value = ((round + more) % 5 > 0).then(|| round.to_be_bytes().to_vec());
        (vec![shard, own as u8, (at % 5) as u8], value)
    };
    (0..round % 4).map(one).collect()
}

fn edits(changes: &[Change]) -> Vec<Edit<'_>> {
    changes
        .iter()
        .map(|(key, value)| match value {
            Some(value) => Put(key, value),
            None => Remove(key),
        })
        .collect()
}

/// The numbers that a thread is told, and what its keys have then.
fn writes(group: &Group, own: usize) -> (Vec<u64>, Map) {
    let (mut numbers, mut map) = (Vec::new(), Map::new());
    for round in 1..=ROUNDS {
        let changes = changes(own, round);
        numbers.push(group.apply(&edits(&changes)).unwrap());
        for (key, value) in changes {
            match value {
                Some(value) => map.insert(key, value),
                None => map.remove(&key),
            };
        }
    }
    assert!(numbers.windows(2).all(|two| two[0] < two[1]));
    (numbers, map)
}

#[test]
fn threads_share_a_writer() {
    for format in [Format::One, Format::Two] {
        let (writer, mut readers) = opened(format);
        let group = writer.into_group().unwrap();
        let each: Vec<_> = thread::scope(|all| {
            let group = &group;
            let start = |own| all.spawn(move || writes(group, own));
            let threads: Vec<_> = (0..THREADS).map(start).collect();
            threads.into_iter().map(|it| it.join().unwrap()).collect()
        });
        let mut writer = group.into_writer();
        let (numbers, maps): (Vec<_>, Vec<_>) = each.into_iter().unzip();
        // each block up to the last was told to somebody
        let told: BTreeSet<u64> = numbers.into_iter().flatten().collect();
        let last = writer.number();
        assert!(told.into_iter().eq(1..=last));
        let map: Map = maps.into_iter().flatten().collect();
        assert!(map.len() > THREADS);
        for (key, value) in &map {
            assert_eq!(writer.get(key), Ok(Some(value.clone())));
        }
        let mut then = readers[0].snapshot();
        assert_eq!((then.number(), then.root()), (last, writer.root()));
        assert_eq!(then.range(b"", b"", usize::MAX), Ok(map.into_iter().collect()));
        assert_eq!(writer.apply(&[]), Ok(last + 1));
    }
}

/// Why each call of a thread is refused, if it is.
fn refusal(own: usize) -> Option<BlockError> {
    let bad = |error| Some(BlockError { shard: None, error });
    match own {
        0 => bad(Error::BadKeyAt(2)),
        1 => bad(Error::BadKeyAt(0)),
        2 => bad(Error::BadValueAt(1)),
        3 => Some(BlockError { shard: Some(1), error: Error::NoFreeRows }),
        _ => None,
    }
}

/// A put in each of both shards, and of some threads edits with a key that is too long or empty, a
/// value that is too long, or more keys than the second shard has rows.
fn asked<'a>(own: usize, keys: &'a [[u8; 2]], value: &'a [u8]) -> Vec<Edit<'a>> {
    let mut edits = vec![Put(&keys[0], value), Put(&keys[1], value)];
    match own {
        0 => edits.push(Put(&[1; 33], value)),
        1 => edits.insert(0, Remove(b"")),
        2 => edits.insert(1, Put(b"a", &[0; 65])),
        3 => edits.extend(keys[2..].iter().map(|key| Put(key, value))),
        _ => {}
    }
    edits
}

/// Each call is told what it is to be told. Returns the last number, or 0 if there is none.
fn asks(group: &Group, own: usize) -> u64 {
    let mut keys = vec![[b'a', own as u8], [b'z', own as u8]];
    keys.extend((100..200).map(|last| [b'z', last]));
    let mut before = 0;
    for round in 1..=ROUNDS {
        match group.apply(&asked(own, &keys, &round.to_be_bytes())) {
            Ok(number) => {
                assert!(refusal(own).is_none() && number > before);
                before = number;
            }
            Err(refused) => assert_eq!(Some(refused), refusal(own)),
        }
    }
    before
}

#[test]
fn a_refused_call_fails_no_other() {
    let options = Options { rows: 80, readers: 1, splits: &[b"m"], ..Options::default() };
    let (writer, mut readers) = open(options).unwrap();
    let group = Arc::new(writer.into_group().unwrap());
    let start = |own| {
        let group = Arc::clone(&group);
        thread::spawn(move || asks(&group, own))
    };
    let threads: Vec<_> = (0..THREADS).map(start).collect();
    let last = threads.into_iter().map(|it| it.join().unwrap()).max().unwrap();
    let mut writer = Arc::into_inner(group).unwrap().into_writer();
    assert_eq!(writer.number(), last);
    assert!((ROUNDS as u64..=ROUNDS as u64 * (THREADS as u64 - 4)).contains(&last));
    let value = ROUNDS.to_be_bytes().to_vec();
    let mut all = Vec::new();
    for shard in [b'a', b'z'] {
        all.extend((4..THREADS as u8).map(|own| (vec![shard, own], value.clone())));
    }
    for (key, value) in &all {
        assert_eq!(writer.get(key), Ok(Some(value.clone())));
    }
    assert_eq!(readers[0].snapshot().range(b"", b"", usize::MAX), Ok(all));
}

#[test]
fn groups_begin_and_end() {
    fn shared<T: Send + Sync>(of: T) -> T {
        of
    }
    let (mut writer, mut readers) = opened(Format::Two);
    // a block that was leaked is cancelled
    let (block, mut parts) = writer.begin(&[Put(b"a", b"1")]).unwrap();
    std::mem::forget(block);
    let group = shared(writer.into_group().unwrap());
    assert_eq!(parts[0].prepare(), Err(Error::WrongState));
    assert_eq!(group.apply(&[Put(b"a", b"2")]), Ok(1));
    let mut writer = group.into_writer();
    assert_eq!((writer.number(), writer.shards()), (1, 8));
    assert_eq!(writer.get(b"a"), Ok(Some(b"2".to_vec())));
    // with the group its writer is dropped, and readers go on
    let group = writer.into_group().unwrap();
    assert_eq!(group.apply(&[]), Ok(2));
    drop(group);
    let mut then = readers[0].snapshot();
    assert_eq!((then.number(), then.get(b"a")), (2, Ok(Some(b"2".to_vec()))));
}

#[test]
fn a_refusal_has_the_writer() {
    let (writer, _) = opened(Format::One);
    let mut refused = GroupError { writer, error: Error::Memory };
    assert_eq!(refused.to_string(), Error::Memory.to_string());
    assert_eq!(refused.writer.apply(&[]), Ok(1));
    assert_eq!(Error::from(refused), Error::Memory);
}
