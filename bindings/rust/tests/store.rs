//! The store's answers, compared with those of a BTreeMap, over writes by a fixed generator.
use mst_store::Edit::{Put, Remove};
use mst_store::{open, Error, Format, Options, Pass, Reads};
use std::collections::BTreeMap;

/// SplitMix64, so that each run is the same.
struct Random(u64);

impl Random {
    fn below(&mut self, limit: u64) -> u64 {
        self.0 = self.0.wrapping_add(0x9E37_79B9_7F4A_7C15);
        let mut mixed = self.0;
        mixed = (mixed ^ (mixed >> 30)).wrapping_mul(0xBF58_476D_1CE4_E5B9);
        mixed = (mixed ^ (mixed >> 27)).wrapping_mul(0x94D0_49BB_1331_11EB);
        (mixed ^ (mixed >> 31)) % limit
    }

    fn bytes(&mut self, length: usize) -> Vec<u8> {
        (0..length).map(|_| self.below(256) as u8).collect()
    }

    /// One of 400 keys, of all lengths.
    fn key(&mut self) -> Vec<u8> {
        let seed = self.below(400);
        let length = 2 + seed as usize % 31;
        (0..length).map(|at| if at < 2 { (seed >> (8 * at)) as u8 } else { at as u8 }).collect()
    }
}

/// A store in format 1.
fn opened(rows: u32, passes: usize) -> Result<Vec<Pass>, Error> {
    open(Options { rows, passes, ..Options::default() })
}

fn one(rows: u32) -> Pass {
    opened(rows, 1).unwrap().pop().unwrap()
}

/// A store of one pass in this format, with these pairs.
fn filled(format: Format, pairs: impl IntoIterator<Item = (Vec<u8>, Vec<u8>)>) -> Pass {
    let mut pass = open(Options { rows: 4000, passes: 1, format }).unwrap().pop().unwrap();
    for (key, value) in pairs {
        pass.put(&key, &value).unwrap();
    }
    pass
}

#[test]
fn answers_are_those_of_a_map() {
    let (mut random, mut pass, mut map) = (Random(7), one(4000), BTreeMap::new());
    for step in 0..6000u64 {
        let key = random.key();
        if random.below(3) == 0 {
            assert_eq!(pass.remove(&key), Ok(map.remove(&key)));
        } else {
            let length = random.below(65) as usize;
            let value = random.bytes(length);
            assert_eq!(pass.put(&key, &value), Ok(map.insert(key, value)));
        }
        assert_eq!((pass.version(), pass.len()), (step + 1, map.len() as u64));
        let asked = random.key();
        assert_eq!(pass.get(&asked), Ok(map.get(&asked).cloned()));
        let above = map.range(asked.clone()..).find(|(key, _)| **key > asked);
        assert_eq!(pass.next(&asked), Ok(above.map(|(key, value)| (key.clone(), value.clone()))));
    }
    assert!(pass.items(b"", b"").eq(map.clone().into_iter().map(Ok)));
    for limit in 0..120 {
        let (from, to) = (random.key(), random.key());
        let within = map.clone().into_iter().filter(|(key, _)| *key >= from && *key < to);
        assert!(pass.items(&from, &to).eq(within.map(Ok)));
        let within = map.iter().filter(|(key, _)| **key >= from && **key < to);
        let wanted: Vec<_> =
            within.take(limit).map(|(key, value)| (key.clone(), value.clone())).collect();
        assert_eq!(pass.range(&from, &to, limit), Ok(wanted.clone()));
        assert_eq!(pass.pin().range(&from, &to, limit), Ok(wanted));
        let behind = map.iter().filter(|(key, _)| **key > from && **key < to);
        let wanted: Vec<_> =
            behind.take(limit).map(|(key, value)| (key.clone(), value.clone())).collect();
        assert_eq!(pass.page_after(&from, &to, limit), Ok(wanted.clone()));
        assert_eq!(pass.pin().page_after(&from, &to, limit), Ok(wanted));
    }
    assert!(pass.page_after(&[], &[], usize::MAX).unwrap().into_iter().eq(map.clone()));
    assert!(pass.range(&[], &[], usize::MAX).unwrap().into_iter().eq(map.clone()));
    assert!(pass.rows().unwrap() as usize >= map.len());
}

/// Takes out each pair that a reader comes to, which are all.
fn empty(writer: &mut Pass, reader: &mut impl Reads, map: &BTreeMap<Vec<u8>, Vec<u8>>) {
    let removed = reader.items(b"", b"").map(|pair| {
        let (key, value) = pair.unwrap();
        assert_eq!(writer.remove(&key), Ok(Some(value.clone())));
        (key, value)
    });
    assert!(removed.eq(map.clone()));
    assert_eq!(writer.next(b""), Ok(None));
}

#[test]
fn items_are_the_pairs_of_their_pages() {
    for count in [0, 1, 63, 64, 65, 127, 128, 190, 300_u16] {
        let mut passes = opened(2000, 2).unwrap();
        let (mut reader, mut writer) = (passes.pop().unwrap(), passes.pop().unwrap());
        let key = |number: u16| [&[255; 30][..], &number.to_be_bytes()].concat();
        let map: BTreeMap<_, _> = (0..count).map(|number| (key(number), vec![7])).collect();
        let edits: Vec<_> = map.iter().map(|(key, value)| Put(key, value)).collect();
        writer.apply(&edits).unwrap();
        let mut then = reader.pin();
        empty(&mut writer, &mut then, &map);
        for from in (0..=count).step_by(9) {
            let wanted = map.range(key(from)..key(from + 130));
            let wanted = wanted.map(|(key, value)| Ok((key.clone(), value.clone())));
            assert!(then.items(&key(from), &key(from + 130)).eq(wanted));
            let mut items = then.items(&key(from), b"");
            assert_eq!(items.by_ref().count(), usize::from(count - from));
            assert_eq!(items.next(), None);
            assert_eq!(then.items(b"", b"").take(from.into()).count(), from.into());
        }
        drop(then);
        // a free pass goes on behind a pair that is gone
        writer.apply(&edits).unwrap();
        empty(&mut writer, &mut reader, &map);
    }
}

#[test]
fn a_proof_is_the_same_after_a_longer_one() {
    let pairs =
        |number: u32| (number.wrapping_mul(0x9E37_79B9).to_be_bytes().to_vec(), vec![7; 64]);
    let mut pass = filled(Format::One, (0..1500).map(pairs));
    let mut proofs = Vec::new();
    for number in 0..1500 {
        proofs.push(pass.prove(&pairs(number).0).unwrap());
    }
    assert!(proofs.iter().any(|proof| proof.len() > 4096));
    assert!(proofs.iter().all(|proof| proof.capacity() == proof.len()));
    for number in (0..1500).rev() {
        let mut fresh = pass.pin();
        assert_eq!(fresh.prove(&pairs(number).0).as_ref(), Ok(&proofs[number as usize]));
    }
}

#[test]
fn a_batch_leaves_the_map_of_its_edits_as_one_version() {
    let (mut random, mut pass, mut map) = (Random(11), one(4000), BTreeMap::new());
    for step in 0..300u64 {
        let count = random.below(30);
        let pairs: Vec<_> = (0..count)
            .map(|_| {
                let (key, length) = (random.key(), random.below(65) as usize);
                (key, (random.below(3) > 0).then(|| random.bytes(length)))
            })
            .collect();
        let edits: Vec<_> = pairs
            .iter()
            .map(|(key, value)| value.as_ref().map_or(Remove(key), |value| Put(key, value)))
            .collect();
        assert_eq!(pass.apply(&edits), Ok(()));
        assert_eq!(pass.version(), step + 1);
        for (key, value) in pairs {
            match value {
                Some(value) => map.insert(key, value),
                None => map.remove(&key),
            };
        }
        assert!(pass.range(&[], &[], usize::MAX).unwrap().into_iter().eq(map.clone()));
    }
    assert_eq!(pass.root(), filled(Format::One, map).root());
}

#[test]
fn a_root_is_of_the_pairs_alone() {
    let (mut one_way, mut other_way) = (one(1000), one(1000));
    for i in 0..100u8 {
        one_way.put(&[i], &[i]).unwrap();
        other_way.put(&[99 - i], &[99 - i]).unwrap();
    }
    assert_eq!(one_way.root(), other_way.root());
    other_way.put(b"more", b"").unwrap();
    assert_ne!(one_way.root(), other_way.root());
    assert_eq!(other_way.remove(b"more"), Ok(Some(Vec::new())));
    assert_eq!(one_way.root(), other_way.root());
    let proof = one_way.prove(b"none").unwrap();
    assert!(!proof.is_empty() && proof.capacity() < 4096);
}

#[test]
fn a_migration_gives_the_root_of_a_store_in_that_format() {
    let (mut random, mut pass, mut map) = (Random(9), one(4000), BTreeMap::new());
    let (mut format, mut writes) = (Format::One, 0);
    for step in 0..60u64 {
        for _ in 0..20 {
            let (key, value) = (random.key(), random.bytes(9));
            assert_eq!(pass.put(&key, &value), Ok(map.insert(key, value)));
        }
        let to = if random.below(3) == 0 { Format::One } else { Format::Two };
        assert_eq!(pass.migrate(to), Ok(format));
        (format, writes) = (to, writes + 21);
        assert_eq!((pass.format(), pass.version()), (format, writes));
        let (mut twin, asked) = (filled(format, map.clone()), random.key());
        assert_eq!((twin.format(), twin.root()), (format, pass.root()), "step {step}");
        assert_eq!(pass.prove(&asked), twin.prove(&asked));
    }
    assert!(pass.items(b"", b"").eq(map.into_iter().map(Ok)));
}
