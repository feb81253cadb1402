//! Where two maps differ: what is told, how little is asked for, and what ends it.
use mst_store::Edit::{Put, Remove};
use mst_store::{open, proof_piece, Edit, Error, Format, Options, Pass, Pinned, Reads};
use std::panic::{catch_unwind, AssertUnwindSafe};

fn filled(numbers: std::ops::Range<u32>, format: Format) -> Pass {
    let mut pass = open(Options { rows: 4000, passes: 1, format }).unwrap().pop().unwrap();
    let keys: Vec<[u8; 4]> = numbers.map(u32::to_be_bytes).collect();
    let edits: Vec<Edit> = keys.iter().map(|key| Put(key, b"value")).collect();
    pass.apply(&edits).unwrap();
    pass
}

/// Answers from a pinned pass, and counts.
fn answer(then: &mut Pinned<'_>, key: &[u8], number: u32) -> Result<Vec<u8>, Error> {
    let proof = then.prove(key)?;
    Ok(proof_piece(&proof, number).expect("there is such a piece").to_vec())
}

#[test]
fn catches_up() {
    for format in [Format::One, Format::Two] {
        let (mut ours, mut theirs) = (filled(0..1000, format), filled(0..1000, format));
        theirs.apply(&[Put(b"a", b""), Remove(&[0, 0, 0, 9]), Put(&[0, 0, 1, 9], b"x")]).unwrap();
        let mut then = theirs.pin();
        let (root, mut asked) = (then.root(), 0);
        let found = ours
            .differing(&root, |key, number| {
                asked += 1;
                answer(&mut then, key, number)
            })
            .unwrap();
        assert_eq!(found.len(), 3);
        assert!(asked > 0 && asked < 40, "{asked}");
        assert_eq!((&found[0].ours, &found[0].theirs), (&Some(b"value".to_vec()), &None));
        assert_eq!(found[1].theirs, Some(b"x".to_vec()));
        assert_eq!((&found[2].key[..], &found[2].ours), (&b"a"[..], &None));
        assert_eq!(found[2].theirs, Some(Vec::new()));
        let edits: Vec<Edit> = found
            .iter()
            .map(|it| it.theirs.as_ref().map_or(Remove(&it.key), |value| Put(&it.key, value)))
            .collect();
        ours.apply(&edits).unwrap();
        assert_eq!(ours.root(), root);
        assert_eq!(ours.differing(&root, |_, _| Err(Error::Busy)), Ok(Vec::new()));
    }
}

#[test]
fn refusals_errors_and_panics_end_it() {
    let (mut ours, mut theirs) = (filled(0..0, Format::One), filled(0..100, Format::One));
    let root = theirs.root();
    assert_eq!(ours.differing(&root, |_, _| Err(Error::Busy)), Err(Error::Busy));
    let told = ours.differing(&root, |_, _| Ok::<_, Error>(vec![0; 10]));
    assert_eq!(told, Err(Error::OtherPiece(4)));
    let panicked = catch_unwind(AssertUnwindSafe(|| {
        ours.differing(&root, |_, _| -> Result<Vec<u8>, Error> { panic!("as it is to") })
    }));
    assert!(panicked.is_err());
    // it is not pinned
    assert_eq!(ours.put(b"a", b""), Ok(None));
    assert_eq!((proof_piece(&[], 0), proof_piece(&[1, 0], 0)), (None, None));
}
