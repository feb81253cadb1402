//! Two replicas apply the same entries of a log, each as one version, and compare root digests. An
//! auditor keeps a pinned version meanwhile.
//!
//!     make -C bindings && cd examples/rust && cargo run
//!
//! Where the library of a release is installed, or `MST_STORE_DIR` names the folder that has
//! `libmst_store.a`, nothing has to be made first. No release is published yet, and `make` needs
//! the kit. Without both, `MST_STORE_UNLINKED=1 cargo check` type-checks this program.
use mst_store::Edit::{Put, Remove};
use mst_store::{open, Edit, Error, Options, Pass, Reads};

/// Rows of a store: enough for some 100 keys, one pinned version, and a batch.
const ROWS: u32 = 1_000;

/// A replica: the writer of its store, and a reader for audits.
fn replica() -> Result<(Pass, Pass), Error> {
    let mut passes = open(Options { rows: ROWS, passes: 2, ..Options::default() })?.into_iter();
    let writer = passes.next().expect("two were asked for");
    let reader = passes.next().expect("two were asked for");
    Ok((writer, reader))
}

fn main() -> Result<(), Error> {
    let (mut writer, mut auditor) = replica()?;
    let (mut follower, _) = replica()?;
    let first: [Edit; 2] = [Put(b"apple", b"30"), Put(b"pear", b"7")];
    writer.apply(&first)?;
    follower.apply(&first)?;
    assert_eq!(writer.root(), follower.root());

    let mut then = auditor.pin();
    let root = then.root();
    let second: [Edit; 2] = [Put(b"apple", b"31"), Remove(b"pear")];
    std::thread::spawn(move || -> Result<(), Error> {
        writer.apply(&second)?;
        follower.apply(&second)?;
        assert_eq!(writer.root(), follower.root());
        Ok(())
    })
    .join()
    .expect("the writer ends")?;

    assert_eq!(then.get(b"apple")?, Some(b"30".to_vec()));
    assert_eq!(then.root(), root);
    println!("the pinned value is 30, its proof has {} bytes", then.prove(b"apple")?.len());
    drop(then);
    for pair in auditor.items(b"", b"") {
        let (key, value) = pair?;
        println!("{} {}", String::from_utf8_lossy(&key), String::from_utf8_lossy(&value));
    }
    Ok(())
}
