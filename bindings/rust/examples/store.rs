//! A writer and a reader that pins, in a thread each.
//!
//!     make -C bindings && cd bindings/rust && cargo run --example store
use mst_store::{open, Error, Options, Reads};

fn main() -> Result<(), Error> {
    let mut passes = open(Options { rows: 1000, passes: 2, ..Options::default() })?;
    let mut reader = passes.pop().expect("two were asked for");
    let mut writer = passes.pop().expect("two were asked for");
    writer.put(b"apple", b"30")?;
    let mut then = reader.pin();
    let root = then.root();
    std::thread::spawn(move || {
        writer.put(b"apple", b"31")?;
        writer.put(b"pear", b"7")
    })
    .join()
    .expect("the writer ends")?;
    assert_eq!(then.get(b"apple")?, Some(b"30".to_vec()));
    assert_eq!(then.root(), root);
    println!("a proof of {} bytes", then.prove(b"apple")?.len());
    drop(then);
    for pair in reader.items(b"", b"") {
        let (key, value) = pair?;
        println!("{} {}", String::from_utf8_lossy(&key), String::from_utf8_lossy(&value));
    }
    Ok(())
}
