//! The reads, which a pass and a pinned pass have alike.
use crate::differing::{differing, Difference};
use crate::raw::{self, Hand};
use crate::{Error, Format, KEY_LONGEST, ROOT_LENGTH, VALUE_LONGEST};
use std::iter::FusedIterator;
use std::vec;

/// What holds a hand. It is this crate's alone, so that no other type has [`Reads`].
///
/// No code outside changes places between two hands, though it may call `hand`:
///
/// ```compile_fail
/// fn swap<R: mst_store::Reads>(one: &mut R, other: &mut R) {
///     std::mem::swap(one.hand(), other.hand());
/// }
/// ```
pub trait Held {
    /// A pointer to the hand, for a call of the library.
    fn hand(&mut self) -> *mut Hand;
    /// The same, and the room for proofs, which grows to the longest: so a proof is made once.
    #[doc(hidden)]
    fn hand_and_room(&mut self) -> (*mut Hand, &mut Vec<u8>);
}

/// A key and its value.
pub type Pair = (Vec<u8>, Vec<u8>);

/// Returns the value for the code that a call returned, or the number of a refusal.
pub(crate) fn value(code: i32, room: &[u8]) -> Result<Option<Vec<u8>>, i32> {
    match code {
        0.. => Ok(Some(room[..code as usize].to_vec())),
        raw::ABSENT => Ok(None),
        refused => Err(refused),
    }
}

/// The most bytes that a pair takes in the room of mst_range.
pub(crate) const PAIR_LONGEST: usize = 4 + KEY_LONGEST + VALUE_LONGEST;

/// A number of pairs, which stand first in the room of mst_range.
pub(crate) fn pairs(room: &[u8], count: usize) -> Vec<Pair> {
    let mut rest = room;
    let mut taken = |length: usize| {
        let (front, back) = rest.split_at(length);
        rest = back;
        front
    };
    (0..count)
        .map(|_| {
            let lengths = taken(4);
            let key = usize::from(u16::from_be_bytes([lengths[0], lengths[1]]));
            let value = usize::from(u16::from_be_bytes([lengths[2], lengths[3]]));
            (taken(key).to_vec(), taken(value).to_vec())
        })
        .collect()
}

/// The pairs that mst_range or mst_page_after finds.
fn listing(
    hand: *mut Hand,
    find: raw::Range,
    low: &[u8],
    to: &[u8],
    limit: usize,
) -> Result<Vec<Pair>, Error> {
    let most = u32::try_from(limit).unwrap_or(u32::MAX);
    let mut room = vec![0; PAIR_LONGEST * limit.min(64)];
    loop {
        let (mut count, mut length) = (0, 0);
        // Safety: the hand is valid, and so is each pointer for the length that goes with it.
        let code = unsafe {
            find(
                hand,
                low.as_ptr(),
                low.len(),
                to.as_ptr(),
                to.len(),
                most,
                room.as_mut_ptr(),
                room.len(),
                &mut count,
                &mut length,
            )
        };
        match code {
            0 => return Ok(pairs(&room, count)),
            // By the next try a free pass may have more pairs, so this is a loop.
            raw::SHORT_ROOM => room.resize(length, 0),
            refused => return Err(Error::of(refused)),
        }
    }
}

/// The reads: of the current version by a free pass, of the pinned one by a pinned pass. They wait
/// for no one.
#[allow(clippy::len_without_is_empty)] // next tells that without a count
pub trait Reads: Held {
    /// Returns the value of the key, or None if the key is absent.
    fn get(&mut self, key: &[u8]) -> Result<Option<Vec<u8>>, Error> {
        let mut room = [0; VALUE_LONGEST];
        // Safety: each pointer is valid for the length that goes with it, and the room is no
        // other's.
        let code = unsafe {
            raw::mst_get(self.hand(), key.as_ptr(), key.len(), room.as_mut_ptr(), room.len())
        };
        value(code, &room).map_err(Error::of)
    }

    /// Returns the pair of the least key above `after`, or of the least key of all if `after` is
    /// empty; None if there is no such pair.
    fn next(&mut self, after: &[u8]) -> Result<Option<Pair>, Error> {
        let (mut room, mut found, mut length) = ([0; VALUE_LONGEST], [0; KEY_LONGEST], 0);
        // Safety: as in get.
        let code = unsafe {
            raw::mst_next(
                self.hand(),
                after.as_ptr(),
                after.len(),
                found.as_mut_ptr(),
                found.len(),
                &mut length,
                room.as_mut_ptr(),
                room.len(),
            )
        };
        let value = value(code, &room).map_err(Error::of)?;
        Ok(value.map(|value| (found[..length].to_vec(), value)))
    }

    /// Returns the first pairs, at most `limit`, whose keys are at least `from` and below `to`, by
    /// rising keys and all of one version. An empty bound does not bind.
    fn range(&mut self, from: &[u8], to: &[u8], limit: usize) -> Result<Vec<Pair>, Error> {
        listing(self.hand(), raw::mst_range, from, to, limit)
    }

    /// As [`Reads::range`], of the keys that are above `after`: the page behind a pair that was the
    /// last of the page before. Behind an empty `after` are all pairs. The pages of a [`Pinned`]
    /// are of one version; those of a free pass are not, if another pass writes between them.
    ///
    /// ```
    /// use mst_store::{open, Options, Reads};
    ///
    /// let mut pass = open(Options { rows: 1000, passes: 1, ..Options::default() })?.remove(0);
    /// for number in 0..20_u8 {
    ///     pass.put(&[number; 32], b"")?;
    /// }
    /// let mut then = pass.pin();
    /// let (mut last, mut keys) = (Vec::new(), 0);
    /// loop {
    ///     let page = then.page_after(&last, b"", 8)?;
    ///     let Some(pair) = page.last() else { break };
    ///     last = pair.0.clone();
    ///     keys += page.len();
    /// }
    /// assert_eq!(keys, 20);
    /// # Ok::<(), mst_store::Error>(())
    /// ```
    ///
    /// [`Pinned`]: crate::Pinned
    fn page_after(&mut self, after: &[u8], to: &[u8], limit: usize) -> Result<Vec<Pair>, Error> {
        listing(self.hand(), raw::mst_page_after, after, to, limit)
    }

    /// Goes over the pairs whose keys are at least `from` and below `to`, by rising keys, and reads
    /// them in pages of at most 64. An empty bound does not bind. Those of a [`Pinned`] are of one
    /// version; those of a free pass are not, if another pass writes between two pages.
    ///
    /// An [`Error`] is the last item: `BadKey` at once if a bound has more than 32 bytes, and
    /// `Memory` at a page for which there is none.
    ///
    /// ```
    /// use mst_store::{open, Options, Reads};
    ///
    /// let mut pass = open(Options { rows: 1000, passes: 1, ..Options::default() })?.remove(0);
    /// pass.put(b"apple", b"30")?;
    /// pass.put(b"pear", b"12")?;
    /// let mut then = pass.pin();
    /// let mut keys = Vec::new();
    /// for pair in then.items(b"b", b"") {
    ///     let (key, _value) = pair?;
    ///     keys.push(key);
    /// }
    /// assert_eq!(keys, [b"pear"]);
    /// # Ok::<(), mst_store::Error>(())
    /// ```
    ///
    /// [`Pinned`]: crate::Pinned
    fn items(&mut self, from: &[u8], to: &[u8]) -> Items<'_, Self>
    where
        Self: Sized,
    {
        Items::new(self, from, to)
    }

    /// Returns the root digest, in the format of the version.
    fn root(&mut self) -> [u8; ROOT_LENGTH] {
        let mut root = [0; ROOT_LENGTH];
        // Safety: as in get.
        let code = unsafe { raw::mst_root(self.hand(), root.as_mut_ptr(), root.len()) };
        // The hand holds a pass and the room is long enough, so nothing is refused.
        assert_eq!(code, ROOT_LENGTH as i32, "the library and this crate do not fit");
        root
    }

    /// Returns the proof of the key's answer, which a verifier judges by the format and the root
    /// digest of the same version.
    fn prove(&mut self, key: &[u8]) -> Result<Vec<u8>, Error> {
        let (hand, room) = self.hand_and_room();
        if room.is_empty() {
            room.resize(4096, 0);
        }
        loop {
            let mut length = 0;
            // Safety: as in get.
            let code = unsafe {
                raw::mst_prove(
                    hand,
                    key.as_ptr(),
                    key.len(),
                    room.as_mut_ptr(),
                    room.len(),
                    &mut length,
                )
            };
            match code {
                0 => return Ok(room[..length].to_vec()),
                // The proof of a free pass may have grown again by the next try, so this is a loop.
                raw::SHORT_ROOM => room.resize(length.max(2 * room.len()), 0),
                refused => return Err(Error::of(refused)),
            }
        }
    }

    /// Returns where the map differs from another one of the same format, of which only this root
    /// digest need be trusted, by rising keys: it goes down both trees, and asks for what differs
    /// node by node, each once. `ask` is given a key and a number, and returns what the other map
    /// gives by [`proof_piece`](crate::proof_piece) of its proof of the key, all of one version. A
    /// piece that is not the one asked for is an `Error::OtherPiece`.
    fn differing<A, E>(&mut self, root: &[u8; ROOT_LENGTH], ask: A) -> Result<Vec<Difference>, E>
    where
        Self: Sized,
        A: FnMut(&[u8], u32) -> Result<Vec<u8>, E>,
        E: From<Error>,
    {
        differing(self.hand(), root, ask)
    }

    /// Returns the number of the version: the number of writes and migrations before it.
    ///
    /// Sent with a message, it, or that of [`Pass::made`](crate::Pass::made), is all that
    /// read-your-writes over threads needs: a pass that is not pinned, and has here at least the
    /// number that it was sent, has seen, in this call and in each later one, all that the sender
    /// had written and read.
    fn version(&mut self) -> u64 {
        let mut version = 0;
        // Safety: both pointers are valid.
        let code = unsafe { raw::mst_version(self.hand(), &mut version) };
        // The hand holds a pass, so nothing is refused.
        assert_eq!(code, 0, "the library and this crate do not fit");
        version
    }

    /// Returns how many pairs the version has. It counts them anew each time, by the nodes of the
    /// tree. [`Reads::next`] tells sooner whether there is any.
    fn len(&mut self) -> u64 {
        let mut count = 0;
        // Safety: both pointers are valid.
        let code = unsafe { raw::mst_len(self.hand(), &mut count) };
        // The hand holds a pass, so nothing is refused.
        assert_eq!(code, 0, "the library and this crate do not fit");
        count
    }

    /// Returns the format of the version, in which its root digest and its proofs are.
    fn format(&mut self) -> Format {
        // Safety: the hand is valid. It holds a pass, so nothing is refused.
        let code = unsafe { raw::mst_format(self.hand()) };
        Format::told(code).expect("the library and this crate have the same formats")
    }
}

/// What lists pairs: each of [`Reads`], and a snapshot. It is this crate's alone, as [`Held`] is.
pub trait Listing {
    /// The first pairs, as of a range.
    #[doc(hidden)]
    fn list(&mut self, from: &[u8], to: &[u8], limit: usize) -> Result<Vec<Pair>, Error>;
}

impl<R: Reads> Listing for R {
    fn list(&mut self, from: &[u8], to: &[u8], limit: usize) -> Result<Vec<Pair>, Error> {
        self.range(from, to, limit)
    }
}

/// The most pairs of a page of [`Items`]. The first room of a range is long enough for them.
const PAGE_MOST: usize = 64;

/// The pairs by rising keys, of [`Reads::items`] or of a snapshot. It takes memory for one page,
/// and may be dropped at any pair.
#[derive(Debug)]
#[must_use = "an iterator asks for no pair before it is used"]
pub struct Items<'a, L: Listing> {
    of: &'a mut L,
    from: Vec<u8>,
    to: Vec<u8>,
    /// The last key of the page, empty before the first page.
    last: Vec<u8>,
    page: vec::IntoIter<Pair>,
    /// No page follows.
    is_last: bool,
}

impl<'a, L: Listing> Items<'a, L> {
    pub(crate) fn new(of: &'a mut L, from: &[u8], to: &[u8]) -> Self {
        let (from, to) = (from.to_vec(), to.to_vec());
        Items { of, from, to, last: Vec::new(), page: Vec::new().into_iter(), is_last: false }
    }

    /// Reads the next page. It begins with the last pair of the one before, if that is still there.
    fn turn(&mut self) -> Result<(), Error> {
        self.is_last = true; // also after an error
        let from = if self.last.is_empty() { &self.from } else { &self.last };
        let page = self.of.list(from, &self.to, PAGE_MOST)?;
        self.is_last = page.len() < PAGE_MOST;
        let is_known = page.first().is_some_and(|(key, _)| *key == self.last);
        if let Some((key, _)) = page.last() {
            self.last.clone_from(key);
        }
        self.page = page.into_iter();
        if is_known {
            self.page.next();
        }
        Ok(())
    }
}

impl<L: Listing> Iterator for Items<'_, L> {
    type Item = Result<Pair, Error>;

    fn next(&mut self) -> Option<Self::Item> {
        if self.page.len() == 0 && !self.is_last {
            if let Err(error) = self.turn() {
                return Some(Err(error));
            }
        }
        self.page.next().map(Ok)
    }
}

impl<L: Listing> FusedIterator for Items<'_, L> {}

/// The pairs that a call lists. A snapshot stays, so the second room is long enough.
pub(crate) fn listed(
    call: impl Fn(&mut [u8], &mut usize, &mut usize) -> i32,
) -> Result<Vec<Pair>, Error> {
    let (mut count, mut length) = (0, 0);
    let mut room = vec![0; 64 * PAIR_LONGEST];
    let mut code = call(&mut room, &mut count, &mut length);
    if code == raw::SHORT_ROOM {
        room.resize(length, 0);
        code = call(&mut room, &mut count, &mut length);
    }
    match code {
        0 => Ok(pairs(&room, count)),
        code => Err(Error::of(code)),
    }
}

#[cfg(test)]
mod tests {
    use super::*;

    /// Lists full pages of ever greater keys, of which the third is refused.
    struct Refusing(u8);

    impl Listing for Refusing {
        fn list(&mut self, _: &[u8], _: &[u8], limit: usize) -> Result<Vec<Pair>, Error> {
            self.0 += 1;
            let page = self.0;
            match page {
                3 => Err(Error::Memory),
                _ => Ok((0..limit).map(|at| (vec![page, at as u8], Vec::new())).collect()),
            }
        }
    }

    #[test]
    fn an_error_is_the_last_item() {
        let mut of = Refusing(0);
        let mut items = Items::new(&mut of, b"", b"");
        assert!((0..128).all(|_| items.next().is_some_and(|pair| pair.is_ok())));
        assert_eq!(items.next(), Some(Err(Error::Memory)));
        assert_eq!((items.next(), items.next()), (None, None));
    }
}
