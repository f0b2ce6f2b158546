//! A server keeps which validators of a chain were active at each height, and a light client checks single ones and whole ranges of them: the client
//! has the root of each height, and no bitmap.
//!
//! Run it with `cargo run --example light_client`. Its SHA-256 is for examples: take one from a crate.

mod sha256;

use mortarpink::bitmap::Readable;
use mortarpink::bitmap::historical::{Error, RewindError};
use mortarpink::roots::{AuthenticatedBitMap, DecodeError, DirtyAuthenticatedBitMap, Proof, RangeProof, verify_bit};
use sha256::Sha256;
use std::collections::BTreeMap;

/// Bit k of version h says whether validator k was active at height h.
struct Server {
    validators: AuthenticatedBitMap<8, Sha256>,
}

impl Server {
    /// Commits a block of edits at a height.
    fn commit(self, height: u64, edit: impl FnOnce(&mut DirtyAuthenticatedBitMap<8, Sha256>)) -> Result<Server, Error> {
        let mut block = self.validators.into_dirty();
        edit(&mut block);
        Ok(Server { validators: block.commit(height)? })
    }

    /// Rewinds to a height, as after a reorganisation of the chain.
    fn rewind(self, height: u64) -> Result<Server, RewindError> {
        let validators = self.validators.rewind_to(height).map_err(|(_, error)| error)?;
        Ok(Server { validators })
    }

    /// The root of a height, which the server publishes.
    fn root(&self, height: u64) -> Option<[u8; 32]> {
        self.validators.root_at(height)
    }

    /// The bytes that show whether a validator was active at a height. `None` if the height is not kept, or does not retain the validator's bit.
    fn proof(&self, height: u64, validator: u64) -> Option<Vec<u8>> {
        let past = self.validators.bits().at(height)?;
        let index = (validator / 64) as usize;
        let (chunk, path) = (past.retained_bytes(index)?, self.validators.prove_at(height, index)?);
        let pruned = past.pruned_chunks() as u64;
        Some(Proof { len: past.len(), pruned, index: index as u64, chunk: &chunk, path: &path }.write())
    }

    /// The bytes that show the chunks from a first one on at a height, all by one proof.
    fn range(&self, height: u64, first: usize, count: usize) -> Option<Vec<u8>> {
        let past = self.validators.bits().at(height)?;
        let siblings = self.validators.prove_range_at(height, first, count)?;
        let chunks = (first..first + count).map(|index| past.retained_bytes(index)).collect::<Option<Vec<_>>>()?;
        let pruned = past.pruned_chunks() as u64;
        Some(RangeProof { len: past.len(), pruned, first: first as u64, chunks: &chunks, siblings: &siblings }.write())
    }
}

/// A client that has the roots alone. It got them from someone whom it trusts when the blocks were made.
#[derive(Default)]
struct Client {
    roots: BTreeMap<u64, [u8; 32]>,
}

impl Client {
    /// Whether a validator was active at a height, by the bytes of a server that the client does not trust. `None` if the bytes do not show it.
    fn was_active(&self, validator: u64, height: u64, bytes: &[u8]) -> Result<Option<bool>, DecodeError> {
        let proof = Proof::<8>::read(bytes)?;
        let Some(root) = self.roots.get(&height) else { return Ok(None) };
        let is_shown = |bit: &bool| verify_bit(&Sha256, root, proof.len, proof.pruned, validator, *bit, proof.chunk, proof.path);
        Ok([true, false].into_iter().find(is_shown))
    }

    /// How many validators of the chunks from `first` on were active at a height. `None` if the bytes do not verify, or show other chunks.
    fn count_active(&self, first: u64, count: usize, height: u64, bytes: &[u8]) -> Result<Option<u32>, DecodeError> {
        let proof = RangeProof::<8>::read(bytes)?;
        let Some(root) = self.roots.get(&height) else { return Ok(None) };
        let are_shown = proof.first == first && proof.chunks.len() == count && proof.verify(&Sha256, root);
        Ok(are_shown.then(|| proof.chunks.iter().flatten().map(|byte| byte.count_ones()).sum()))
    }
}

/// How the client reports what a proof shows.
fn words(shown: Option<bool>) -> &'static str {
    match shown {
        Some(true) => "active",
        Some(false) => "not active",
        None => "not shown, so the client refuses the proof",
    }
}

/// Gives the client the root of a height, and prints it.
fn publish(server: &Server, client: &mut Client, height: u64) {
    let root = server.root(height).expect("the height is kept");
    println!("root at height {height}: {}..", root[..4].iter().map(|byte| format!("{byte:02x}")).collect::<String>());
    client.roots.insert(height, root);
}

/// Checks single validators, and that the client refuses a proof of another height or validator, and one in which a bit was changed.
fn check_single_validators(server: &Server, client: &Client) -> Result<(), DecodeError> {
    for height in [1, 2, 3] {
        let bytes = server.proof(height, 150).expect("the height is kept");
        println!("validator 150 at height {height}, by {} bytes: {}", bytes.len(), words(client.was_active(150, height, &bytes)?));
    }
    let bytes = server.proof(2, 150).expect("the height is kept");
    println!("validator 150 at height 1, by the proof of height 2: {}", words(client.was_active(150, 1, &bytes)?));
    println!("validator 300 at height 2, by the proof of validator 150: {}", words(client.was_active(300, 2, &bytes)?));
    let mut forged = bytes.clone();
    forged[40 + 150 % 64 / 8] ^= 1 << (150 % 8);
    println!("validator 150 at height 2, by a forged proof: {}", words(client.was_active(150, 2, &forged)?));
    println!("validator 150 at height 2, by a proof that is cut off: {}", client.was_active(150, 2, &bytes[..100]).unwrap_err());
    Ok(())
}

/// Checks several chunks by one proof, which is of one height too.
fn check_ranges(server: &Server, client: &Client) -> Result<(), DecodeError> {
    let bytes = server.range(1, 1, 3).expect("the height is kept");
    println!("active of 64 to 255 at height 1, by {} bytes: {:?}", bytes.len(), client.count_active(1, 3, 1, &bytes)?);
    println!("active of 64 to 255 at height 2, by that proof: {:?}", client.count_active(1, 3, 2, &bytes)?);
    Ok(())
}

fn main() -> Result<(), Box<dyn std::error::Error>> {
    let (mut client, server) = (Client::default(), Server { validators: AuthenticatedBitMap::new(Sha256) });
    let server = server.commit(1, |block| {
        block.extend_to(1000).set_range(100..200, true);
    })?;
    let server = server.commit(2, |block| {
        block.set_bit(150, false);
    })?;
    // The validators below 128 have left for good.
    let server = server.commit(3, |block| {
        block.set_bit(150, true).prune_to_bit(128);
    })?;
    for height in [1, 2, 3] {
        publish(&server, &mut client, height);
    }
    check_single_validators(&server, &client)?;
    check_ranges(&server, &client)?;

    // The chain is reorganised: block 3 is another one. The proof of the old block does not verify by its root.
    let old = server.proof(3, 150).expect("the height is kept");
    let mut server = server.rewind(2)?.commit(3, |block| {
        block.set_bit(160, false);
    })?;
    publish(&server, &mut client, 3);
    println!("validator 150 at the new height 3, by the proof of the old one: {}", words(client.was_active(150, 3, &old)?));
    let bytes = server.proof(3, 160).expect("the height is kept");
    println!("validator 160 at the new height 3: {}", words(client.was_active(160, 3, &bytes)?));

    // The server keeps the heights from 2 on. The client checks what it was sent before as long as it has the root.
    let bytes = server.proof(1, 150).expect("the height is kept");
    server.validators.prune_commits_before(2);
    println!("the server can still prove height 1: {}", server.proof(1, 150).is_some());
    println!("validator 150 at height 1, by a proof from before: {}", words(client.was_active(150, 1, &bytes)?));
    Ok(())
}
