//! A light client has the root of each block of a chain, and no bitmap. A server shows to it which
//! validators were active at a height. The client does not trust the server: it learns a bit only from
//! bytes that verify against the root of the height.
//!
//! Run it with `cargo run --example light_client`.

use mortarpink_proved::{Error, Width, verify_bit, verify_range};

/// The roots of the heights 1 and 2, which the client has from someone whom it trusts. Bit k says
/// whether validator k was active.
const ROOTS: [&str; 2] = [
    "fc8f7e612bf727a862905e04c5ca0fa1faf23eddd341b5b1fd05e30a70f030a6",
    "b4eed36b250799ee280653f18ab63f188a59492c1d82316c0da95a35310dd286",
];

/// What the server sends for the heights 1 and 2: the proof of validator 100, which shows the
/// validators from 64 to 127.
const PROOFS: [&str; 2] = [
    concat!(
        "000000000000000800000000000000c8000000000000000000000000000000010000000000000002",
        "ffffffffffffffffeb77310f210acaea03fd89af5b55e2768af3b4458d7af52e608b243359750af9",
        "4d5758fcc8d0723f578ed8ce5f70f0469a5d4110e67aa685d16c6d502d9052a2",
    ),
    concat!(
        "000000000000000800000000000000c8000000000000000000000000000000010000000000000002",
        "ffffffffefffffffeb77310f210acaea03fd89af5b55e2768af3b4458d7af52e608b243359750af9",
        "4d5758fcc8d0723f578ed8ce5f70f0469a5d4110e67aa685d16c6d502d9052a2",
    ),
];

/// The proof of a range at height 1, which shows the validators from 64 to 191.
const RANGE: &str = concat!(
    "000000000000000800000000000000c8000000000000000000000000000000010000000000000002",
    "0000000000000002ffffffffffffffffffff3f0000000000eb77310f210acaea03fd89af5b55e276",
    "8af3b4458d7af52e608b243359750af93e7077fd2f66d689e0cee6a7cf5b37bf2dca7c979af356d0",
    "a31cbc5c85605c7d",
);

/// Returns the bytes of hexadecimal digits.
fn bytes(digits: &str) -> Vec<u8> {
    let pairs = (0..digits.len()).step_by(2).map(|at| &digits[at..at + 2]);
    pairs.map(|pair| u8::from_str_radix(pair, 16).expect("these are digits")).collect()
}

/// A client that has the roots alone.
struct Client {
    roots: Vec<[u8; 32]>,
}

impl Client {
    /// Returns whether a validator was active at a height, if the proof shows it.
    fn was_active(&self, validator: u64, height: usize, proof: &[u8]) -> Result<bool, Error> {
        verify_bit(Width::Bytes8, &self.roots[height - 1], proof, validator)
    }

    /// Says the same in words.
    fn words(&self, validator: u64, height: usize, proof: &[u8]) -> String {
        match self.was_active(validator, height, proof) {
            Ok(true) => "active".to_owned(),
            Ok(false) => "not active".to_owned(),
            Err(error) => format!("refused, {error}"),
        }
    }
}

fn main() -> Result<(), Error> {
    let roots = ROOTS.map(|root| bytes(root).try_into().expect("a root has 32 bytes")).to_vec();
    let client = Client { roots };
    let proofs = PROOFS.map(bytes);
    for (height, proof) in (1..).zip(&proofs) {
        let words = client.words(100, height, proof);
        println!("validator 100 at height {height}, by {} bytes: {words}", proof.len());
    }
    for validator in [101, 150, 200] {
        let words = client.words(validator, 2, &proofs[1]);
        println!("validator {validator} at height 2, by the same bytes: {words}");
    }
    let words = client.words(100, 1, &proofs[1]);
    println!("validator 100 at height 1, by the bytes of height 2: {words}");

    // A server that wants the client to believe that validator 100 was active at height 2 sets its bit
    // in the bytes.
    let mut forged = proofs[1].clone();
    forged[40 + 100 % 64 / 8] |= 1 << (100 % 8);
    let words = client.words(100, 2, &forged);
    println!("validator 100 at height 2, by forged bytes: {words}");
    let words = client.words(100, 2, &proofs[1][..100]);
    println!("validator 100 at height 2, by bytes that are cut off: {words}");

    let range = bytes(RANGE);
    let shown = verify_range(Width::Bytes8, &client.roots[0], &range)?;
    let active: u32 = shown.chunks.iter().map(|byte| byte.count_ones()).sum();
    println!(
        "active from {} to 191 at height 1, by {} bytes: {active} of {}",
        64 * shown.first,
        range.len(),
        8 * shown.chunks.len()
    );
    Ok(())
}
