"""A light client has the root of each block of a chain, and no bitmap. A server shows to it which validators were active at a height.

The client does not trust the server: it learns a bit only from bytes that verify against the root of the height.
"""

from __future__ import annotations

from mortarpink import Error, verify_bit, verify_range

# The roots of two heights, which the client has from someone whom it trusts. Bit k says whether validator k was active.
ROOTS = {
    1: bytes.fromhex("fc8f7e612bf727a862905e04c5ca0fa1faf23eddd341b5b1fd05e30a70f030a6"),
    2: bytes.fromhex("b4eed36b250799ee280653f18ab63f188a59492c1d82316c0da95a35310dd286"),
}

# What the server sends: by height, the proof of validator 100, which shows the validators from 64 to 127.
PROOFS = {
    1: bytes.fromhex(
        "000000000000000800000000000000c8000000000000000000000000000000010000000000000002"
        "ffffffffffffffffeb77310f210acaea03fd89af5b55e2768af3b4458d7af52e608b243359750af9"
        "4d5758fcc8d0723f578ed8ce5f70f0469a5d4110e67aa685d16c6d502d9052a2"
    ),
    2: bytes.fromhex(
        "000000000000000800000000000000c8000000000000000000000000000000010000000000000002"
        "ffffffffefffffffeb77310f210acaea03fd89af5b55e2768af3b4458d7af52e608b243359750af9"
        "4d5758fcc8d0723f578ed8ce5f70f0469a5d4110e67aa685d16c6d502d9052a2"
    ),
}

# The proof of a range at height 1, which shows the validators from 64 to 191.
RANGE = bytes.fromhex(
    "000000000000000800000000000000c8000000000000000000000000000000010000000000000002"
    "0000000000000002ffffffffffffffffffff3f0000000000eb77310f210acaea03fd89af5b55e276"
    "8af3b4458d7af52e608b243359750af93e7077fd2f66d689e0cee6a7cf5b37bf2dca7c979af356d0"
    "a31cbc5c85605c7d"
)


def words(validator: int, height: int, proof: bytes) -> str:
    """Says whether a validator was active at a height, if the proof shows it."""
    try:
        return "active" if verify_bit(ROOTS[height], proof, validator) else "not active"
    except Error as error:
        return f"refused, {error}"


def main() -> None:
    for height, proof in PROOFS.items():
        print(f"validator 100 at height {height}, by {len(proof)} bytes: {words(100, height, proof)}")
    print(f"validator 101 at height 2, by the same bytes: {words(101, 2, PROOFS[2])}")
    print(f"validator 150 at height 2, by the same bytes: {words(150, 2, PROOFS[2])}")
    print(f"validator 200 at height 2, by the same bytes: {words(200, 2, PROOFS[2])}")
    print(f"validator 100 at height 1, by the bytes of height 2: {words(100, 1, PROOFS[2])}")

    # A server that wants the client to believe that validator 100 was active at height 2 sets its bit in the bytes.
    forged = bytearray(PROOFS[2])
    forged[40 + 100 % 64 // 8] |= 1 << 100 % 8
    print(f"validator 100 at height 2, by forged bytes: {words(100, 2, bytes(forged))}")
    print(f"validator 100 at height 2, by bytes that are cut off: {words(100, 2, PROOFS[2][:100])}")

    shown = verify_range(ROOTS[1], RANGE)
    active = sum(bin(byte).count("1") for byte in shown.chunks)
    print(f"active from {64 * shown.first} to 191 at height 1, by {len(RANGE)} bytes: {active} of {8 * len(shown.chunks)}")


if __name__ == "__main__":
    main()
