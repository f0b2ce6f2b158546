"""A writer sends deltas to replicas. One replica was away, and begins anew with the writer's history."""

from mortarpink import Bitmap, NotAtBaseError


def commit(writer: Bitmap, number: int) -> None:
    """Some edits that depend on the number."""
    with writer.batch(commit=number) as batch:
        batch.push_bytes(bytes([number] * 100))
        batch.set(number, not batch.get(number))


def state(bitmap: Bitmap) -> str:
    return f"commits {list(bitmap.commits())}, {bitmap.length} bits, {bitmap.count_ones()} of them set"


def main() -> None:
    writer = Bitmap()
    commit(writer, 1)
    near, away = Bitmap.load(writer.save()), Bitmap.load(writer.save())

    for number in range(2, 6):
        commit(writer, number)
        delta = writer.delta(number - 1, number)
        near.apply_delta(delta)
        print(f"delta from {number - 1} to {number}: {len(delta)} bytes")
    print(f"near: {state(near)}")

    # A delta for another version is refused, and changes nothing.
    try:
        away.apply_delta(writer.delta(4, 5))
    except NotAtBaseError as error:
        print(f"away: {error}")
    print(f"away: {state(away)}")

    # One delta spans the commits that it missed. It gets the last one of them, and the whole history has all.
    away.apply_delta(writer.delta(1, 5))
    print(f"away: {state(away)}")
    history = writer.save()
    away = Bitmap.load(history)
    print(f"away: {state(away)}, from {len(history)} bytes")

    # Equal histories have equal bytes.
    print(f"equal: {near.save() == away.save() == history}")


if __name__ == "__main__":
    main()
