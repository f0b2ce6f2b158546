from mortarpink import Bitmap


def read_versions() -> None:
    """Makes 1,001 versions, and reads them in three ways."""
    versions = Bitmap()
    with versions.batch(commit=0) as batch:
        batch.extend_to(100_000)
    for number in range(1, 1001):
        with versions.batch(commit=number) as batch:
            batch[number] = True

    # A few bits of one version: read them in place.
    past = versions.at(10)
    assert past[10] and not past[11]

    # Bits of many versions: add the index once, and read in place.
    versions.set_indexed()
    for number in versions.commits():
        assert versions.at(number)[500] == (number >= 500)

    # Most bits of one version: make a bitmap of it.
    whole = versions.checkout(10)
    assert list(whole.ones()) == list(range(1, 11))
