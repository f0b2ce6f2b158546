from typing import NamedTuple

from mortarpink import Bitmap


class Update(NamedTuple):
    """What a replica of the older version receives."""

    older: int  # the number of the version that the replica has to be at
    newer: int  # the number of the version that the update makes
    width: int  # in bytes per chunk
    length: int  # of the newer version, in bits
    pruned_chunks: int  # of the newer version
    chunks: dict  # the bytes of changed chunks by index


def update_between(versions: Bitmap, older: int, newer: int) -> Update:
    """Makes the update from one version to a later one. A changed chunk that the later version does not retain is left out."""
    version, bits = versions.at(newer), 8 * versions.width
    changed = list(versions.changed_chunks(older, newer))
    kept = [index for index in changed if version.pruned_chunks <= index and index * bits < version.length]
    chunks = {index: version.chunk(index * bits) for index in kept}
    return Update(older, newer, versions.width, version.length, version.pruned_chunks, chunks)
