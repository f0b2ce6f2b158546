from guide.updates import Update
from mortarpink import Bitmap


def check_update(replica: Bitmap, update: Update) -> None:
    """Raises ValueError if an update is not for this replica: for its latest version and width, and to a later version."""
    if update.width != replica.width:
        raise ValueError(f"the update has chunks of {update.width} bytes, and the replica of {replica.width}")
    if update.older != replica.latest:
        raise ValueError(f"the update is for version {update.older}, and the replica is at {replica.latest}")
    if update.newer <= update.older:
        raise ValueError(f"the update makes version {update.newer}, which is not later than {update.older}")


def apply_update(replica: Bitmap, update: Update) -> None:
    """Brings a replica of the older version to the newer one, and commits it. If a call raises, the replica is unchanged."""
    check_update(replica, update)
    with replica.batch(commit=update.newer) as batch:
        batch.truncate(min(update.length, batch.length))
        batch.extend_to(update.length)
        for index, data in update.chunks.items():
            batch.set_chunk(index, data)
        batch.prune(8 * replica.width * update.pruned_chunks)
