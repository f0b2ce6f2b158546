"""Messages from a writer to replicas: deltas, or the whole history."""

from typing import Optional

from mortarpink import Bitmap


def message_for(writer: Bitmap, at: Optional[int]) -> Optional[tuple[str, bytes]]:
    """Returns the message for a replica that is at a version, or None if it is at the latest one.

    A replica whose version the writer does not keep gets the history.
    """
    if at is not None and at == writer.latest:
        return None
    if at is not None and writer.commit_exists(at):
        return "delta", writer.delta(at, writer.latest)
    return "history", writer.save()


def receive(replica: Bitmap, message: tuple[str, bytes]) -> Bitmap:
    """Returns the replica after a message. If a call raises, the replica is as before."""
    kind, data = message
    if kind == "history":
        return Bitmap.load(data, replica.width, most=1_000_000, most_commits=1000)
    replica.apply_delta(data)
    return replica
