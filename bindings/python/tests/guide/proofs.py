"""A client that has the root of a version, and no bitmap."""

from typing import Optional

from mortarpink import Error, verify_bit


def was_active(root: bytes, proof: bytes, validator: int) -> Optional[bool]:
    """Returns whether a validator was active in the version with a root, or None if the bytes do not show it."""
    try:
        return verify_bit(root, proof, validator)
    except Error:
        return None
