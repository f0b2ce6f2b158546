from pathlib import Path
from typing import Callable

from mortarpink import Batch, Store


def open_orders(path: Path) -> Store:
    """Opens the orders, or begins them. Raises LockedError if another store has them open, DecodeError if a byte is damaged, and MissingEndError or OtherLogError if what was acknowledged is missing."""
    orders = Store(path, compact_automatically=True)
    if orders.cut_bytes > 0:
        print(f"a crash has left {orders.cut_bytes} bytes of a change that was not acknowledged")
    return orders


def close_day(orders: Store, day: int, edit: Callable[[Batch], None]) -> None:
    """Edits the orders, and commits them as those of a day. Then they are on the disk. If a call raises, they are unchanged."""
    with orders.batch(commit=day) as batch:
        edit(batch)


def keep_days(orders: Store, days: int) -> None:
    """Keeps the last so many days, which are at least one, and drops those before them."""
    kept = list(orders.commits())
    if len(kept) > days:
        orders.drop_before(kept[-days])
