"""Groups of keys, of which each subtask has some, so that another parallelism finds the state of a key. It needs no library."""
import zlib
from typing import Any


def _word(key: Any) -> bytes:
    if isinstance(key, tuple):
        return b"(%s)" % b"".join(b"%d:%s" % (len(it), it) for it in map(_word, key))
    if not isinstance(key, (str, bytes, int)):
        raise TypeError(f"a key is a str, bytes, int, or a tuple of such, and not a {type(key).__name__}")
    return key if isinstance(key, bytes) else str(int(key) if isinstance(key, int) else key).encode()


def group_of(key: Any, most: int) -> int:
    """The group of a key, from 0 and below `most`. Keys that are equal are in the same group, in each process and in Rust. (hash() of a text is another one in
    each process.) A job keeps `most`. Subtask i of n has the groups g with g * n // most == i: some more of them, or fewer, once there is another n."""
    return zlib.crc32(_word(key)) % most
