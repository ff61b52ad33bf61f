"""The client and the monitor of registries: `weoldrin fetch`, `publish`, `lock`, `check`, `monitor` and `gossip`.

A registry is asked over HTTP, as docs/HTTP.md says, and is believed in nothing: its records are replayed, and all else
is shown by a signed checkpoint and by proofs under it. What decides is the library. `told` lists by which names a
registry is told of.
"""

from .answers import Registry
from .following import Follower
from .packages import Package, package
from .publishing import publish
from .told import NoAnswer, Told, Unusable
from .trust import Trust

__all__ = ["Follower", "NoAnswer", "Package", "Registry", "Told", "Trust", "Unusable", "package", "publish"]
