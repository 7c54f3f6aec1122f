"""The modules of `bindings/` and `examples/` that checks call: they stand in folders of their own,
as packages for users, so that this names the folders once."""
import sys

from gate import TOP

for folder in ("bindings", "bindings/python", "examples/udp"):
    sys.path.append(str(TOP / folder))

import build  # noqa: E402
import network  # noqa: E402
import scion  # noqa: E402
from scion import Library  # noqa: E402

__all__ = ["Library", "build", "network", "scion"]
