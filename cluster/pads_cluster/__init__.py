"""`pads parse` on many machines: the same lines, byte for byte, from an input that is read in parts.

An input is cut into parts at record bounds (`splitting`, `bounds`, `words`), each part is read by one process of `pads`
(`running`), the numbers and offsets in its lines are moved to the whole input (`lines`), and the parts are written in
order (`joining`). dask.distributed says which machine does what, and when again (`engine`).
"""

import hashlib
import pkgutil
import sys

# The modules that workers get (`engine`), whether they lie in a folder or in an archive.
SENT = {name: pkgutil.get_data(__name__, f"{name}.py") for name in ("__init__", "bounds", "inputs", "lines", "options", "running", "splitting", "words")}

VERSION = hashlib.sha256(b"".join(SENT.values())).hexdigest()

# A worker that has had them before loads this one anew; the others then have to follow.
for _name in [name for name in sys.modules if name.startswith(f"{__name__}.")]:
    del sys.modules[_name]
