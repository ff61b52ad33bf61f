"""The generator of the pages that are made from the sources, and what else is read off the sources.

- `items`, `specs`: what stands in the files of code and of definitions; `names`: what a text names
- `models`, `closure`: how definitions see types of the code, and all that a definition rests on
- `public`: what `warg_protocol` shows; `api` and `headline` write the pages of it; `cited` finds names that it lacks
- `crates`: the crates as a list and as a picture; `documents`: what is checked of the pages that are written by hand

The programs `tools/api`, `tools/headline`, `tools/pictures`, `tools/check_names` and `tools/check_documents` call
these.
"""
from .shared import write_or_compare

__all__ = ["write_or_compare"]
