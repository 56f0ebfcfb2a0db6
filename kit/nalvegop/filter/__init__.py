"""Makes a preprocessed file fit for the checker, by spaces in place of what its own functions do not need.

Lines stay, and so does what stands in them, but where something longer is put: what stands behind it moves in that line, and
`Moved` tells where it stood. Blanks at the ends of lines go. Each step keeps the meaning of the
functions that are left, or says where it is written what it loses; docs/MODELS.md has them as a table. A function whose
meaning would be lost, since it has something that runs at the end of a scope, is *passed over*: its body becomes a `;`, and
its name is given with the reason.
"""

from .members import KINDS
from .names import ADDRESS, BUILT_IN, DISTANCE, MODEL_HEAD, NUMBER, ORDER, PART, POINTER, PUT, STEPPED
from .whole import Filter, Filtered

__all__ = ["ADDRESS", "BUILT_IN", "DISTANCE", "KINDS", "MODEL_HEAD", "NUMBER", "ORDER", "PART", "POINTER", "PUT", "STEPPED", "Filter", "Filtered"]
