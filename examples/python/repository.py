"""Which raimsklo the examples import: this repository's where its library is built, otherwise the installed one.

Where neither is there, the repository's says how its library is made.
"""

import os
import sys

PACKAGE = os.path.join(os.path.dirname(os.path.abspath(__file__)), "../../hosts/python")

built = os.path.exists(os.path.join(PACKAGE, "raimsklo", "libraimsklo.so"))
sys.path.insert(0 if built else len(sys.path), PACKAGE)
