"""The modules of the repository's tools/ that the depot uses too."""
import os
import sys

from .places import DEPOT

sys.path.append(os.path.join(os.path.dirname(DEPOT), "tools"))
import accounts
import ledger_form
import script
