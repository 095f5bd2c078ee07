"""bprice as a solver of PuLP: the module `bprice.pulp` of the package in integrations/python, for use from the repository without installing it.

    import sys
    sys.path.insert(0, "integrations/pulp")
    from bprice_pulp import BPRICE_CMD
"""
import pathlib
import sys

sys.path.insert(0, str(pathlib.Path(__file__).resolve().parents[1] / "python"))
from bprice.pulp import BPRICE_CMD, Model  # noqa: E402

__all__ = ["BPRICE_CMD", "Model"]
