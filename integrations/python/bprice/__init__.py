"""bprice from Python: bounded pure integer programs in exact numbers, with answers that are certified.

    import bprice

    answer = bprice.solve("plan.lp", dec="plan.dec", time=60)
    print(answer.status, answer.value, answer.bound, answer.point, answer.certificate)

    model = bprice.Model("max")
    model.add_variable("x", 0, 3)
    model.add_variable("y", 0, 3)
    model.set_objective({"x": 3, "y": 2})
    model.add_row("c1", {"x": 2, "y": 1}, high=5)
    print(model.solve().value)

`bprice.mps` reads MPS files, and `bprice.pulp` makes bprice a solver of PuLP.
"""
from bprice.answer import Answer, check, solve
from bprice.exact import Refused
from bprice.model import Model, Row
from bprice.program import find_program

__all__ = ["Answer", "Model", "Refused", "Row", "check", "find_program", "solve"]
