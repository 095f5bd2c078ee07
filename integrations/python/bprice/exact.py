"""Numbers as exact fractions, names that LP texts can have, and the error for what bprice can't be told."""
import decimal
import fractions
import itertools
import math
import numbers
import re

NAME = re.compile(r"""[A-Za-z!"#$%&(),;?@_`'{}~/|][A-Za-z0-9!"#$%&(),.;?@_`'{}~/|]{0,254}""")
# Names that stand for something else where they come first on a line, or in a bounds section.
TAKEN = set("maximize maximum max minimize minimum min subject such st s.t. st. bounds bound general generals gen integer integers int "
            "binary binaries bin end semi semis sos sos1 sos2 pwlobj lazy user inf infinity free".split())


class Refused(Exception):
    """What can't be said to bprice, or what the program refused, in words; `status` is the program's, None where it was not called."""

    def __init__(self, words, status=None):
        super().__init__(words)
        self.status = status


def exact(number, where):
    """
    A number as a fraction; of a float that is its shortest decimal, so that 0.1 is one tenth.

    :param where: what the number is, for the error
    :raises Refused: where it is no finite number
    """
    if isinstance(number, numbers.Rational):
        return fractions.Fraction(int(number.numerator), int(number.denominator))
    try:
        return fractions.Fraction(number if isinstance(number, (decimal.Decimal, str)) else float.__repr__(float(number)))
    except (TypeError, ValueError, OverflowError) as fault:
        raise Refused(f"{where}: {number!r} is no number that can be written exactly") from fault


def end_of(number, where):
    """One end of a span or a row as a fraction, None where there is none or it is infinite."""
    return None if number is None or isinstance(number, float) and math.isinf(number) else exact(number, where)


def names_of(wanted, prefix):
    """For each name one that LP texts can have: the same where that can be, else the prefix and a number."""
    fitting = {name for name in wanted if NAME.fullmatch(name) and name.lower() not in TAKEN}
    free = (own for own in (f"{prefix}{place}" for place in itertools.count(1)) if own not in fitting)
    return {name: name if name in fitting else next(free) for name in wanted}
