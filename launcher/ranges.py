"""What integers an expression may have, and whether a formula can hold, by the ranges of what they read. It is coarse, and may know nothing."""
from typing import Dict, List, NamedTuple, Optional, Tuple

from launcher.formula import Compare, Expr, Formula, Join, Lasts, Literal, Not, Number, Place, Size, Sum, places_in
from launcher.script import GREATEST

Range = Tuple[int, int]
NEGATED = {"=": "!=", "!=": "=", "<": ">=", ">=": "<", ">": "<=", "<=": ">"}
TURNED = {"=": "=", "!=": "!=", "<": ">", ">": "<", "<=": ">=", ">=": "<="}
# The most texts of a set.
TEXTS = 64


class Known(NamedTuple):
    """The ranges of integer places, and comparisons that hold. `ranges` has an empty range where no values make them all hold."""

    ranges: Dict[Place, Range]
    facts: List[Compare]

    def is_impossible(self) -> bool:
        return any(low > high for low, high in self.ranges.values())

    def holds(self, formula: Formula) -> "Known":
        """What is known where this holds, too."""
        if isinstance(formula, Join) and formula.word == "and":
            known = self
            for part in formula.parts:
                known = known.holds(part)
            return known
        if isinstance(formula, Not) and isinstance(formula.of, Not):
            return self.holds(formula.of.of)
        if isinstance(formula, Not) and isinstance(formula.of, Compare) and formula.of.sign in NEGATED:
            return self.holds(Compare(NEGATED[formula.of.sign], formula.of.left, formula.of.right))
        if isinstance(formula, Not) and isinstance(formula.of, Join) and formula.of.word == "or":
            return self.holds(Join("and", tuple(Not(part) for part in formula.of.parts)))
        return self.compared(formula) if isinstance(formula, Compare) else self

    def compared(self, fact: Compare) -> "Known":
        known = Known(dict(self.ranges), [*self.facts, fact])
        known.narrow(fact.sign, fact.left, fact.right)
        if fact.sign in TURNED:
            known.narrow(TURNED[fact.sign], fact.right, fact.left)
        return known

    def narrow(self, sign: str, left: Expr, right: Expr) -> None:
        """Cuts the range of the left side, where that is a place."""
        there = self.range_of(right)
        if isinstance(left, Sum) and isinstance(left.right, Number) and left.sign in ("+", "-"):
            # `p + 1 <= e` cuts the range of `p` as `p <= e - 1` does.
            self.narrow(sign, left.left, Sum("-" if left.sign == "+" else "+", right, left.right))
            return
        if not isinstance(left, Place) or left not in self.ranges or there is None:
            return
        low, high = self.ranges[left]
        if sign in ("<", "<=", "="):
            high = min(high, there[1] - (sign == "<"))
        if sign in (">", ">=", "="):
            low = max(low, there[0] + (sign == ">"))
        if sign == "!=" and there[0] == there[1]:
            low, high = low + (low == there[0]), high - (high == there[0])
        self.ranges[left] = (low, high)

    def wrote(self, place: Place, value: Expr, declared: Range) -> "Known":
        """What is known when the value was written, and clamped."""
        there = self.range_of(value) or declared
        ranges = {**self.ranges, place: (clamp(there[0], declared), clamp(there[1], declared))}
        return Known(ranges, [fact for fact in self.facts if place not in places_in(fact)])

    def range_of(self, expr: Expr) -> Optional[Range]:
        """None where it isn't an integer."""
        if isinstance(expr, Number):
            return expr.value, expr.value
        if isinstance(expr, Place):
            return self.ranges.get(expr)
        if isinstance(expr, Size):
            return 0, TEXTS
        if isinstance(expr, Sum):
            left, right = self.range_of(expr.left), self.range_of(expr.right)
            return self.range_of_sum(expr, left, right) if left and right else None
        return None

    def range_of_sum(self, expr: Sum, left: Range, right: Range) -> Range:
        if expr.sign == "*":
            ends = [a * b for a in left for b in right]
        elif expr.sign == "+":
            ends = [left[0] + right[0], left[1] + right[1]]
        else:
            ends = [left[0] - right[1], left[1] - right[0]]
            ends[0] = max(ends[0], self.least_difference(expr, ends[0]))
        whole = (-GREATEST, GREATEST)
        return clamp(min(ends), whole), clamp(max(ends), whole)

    def least_difference(self, expr: Sum, least: int) -> int:
        """`a - b` is at least 0 where `a >= b` is known, and at least 1 where `a > b` is."""
        for fact in self.facts:
            sides = [(fact.sign, fact.left, fact.right), (TURNED.get(fact.sign, ""), fact.right, fact.left)]
            for sign, left, right in sides:
                if (left, right) == (expr.left, expr.right) and sign in (">", ">=", "="):
                    least = max(least, int(sign == ">"))
        return least


def clamp(value: int, within: Range) -> int:
    return max(within[0], min(within[1], value))


def truth(known: Known, formula: Formula) -> Optional[bool]:
    """Whether a formula holds whatever the values are, or never. None where that isn't seen."""
    if isinstance(formula, Not):
        inner = truth(known, formula.of)
        return None if inner is None else not inner
    if isinstance(formula, Join):
        found = [truth(known, part) for part in formula.parts]
        decides = formula.word == "or"
        if decides in found:
            return decides
        return None if None in found else not decides
    if isinstance(formula, Lasts):
        return None
    return compare(known, formula)


def compare(known: Known, it: Compare) -> Optional[bool]:
    if isinstance(it.left, Literal) and isinstance(it.right, Literal) and it.sign in ("=", "!="):
        return (it.left == it.right) == (it.sign == "=")
    left, right = known.range_of(it.left), known.range_of(it.right)
    if left is None or right is None:
        return None
    if it.sign in ("=", "!="):
        is_equal = True if left == right and left[0] == left[1] else False if left[1] < right[0] or right[1] < left[0] else None
        return is_equal if is_equal is None or it.sign == "=" else not is_equal
    if it.sign in (">", ">="):
        left, right = right, left
    is_strict = it.sign in ("<", ">")
    if left[1] + is_strict <= right[0]:
        return True
    return False if left[0] + is_strict > right[1] else None


# ---- which way a change works

UP, DOWN = "up", "down"
BOTH = frozenset((UP, DOWN))


def turned(ways: frozenset) -> frozenset:
    return frozenset(DOWN if way == UP else UP for way in ways)


def ways_of(known: Known, expr: Expr, place: Place) -> frozenset:
    """Which way an expression may move when this place goes up."""
    if expr == place:
        return frozenset((UP,))
    if isinstance(expr, Size):
        return BOTH if ways_of(known, expr.of, place) else frozenset()
    if not isinstance(expr, Sum):
        return frozenset()
    left, right = ways_of(known, expr.left, place), ways_of(known, expr.right, place)
    if expr.sign == "*":
        return product_ways(known, expr.right, left) | product_ways(known, expr.left, right)
    return left | (right if expr.sign == "+" else turned(right))


def product_ways(known: Known, factor: Expr, ways: frozenset) -> frozenset:
    there = known.range_of(factor)
    if not ways or there is None or there[0] < 0 < there[1]:
        return BOTH if ways else ways
    return ways if there[0] >= 0 else turned(ways)


def falsified_by(known: Known, formula: Formula, place: Place, seeks: bool = False) -> frozenset:
    """Which ways of this place may make a formula false (or true, as is sought)."""
    if isinstance(formula, Not):
        return falsified_by(known, formula.of, place, not seeks)
    if isinstance(formula, Join):
        return frozenset().union(*(falsified_by(known, part, place, seeks) for part in formula.parts))
    if isinstance(formula, Lasts):
        return frozenset()
    left, right = ways_of(known, formula.left, place), ways_of(known, formula.right, place)
    if formula.sign not in ("<", "<=", ">", ">="):
        reads = left or right or place in (formula.left, formula.right)
        return BOTH if reads else frozenset()
    # `a < b` becomes false as a goes up, or b down.
    false_ward = left | turned(right) if formula.sign in ("<", "<=") else turned(left) | right
    return turned(false_ward) if seeks else false_ward


def direction(known: Known, place: Place, value: Expr) -> frozenset:
    """Which way a write moves its place, where that is seen."""
    if isinstance(value, Sum) and value.sign in ("+", "-") and value.left == place:
        by = known.range_of(value.right)
        if by and by[0] >= 0:
            return frozenset((UP if value.sign == "+" else DOWN,))
        if by and by[1] <= 0:
            return frozenset((DOWN if value.sign == "+" else UP,))
    return BOTH
