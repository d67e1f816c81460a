import unittest

from checking.holds import numbers_told_twice, wrongs
from checking.load import Answered
from replicated.journal import Step
from replicated.log import Entry
from replicated.sums import mark_for

LOG = [Entry(1, b"f", b"0 object log"), Entry(2, b"x", b"1 try ann use hall"), Entry(3, b"y", b"1 look 1")]
JOURNAL = [
    Step(b"0 object log", b"ok"),
    Step(b"1 try ann use hall", b"permitted 1"),
    Step(mark_for(b"1 look 1", b"status 1 accessing"), b"ok"),
]


def told(line: bytes, number: int, reply: bytes) -> Answered:
    return Answered(line, number, reply, 0, 0.0)


TRIED = told(b"1 try ann use hall", 2, b"permitted 1")
LOOKED = told(b"1 look 1", 3, b"status 1 accessing")


class HoldsTest(unittest.TestCase):
    def found(self, log: list[Entry] = LOG, journal: list[Step] = JOURNAL, answered: tuple[Answered, ...] = (TRIED, LOOKED)) -> str:
        return "; ".join(wrongs(log, {"a": JOURNAL, "b": journal}, answered))

    def test_nothing_is_wrong(self) -> None:
        self.assertEqual(self.found(), "")

    def test_a_step_that_is_lost(self) -> None:
        self.assertIn("b has 2 steps", self.found(journal=JOURNAL[:2]))
        self.assertIn("1 look 1 was answered at 3", self.found(journal=JOURNAL[:2]))

    def test_another_reply(self) -> None:
        denied = [JOURNAL[0], JOURNAL[1]._replace(reply=b"denied 1 room"), JOURNAL[2]]
        self.assertIn("was answered permitted 1", self.found(journal=denied))
        self.assertIn("was answered no session", self.found(answered=(LOOKED._replace(reply=b"no session"),)))

    def test_another_place(self) -> None:
        self.assertIn("isn't there", self.found(answered=(TRIED._replace(number=3),)))
        self.assertIn("the log has", self.found(journal=[JOURNAL[1], JOURNAL[0], JOURNAL[2]]))

    def test_a_command_that_stands_twice(self) -> None:
        self.assertIn("x has the numbers 2 and 3", self.found(log=[*LOG[:2], LOG[1]._replace(number=3)]))
        self.assertEqual(numbers_told_twice([TRIED, LOOKED, TRIED]), ["number 2 was told twice"])


if __name__ == "__main__":
    unittest.main()
