import contextlib
import io
import os
import pathlib
import sys
import tempfile
import threading
import unittest
from unittest import mock

from replicated import journal, sums
from replicated.lines import UNKNOWN, answered
from replicated.log import Broken, Log, Request
from replicated.machine import FORGOTTEN, Differs, Machine
from replicated.monitor import Ended
from tests.memory import MemoryEtcd

# A monitor in twenty lines: `do` makes a step, `full` has no memory, all else is a question. Its journal is a text.
MONITOR = """
import sys
path = sys.argv[1]
steps = open(path, "a+")
steps.seek(0)
count = len(steps.readlines())
for line in sys.stdin:
    if line == "%%\\n":
        reply = f"- {count} ready"
        print(reply, flush=True)
        break
for line in sys.stdin:
    client, command = line[:-1].split(" ", 1)
    if command == "full":
        print(client, "- no memory", flush=True)
        continue
    if command.split()[0] in ("do", "set", "object"):
        count += 1
        steps.write(line[:-1] + " -> ok\\n")
        steps.flush()
        print(client, count, "ok", flush=True)
    else:
        print(client, count, "unknown", command, flush=True)
"""
POLICY = b'attr o answer : text = "";\n'


def steps(path: pathlib.Path) -> list[journal.Step]:
    lines = path.read_bytes().splitlines() if path.exists() else []
    return [journal.Step(*line.split(b" -> ")) for line in lines]


class MachineTest(unittest.TestCase):
    def setUp(self) -> None:
        self.room = pathlib.Path(self.enterContext(tempfile.TemporaryDirectory()))
        self.enterContext(mock.patch.object(journal, "steps", steps))
        self.enterContext(mock.patch.object(journal, "step", lambda path, place: steps(path)[place - 1]))
        self.keys: dict[bytes, bytes] = {}
        self.open: list[Machine] = []
        self.addCleanup(self.close)

    def machine(self, name: str) -> Machine:
        path = self.room / name
        made = Machine(path, Log(MemoryEtcd(self.keys), "rooms"), POLICY, [sys.executable, "-c", MONITOR, str(path / "journal")])
        self.open.append(made)
        return made

    def close(self) -> None:
        for machine in self.open:
            machine.monitor.close()

    def started_again(self, machine: Machine) -> Machine:
        machine.monitor.close()
        os.close(machine.held)
        self.open.remove(machine)
        return self.machine(machine.folder.name)

    def ask(self, machine: Machine, line: bytes, turns: int = 4) -> bytes:
        """The answer to a line, for which the machine makes so many turns."""
        found: list[bytes] = []
        asking = threading.Thread(target=lambda: found.append(answered(machine, line)))
        asking.start()
        machine.wake.wait(5)
        for _ in range(turns):
            machine.turn()
        asking.join(10)
        return found[0]

    def test_each_number_is_one_step_on_each_machine(self) -> None:
        one, other = self.machine("one"), self.machine("other")
        self.assertEqual(self.ask(one, b"x 1 do this"), b"x 2 ok")
        self.assertEqual(self.ask(other, b"y 1 ask that"), b"y 3 unknown ask that")
        self.assertEqual(self.ask(one, b"z 1 do more"), b"z 4 ok")
        other.turn()
        self.assertEqual(steps(one.folder / "journal"), steps(other.folder / "journal"))
        self.assertEqual((one.applied, one.digest), (4, other.digest))

    def test_what_is_asked_again_is_answered_as_before(self) -> None:
        one, other = self.machine("one"), self.machine("other")
        self.ask(one, b"x 1 do this")
        self.assertEqual(self.ask(one, b"x 1 do this"), b"x 2 ok")
        self.assertEqual(self.ask(other, b"x 1 do this"), b"x 2 ok")
        self.assertEqual(len(steps(other.folder / "journal")), 2)

    def test_a_machine_goes_on_where_its_journal_ends(self) -> None:
        one = self.machine("one")
        self.ask(one, b"x 1 do this")
        self.ask(one, b"y 1 ask that")
        digest = one.digest
        one = self.started_again(one)
        self.assertEqual((one.applied, one.digest), (3, digest))
        self.assertEqual(self.ask(one, b"x 1 do this"), b"x 2 ok")
        self.assertEqual(self.ask(one, b"y 1 ask that"), b"y - " + FORGOTTEN)
        self.assertEqual(self.ask(one, b"z 1 do more"), b"z 4 ok")

    def test_a_question_of_one_machine_makes_no_step(self) -> None:
        one = self.machine("one")
        self.ask(one, b"x 1 do this")
        self.assertEqual(answered(one, b"? 1 look 7"), b"? 2 unknown look 7")
        self.assertEqual(answered(one, b"? 1 do this")[:4], b"? - ")
        self.assertEqual(one.monitor.ask(b"1 look 7").place, 2)

    def test_without_a_majority_nothing_is_answered(self) -> None:
        one = self.machine("one")
        with mock.patch("replicated.lines.TRIES", 0.05):
            self.assertEqual(self.ask(one, b"x 1 do this", turns=0), b"x - " + UNKNOWN)
        self.assertEqual(one.waiting.first(), [])

    def test_a_copy_that_differs_stops_for_good(self) -> None:
        one, other = self.machine("one"), self.machine("other")
        self.ask(one, b"x 1 do this")
        other.digest = b"another"
        with mock.patch("replicated.machine.COMPARED", 5):
            self.ask(one, b"y 1 do that")
            self.ask(one, b"z 1 do more")
            self.ask(one, b"w 1 do more")
            with self.assertRaises(Differs):
                other.turn()
        with self.assertRaises(Differs):
            self.started_again(other)

    def test_a_log_that_lost_entries_is_refused(self) -> None:
        one = self.machine("one")
        self.ask(one, b"x 1 do this")
        del self.keys[one.log.at(2)]
        one.waiting.asked[b"y"] = (Request(b"y", b"1 do that"), mock.Mock())
        with self.assertRaises(Broken):
            one.turn()
        with self.assertRaises(Broken):
            self.started_again(one)

    def test_a_monitor_without_memory_ends_the_machine(self) -> None:
        one = self.machine("one")
        one.log.put(0, [Request(b"f", sums.FOUNDING), Request(b"x", b"1 full")])
        with self.assertRaises(Ended):
            one.turn()
        self.assertEqual(one.applied, 1)

    def test_lines_that_are_refused_at_the_door(self) -> None:
        one = self.machine("one")
        for line in (b"", b"x", b"x ", b"!! 1 do", b"x 1 caf\xc3\xa9", b"x 0 amend right r { }"):
            self.assertIn(b" - ", answered(one, line))
        self.assertEqual(one.waiting.first(), [])


class SumsTest(unittest.TestCase):
    def test_a_mark_stands_for_its_command(self) -> None:
        mark = sums.mark_for(b"1 look 7", b"no session")
        self.assertEqual(sums.sum_of(mark, b"ok"), sums.hashed(b"1 look 7 -> no session"))
        self.assertNotEqual(sums.next_digest(b"", mark, b"ok"), sums.next_digest(b"", sums.mark_for(b"1 look 7", b"other"), b"ok"))

    def test_another_policy_gives_another_digest(self) -> None:
        self.assertNotEqual(sums.first_digest(POLICY), sums.first_digest(POLICY + b"\n"))


if __name__ == "__main__":
    with contextlib.redirect_stderr(io.StringIO()):
        unittest.main()
