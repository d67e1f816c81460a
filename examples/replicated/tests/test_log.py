import unittest

from replicated.etcd import Range, Txn, Unavailable, txn_request
from replicated.log import Broken, Entry, Log, Request
from tests.memory import MemoryEtcd


def request(name: str, line: str = "0 tick 1") -> Request:
    return Request(name.encode(), line.encode())


class LogTest(unittest.TestCase):
    def setUp(self) -> None:
        self.keys: dict[bytes, bytes] = {}
        self.one = Log(MemoryEtcd(self.keys), "rooms")
        self.other = Log(MemoryEtcd(self.keys), "rooms")

    def test_who_comes_second_is_told_what_came_first(self) -> None:
        self.one.put(0, [request("x"), request("y")])
        found = self.other.put(0, [request("z")])
        self.assertEqual([(it.number, it.name) for it in found.entries], [(1, b"x"), (2, b"y")])
        self.assertEqual(self.other.put(2, [request("z")]).entries, [Entry(3, b"z", b"0 tick 1")])
        self.assertEqual([it.name for it in self.one.all()], [b"x", b"y", b"z"])

    def test_no_number_is_skipped(self) -> None:
        self.one.put(0, [request("x")])
        self.assertEqual(self.one.put(5, [request("y")]).entries, [])
        self.assertEqual([it.number for it in self.one.all()], [1])

    def test_a_command_asked_twice_stands_once(self) -> None:
        self.one.put(0, [request("x"), request("y")])
        found = self.other.put(2, [request("z"), request("y")])
        self.assertEqual((found.entries, found.numbers), ([], {b"y": 2}))
        self.assertEqual(len(list(self.one.all())), 2)

    def test_an_answer_lost_is_found_again(self) -> None:
        etcd = MemoryEtcd(self.keys)
        etcd.loses = 1
        log = Log(etcd, "rooms")
        with self.assertRaises(Unavailable):
            log.put(0, [request("x")])
        found = log.put(0, [request("x")])
        self.assertEqual((len(found.entries), found.numbers), (1, {b"x": 1}))

    def test_a_log_that_somebody_else_wrote_is_refused(self) -> None:
        self.one.put(0, [request("x"), request("y")])
        del self.keys[self.one.at(1)]
        with self.assertRaises(Broken):
            self.one.after(0)

    def test_groups_have_logs_of_their_own(self) -> None:
        self.one.put(0, [request("x")])
        self.assertEqual(list(Log(MemoryEtcd(self.keys), "halls").all()), [])

    def test_who_comes_first_says_the_digest(self) -> None:
        self.assertEqual(self.one.agreed(100, b"here"), b"here")
        self.assertEqual(self.other.agreed(100, b"there"), b"here")


class RequestTest(unittest.TestCase):
    def test_a_transaction_as_the_gateway_reads_it(self) -> None:
        asked = txn_request(Txn([b"a"], [b"b"], [], [Range(b"a", b"c", 9)]))
        self.assertEqual([it["result"] for it in asked["compare"]], ["EQUAL", "GREATER"])
        self.assertEqual({it["target"] for it in asked["compare"]}, {"VERSION"})
        self.assertEqual(asked["failure"][0]["requestRange"]["range_end"], "Yw==")


if __name__ == "__main__":
    unittest.main()
