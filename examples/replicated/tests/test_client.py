import socketserver
import threading
import unittest

from checking.cluster import free_port
from replicated.client import Client, NoAnswer
from replicated.etcd import Address
from replicated.lines import UNKNOWN
from replicated.machine import FORGOTTEN
from replicated.shards import LINE

HOST = "127.0.0.1"


class Says(socketserver.ThreadingTCPServer):
    """A machine that answers each line the same, and notes it. It goes away for an answer of None."""

    daemon_threads = True

    def __init__(self, answer: bytes | None) -> None:
        lines: list[bytes] = []

        class Handler(socketserver.StreamRequestHandler):
            def handle(self) -> None:
                while line := self.rfile.readline():
                    lines.append(line[:-1])
                    if answer is None:
                        return
                    self.wfile.write(line.split()[0] + b" " + answer + b"\n")

        super().__init__((HOST, 0), Handler)
        self.lines = lines
        self.address = Address(HOST, self.server_address[1])
        threading.Thread(target=self.serve_forever, daemon=True).start()


class ClientTest(unittest.TestCase):
    def machine(self, answer: bytes | None) -> Says:
        made = Says(answer)
        self.addCleanup(made.server_close)
        self.addCleanup(made.shutdown)
        return made

    def test_it_goes_on_to_the_next_machine_under_the_same_name(self) -> None:
        gone, unknown, last = self.machine(None), self.machine(b"- " + UNKNOWN), self.machine(b"7 ok")
        client = Client([free_port(HOST), gone.address, unknown.address, last.address])
        self.assertEqual(client.ask(b"0 tick 1", 5, b"x"), (7, b"ok", 3))
        client.close()
        self.assertEqual(gone.lines + unknown.lines + last.lines, [b"x 0 tick 1"] * 3)

    def test_a_forgotten_question_is_asked_under_another_name(self) -> None:
        forgot, last = self.machine(b"- " + FORGOTTEN), self.machine(b"7 no session")
        client = Client([forgot.address, last.address])
        self.assertEqual(client.ask(b"1 look 1", 5, b"x").reply, b"no session")
        client.close()
        self.assertNotEqual(last.lines, forgot.lines)

    def test_it_ends_without_an_answer(self) -> None:
        with self.assertRaises(NoAnswer):
            Client([free_port(HOST)]).ask(b"0 tick 1", 0.3)

    def test_what_is_refused_at_the_door_isnt_asked_again(self) -> None:
        client = Client([self.machine(b"- no line").address])
        with self.assertRaises(ValueError):
            client.ask(b"", 5)
        client.close()

    def test_a_routers_line(self) -> None:
        found = LINE.fullmatch(b"x hall 1 try ann use hall")
        self.assertEqual(found and found.groups(), (b"x", b"hall", b"1 try ann use hall"))


if __name__ == "__main__":
    unittest.main()
