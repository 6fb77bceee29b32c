"""The server of pages: who may ask, and the answers to anything else."""
import http.client
import resource
import socket
import sys
import threading
import unittest
from unittest import mock

from zanteyard.watch.pages import _web as web

PAGE = web.Answer("<p>a page</p>")


def told(path):
    return PAGE if path == "/" else None


class Names(unittest.TestCase):
    def test_whose_name_it_is(self):
        for name, wanted in (
            ("localhost", True),
            ("LOCALHOST:8080", True),
            ("127.0.0.1:8080", True),
            ("[::1]:8080", True),
            ("[::1]", True),
            ("10.1.2.3", True),
            ("watch.example:80", True),
            ("evil.example", False),
            ("127.0.0.1.evil.example:8080", False),
            ("localhost.evil.example", False),
            ("", False),
        ):
            with self.subTest(name=name):
                self.assertEqual(web.is_own_name(name, "watch.example"), wanted)

    def test_addresses(self):
        for address, wanted in (
            ("127.0.0.1:80", ("127.0.0.1", 80)),
            (":0", ("127.0.0.1", 0)),
            ("[::1]:8080", ("::1", 8080)),
        ):
            self.assertEqual(web.host_and_port(address), wanted)
        for address in ("", "80", "a:b", "a:65536", "::1:80", "a:-1", "a:²"):
            with self.subTest(address=address), self.assertRaises(ValueError):
                web.host_and_port(address)

    def test_a_policy_names_what_it_allows(self):
        policy = web.policy_for("p {}", "1;")
        self.assertIn("default-src 'none'; style-src 'sha256-", policy)
        self.assertIn("script-src 'sha256-", policy)
        self.assertNotIn("script-src", web.policy_for("p {}"))
        self.assertNotIn("unsafe", policy)


class Served(unittest.TestCase):
    def setUp(self):
        patched = mock.patch.object(web, "SLOWEST", 600.0)  # however slow the machine is
        patched.start()
        self.addCleanup(patched.stop)
        self.server = web.WebServer("127.0.0.1:0", told)
        self.addCleanup(self.server.close)

    def ask(self, path="/", method="GET", host=None):
        asked = http.client.HTTPConnection("127.0.0.1", self.server.port, timeout=300)
        self.addCleanup(asked.close)
        asked.putrequest(method, path, skip_host=True)
        asked.putheader("Host", f"127.0.0.1:{self.server.port}" if host is None else host)
        asked.endheaders()
        answer = asked.getresponse()
        return answer.status, answer.read().decode(), answer.headers

    def test_a_page(self):
        status, text, headers = self.ask()
        self.assertEqual((status, text), (200, PAGE.text))
        self.assertEqual(headers["X-Content-Type-Options"], "nosniff")
        self.assertEqual(headers["Content-Security-Policy"], "default-src 'none'")
        self.assertEqual(headers["Cache-Control"], "no-store")

    def test_its_head(self):
        status, text, headers = self.ask(method="HEAD")
        self.assertEqual((status, text), (200, ""))
        self.assertEqual(headers["Content-Length"], str(len(PAGE.text)))

    def test_other_names_paths_and_methods(self):
        for path, method, host, wanted in (
            ("/", "GET", "evil.example", 421),
            ("/", "GET", "", 421),
            ("/..%2f..%2fetc/passwd", "GET", None, 404),
            ("/../../etc/passwd", "GET", None, 404),
            ("http://evil.example/", "GET", None, 404),
            ("/" + "a" * 300, "GET", None, 404),
            ("/?a=b", "GET", None, 200),
            ("/", "POST", None, 501),
            ("/", "DELETE", None, 501),
        ):
            with self.subTest(path=path[:40], method=method, host=host):
                self.assertEqual(self.ask(path, method, host)[0], wanted)

    def test_clients_that_take_their_time(self):
        """Clients that send a byte now and then give their places back, however many come."""
        ended = threading.Event()
        self.addCleanup(ended.set)

        def drip(one):
            with one:
                while not ended.wait(0.02):
                    try:
                        one.sendall(b"G")
                    except OSError:
                        return

        with mock.patch.object(web, "SLOWEST", 1.0):
            server = web.WebServer("127.0.0.1:0", told)
            self.addCleanup(server.close)
            for _ in range(web.MOST_AT_ONCE + 4):
                one = socket.create_connection(("127.0.0.1", server.port))
                threading.Thread(target=drip, args=(one,), daemon=True).start()
            for _ in range(300):
                asked = http.client.HTTPConnection("127.0.0.1", server.port, timeout=600)
                try:
                    asked.request("GET", "/", headers={"Host": "localhost"})
                    if asked.getresponse().status == 200:
                        break
                except OSError:
                    pass
                finally:
                    asked.close()
                ended.wait(0.1)
            else:
                self.fail("slow clients keep the page from everybody")

    def test_more_than_there_are_places_for(self):
        """All places are taken by clients that haven't asked for anything yet: the next one is sent
        away."""
        taken = [socket.create_connection(("127.0.0.1", self.server.port))]
        self.addCleanup(lambda: [each.close() for each in taken])
        places = self.server._server.places
        while len(taken) < web.MOST_AT_ONCE:
            taken.append(socket.create_connection(("127.0.0.1", self.server.port)))
        self.wait_for(lambda: places._value == 0)
        with socket.create_connection(("127.0.0.1", self.server.port), timeout=300) as one:
            self.assertIn(b"503", one.recv(1000))
        for each in taken:
            each.close()
        self.wait_for(lambda: places._value == web.MOST_AT_ONCE)
        self.assertEqual(self.ask()[0], 200)

    def test_clients_that_dont_read(self):
        """Clients that take no byte of a long answer give their places back."""
        long = web.Answer("x" * (32 << 20))  # more than a socket keeps
        with mock.patch.object(web, "SLOWEST", 1.0):
            server = web.WebServer("127.0.0.1:0", lambda path: long if path == "/long" else told(path))
            self.addCleanup(server.close)
            for _ in range(web.MOST_AT_ONCE):
                one = socket.create_connection(("127.0.0.1", server.port))
                self.addCleanup(one.close)
                one.sendall(b"GET /long HTTP/1.0\r\nHost: localhost\r\n\r\n")
            self.wait_for(lambda: self.is_answered(server))

    def test_a_thousand_connections(self):
        """They get no more than their places, and are closed; then the page is there again."""
        soft, hard = resource.getrlimit(resource.RLIMIT_NOFILE)
        wanted = 4096 if hard == resource.RLIM_INFINITY else min(4096, hard)
        resource.setrlimit(resource.RLIMIT_NOFILE, (max(soft, wanted), hard))
        self.addCleanup(resource.setrlimit, resource.RLIMIT_NOFILE, (soft, hard))
        count = min(1000, max(soft, wanted) // 2 - 100)
        threads, most = threading.active_count(), 0
        taken = []
        self.addCleanup(lambda: [each.close() for each in taken])
        for _ in range(count):
            taken.append(socket.create_connection(("127.0.0.1", self.server.port), timeout=300))
            most = max(most, threading.active_count())
        refused = 0
        for each in taken[web.MOST_AT_ONCE :]:
            refused += each.recv(1000).startswith(b"HTTP/1.0 503")
        self.assertEqual(refused, count - web.MOST_AT_ONCE)
        self.assertLessEqual(most, threads + 2 * web.MOST_AT_ONCE)  # each has a timer
        self.assertEqual(self.server._server.places._value, 0)
        for each in taken:
            each.close()
        self.wait_for(lambda: self.is_answered(self.server))

    def is_answered(self, server):
        asked = http.client.HTTPConnection("127.0.0.1", server.port, timeout=300)
        try:
            asked.request("GET", "/", headers={"Host": "localhost"})
            return asked.getresponse().status == 200
        except OSError:
            return False
        finally:
            asked.close()

    def wait_for(self, is_so):
        """As long as it takes; the test's own time limit ends a wait in vain."""
        pause = threading.Event()
        for _ in range(6000):
            if is_so():
                return
            pause.wait(0.01)
        self.fail("it hasn't come to that in a minute")


if __name__ == "__main__":
    sys.exit(unittest.main())
