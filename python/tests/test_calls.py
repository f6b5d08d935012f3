"""Calls of the library: buffers, memory, threads and the version."""

import gc
import json
import threading
import time
import unittest
from concurrent.futures import ThreadPoolExecutor
from pathlib import Path
from unittest import mock

from support import TOP, biblatex, native

TEXT = "@article{a, author={Ann Bell}, title={T}, year={1999}}\n@misc{b, crossref={a}}\n"

LARGE = "".join(f"@misc{{k{index}, title={{T{index}}}, author={{A and B}}, year={{1999}}}}\n" for index in range(20_000))


def resident() -> int:
    """Returns the resident memory of the process, in bytes."""
    return int(Path("/proc/self/statm").read_text().split()[1]) * 4096


class Buffers(unittest.TestCase):
    def test_an_answer_that_is_longer_than_the_buffer(self) -> None:
        for capacity in (0, 1, 3, 4, 5):
            self.assertEqual(native.call("biblatex_keys", TEXT.encode(), capacity=capacity), b"a\nb\n")

    def test_an_answer_that_is_much_longer_than_the_text(self) -> None:
        count = 20_000
        text = "".join(f"@misc{{{index},a=1,b=1}}" for index in range(count))
        self.assertEqual(len(biblatex.parse(text)), count)
        self.assertEqual(len(biblatex.lint("".join(f"@misc{{{index}}}\n" for index in range(count)))), count)

    def test_an_answer_of_no_bytes(self) -> None:
        self.assertEqual(native.call("biblatex_keys", b""), b"")


class Endings(unittest.TestCase):
    def ends_with(self, status: int) -> "mock._patch[mock.Mock]":
        function = mock.Mock(return_value=status)
        return mock.patch.object(native, "_function", mock.Mock(return_value=function))

    def test_out_of_memory(self) -> None:
        with self.ends_with(4), self.assertRaises(MemoryError):
            biblatex.parse(TEXT)

    def test_a_status_that_is_none(self) -> None:
        with self.ends_with(255), self.assertRaises(RuntimeError):
            native.call("biblatex_keys", b"")

    def test_not_utf8_and_refused(self) -> None:
        with self.assertRaises(native.NotUtf8):
            native.call("biblatex_keys", b"\xff")
        with self.assertRaises(native.Refused):
            native.call("biblatex_keys", b"@a{b")
        with self.assertRaises(native.Refused):
            native.call("biblatex_recover", b"", 4)


class Version(unittest.TestCase):
    def test_library_and_package_have_the_same(self) -> None:
        lines = (TOP / "pyproject.toml").read_text().splitlines()
        self.assertEqual([line for line in lines if line.startswith("version")], [f'version = "{biblatex.version()}"'])


class ManyCalls(unittest.TestCase):
    def work(self, rounds: int) -> None:
        for _ in range(rounds):
            bibliography = biblatex.parse(TEXT)
            bibliography.to_bibtex()
            bibliography["b"].date()
            biblatex.set_field(TEXT, "a", "title", "U")
            biblatex.lint(TEXT)
            with self.assertRaises(biblatex.ParseError):
                biblatex.parse("@a{b")

    @unittest.skipUnless(Path("/proc/self/statm").exists(), "the system doesn't report the memory of a process")
    def test_memory_stays_the_same(self) -> None:
        self.work(300)
        before = resident()
        self.work(3000)
        self.assertLess(resident(), before + 2_000_000)

    @unittest.skipUnless(Path("/proc/self/statm").exists(), "the system doesn't report the memory of a process")
    def test_memory_of_large_texts_is_given_back(self) -> None:
        biblatex.parse(LARGE)
        before = resident()
        for _ in range(5):
            biblatex.parse(LARGE)
        self.assertLess(resident(), before + 30_000_000)


class Collector(unittest.TestCase):
    def test_it_is_as_it_was_after_a_call(self) -> None:
        self.addCleanup(gc.enable)
        for before in (gc.enable, gc.disable):
            before()
            was_enabled = gc.isenabled()
            biblatex.parse(TEXT)
            with self.assertRaises(biblatex.ParseError):
                biblatex.parse("@a{b")
            self.assertEqual(gc.isenabled(), was_enabled)


class Threads(unittest.TestCase):
    def answers(self, number: int) -> bool:
        text = f"@misc{{k{number}, title={{T{number}}}, year={{{1000 + number}}}}}"
        bibliography = biblatex.parse(text)
        date = bibliography[f"k{number}"].date()
        edited = biblatex.set_field(text, f"k{number}", "title", "U")
        key = str(json.loads(bibliography.to_json())[0]["key"])
        wanted = (f"k{number}", f"T{number}", str(1000 + number), text.replace(f"{{T{number}}}", "{U}"))
        return (key, bibliography[f"k{number}"]["title"], str(date), edited) == wanted

    def test_calls_of_several_threads(self) -> None:
        with ThreadPoolExecutor(8) as pool:
            self.assertTrue(all(pool.map(self.answers, range(2000))))

    def test_threads_share_a_bibliography(self) -> None:
        bibliography = biblatex.parse(LARGE)
        with ThreadPoolExecutor(8) as pool:
            dates = list(pool.map(biblatex.Entry.date, bibliography.entries[:1000]))
        self.assertEqual(set(map(str, dates)), {"1999"})

    def longest_pause_over_call(self) -> float:
        """Returns the longest pause of this thread during a call of another thread, divided by the time of that call."""
        text = LARGE.encode()
        took = []

        def work() -> None:
            start = time.perf_counter()
            native.call("biblatex_keys", text, capacity=len(text))
            native.call("biblatex_csl", text, capacity=4 * len(text))
            took.append(time.perf_counter() - start)

        thread = threading.Thread(target=work)
        longest, last = 0.0, time.perf_counter()
        thread.start()
        while thread.is_alive():
            now = time.perf_counter()
            longest, last = max(longest, now - last), now
        thread.join()
        return longest / took[0]

    def test_other_threads_go_on_during_a_call(self) -> None:
        self.assertTrue(any(self.longest_pause_over_call() < 0.5 for _ in range(10)))


if __name__ == "__main__":
    unittest.main()
