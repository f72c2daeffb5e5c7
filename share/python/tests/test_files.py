"""Workspaces in files."""
import fcntl
import json
import os
import resource
import stat
import subprocess
import sys
import time
from pathlib import Path
from typing import List

from apl import NotSaved, Refused
from tests.support import LOOP, PROGRAM, OfSession, saved

WRONG = [
    (b"", 1), (b"{", 1), (b"\xff", 1), (b'\xef\xbb\xbf{"io":1}', 1), (b'1},"type":"A"', 1), (b'null,"open":{}', 1), (b"{}}", 1),
    (b"[" * 100_000, 1), (b'{"io":NaN}', 1), (b'{"io":1e400}', 1), (b'{"io":"\\ud800"}', 1), (b'{"io":' + b"[" * 200 + b"]" * 200 + b"}", 1),
    (b"null", 2), (b"1", 2), (b'"A"', 2), (b"[]", 2), (b"{}", 2), (b'{"type":"2"}', 2),
    (b'{"contexts":[],"functions":[],"io":2,"variables":[],"version":2}', 2),
    (b'{"contexts":[],"functions":[],"io":1,"variables":[{"name":"A","value":{"nums":[1],"shape":[2]}}],"version":2}', 3),
    (b'{"contexts":[],"functions":[{"header":"2","lines":[],"stop":[],"trace":[]}],"io":1,"variables":[],"version":2}', 4),
    (b'{"contexts":[],"functions":[],"io":1,"variables":[{"name":"A","value":{"shape":[1],"text":"\n"}}],"version":2}', 1),
]


class Saving(OfSession):
    def setUp(self) -> None:
        super().setUp()
        self.file = self.folder / "ledger"

    def names(self) -> List[str]:
        """Returns what stands in the folder."""
        return sorted(os.listdir(self.folder))

    def test_what_the_program_saves(self) -> None:
        lines = [*LOOP, "A←2 3⍴⍳6", "T←'\"\\'", "∇Z←F N", "Z←1÷N", "∇", "2+F 0", "⎕IO←0"]
        self.typed(*lines)
        self.session.save(self.file)
        self.assertEqual(self.file.read_bytes(), saved("\n".join(lines), self.folder / "other"))
        self.assertEqual(self.file.read_bytes(), self.session.workspace())
        self.assertEqual(self.names(), ["ledger", "other"])

    def test_an_open_definition_is_left_out(self) -> None:
        self.typed("∇F", "1")
        self.session.save(self.file)
        self.assertEqual(self.begun(self.file).names(), [])
        self.typed("∇")
        self.assertEqual(self.session.listing("F"), ["F", "1"])

    def test_modes(self) -> None:
        self.session.save(self.file)
        self.assertEqual(stat.S_IMODE(self.file.stat().st_mode), 0o600)
        for mode in (0o640, 0o644, 0o600):
            self.file.chmod(mode)
            self.session.save(str(self.file))
            self.assertEqual(stat.S_IMODE(self.file.stat().st_mode), mode)

    def test_links(self) -> None:
        (self.folder / "far").mkdir()
        (self.folder / "link").symlink_to("far/ledger")
        (self.folder / "again").symlink_to("link")
        self.session.save(self.folder / "again")
        self.assertEqual(self.begun(self.folder / "far/ledger").names(), [])
        self.assertTrue((self.folder / "link").is_symlink())
        self.assertEqual(os.listdir(self.folder / "far"), ["ledger"])

    def test_a_change_by_another(self) -> None:
        self.session.save(self.file)
        other = self.begun(self.file)
        other.run("A←1")
        other.save(self.file)
        kept = self.file.read_bytes()
        with self.assertRaises(NotSaved):
            self.session.save(self.file)
        self.assertEqual((self.file.read_bytes(), self.names()), (kept, ["ledger"]))
        self.session.open(self.file)
        self.session.save(self.file)
        self.file.unlink()
        self.session.save(self.file)
        self.assertEqual(self.file.read_bytes(), kept)

    def test_a_run_that_is_to_save(self) -> None:
        run = subprocess.Popen([PROGRAM, "--save", self.file], stdin=subprocess.PIPE, stdout=subprocess.PIPE)
        assert run.stdin and run.stdout
        run.stdin.write(b"1\n")
        run.stdin.flush()
        run.stdout.read(1)
        with self.assertRaises(NotSaved):
            self.session.save(self.file)
        run.communicate()
        self.session.save(self.file)
        self.assertEqual(self.names(), ["ledger"])

    def test_a_lock_that_a_killed_run_left(self) -> None:
        lock = self.folder / ".ledger.apl-lock"
        lock.touch()
        self.session.save(self.file)
        self.assertEqual(self.names(), [lock.name, "ledger"])
        with lock.open() as held:
            fcntl.flock(held, fcntl.LOCK_EX)
            with self.assertRaises(NotSaved):
                self.session.save(self.file)

    def test_files_of_others_stay(self) -> None:
        (self.folder / ".ledger.apl-new-1").write_text("mine")
        self.session.save(self.file)
        self.assertEqual((self.folder / ".ledger.apl-new-1").read_text(), "mine")
        self.assertEqual(self.names(), [".ledger.apl-new-1", "ledger"])

    def test_a_write_that_fails(self) -> None:
        self.session.save(self.file)
        before = self.file.read_bytes()
        self.typed("A←⍳10000")
        limits = resource.getrlimit(resource.RLIMIT_FSIZE)
        resource.setrlimit(resource.RLIMIT_FSIZE, (4_096, limits[1]))
        try:
            with self.assertRaises(OSError):
                self.session.save(self.file)
        finally:
            resource.setrlimit(resource.RLIMIT_FSIZE, limits)
        self.assertEqual((self.file.read_bytes(), self.names()), (before, ["ledger"]))

    def test_kills_while_it_saves(self) -> None:
        script = f"""if True:
            import apl
            session = apl.Session({PROGRAM!r})
            for number in range(10 ** 6):
                session.run(f"A←{{number}}+⍳20000")
                session.save({str(self.file)!r})
                print(number, flush=True)
            """
        for number in range(10):
            process = subprocess.Popen([sys.executable, "-c", script], stdout=subprocess.PIPE)
            assert process.stdout
            process.stdout.readline()
            time.sleep(number * 0.01)
            process.kill()
            last = int((process.communicate()[0].splitlines() or [b"0"])[-1])
            value = self.begun(self.file).value("A")
            assert isinstance(value, list)
            self.assertIn(value[0], (last + 1, last + 2))
            self.assertEqual(len(value), 20_000)
        self.session.save(self.file)

    def test_where_nothing_can_be_saved(self) -> None:
        (self.folder / "folder").mkdir()
        os.mkfifo(self.folder / "fifo")
        (self.folder / "loop").symlink_to("loop")
        before = self.names()
        for name in ("folder", "fifo", "loop", "none/ledger", "\0"):
            with self.subTest(name), self.assertRaises((OSError, ValueError)):
                self.session.save(self.folder / name)
        self.assertEqual(self.names(), before)


class Opening(OfSession):
    def test_a_half_done_statement(self) -> None:
        self.typed("∇Z←F N", "Z←1÷N", "∇", "2+F 0")
        self.session.save(self.folder / "ledger")
        other = self.begun(self.folder / "ledger")
        other.run("N←1")
        self.assertEqual(other.run("→⎕LC").text, "3")

    def test_any_json_of_the_tree(self) -> None:
        self.typed("A←'TEXT'")
        tree = json.loads(self.session.workspace())
        for text in (json.dumps(tree, indent=4), json.dumps(tree).replace(",", "\r\n,\t")):
            self.assertEqual(self.begun(text.encode()).value("A"), "TEXT")

    def test_what_is_no_workspace(self) -> None:
        self.typed("A←5")
        before = self.session.workspace()
        for data, number in WRONG:
            with self.subTest(data[:60]):
                with self.assertRaises(Refused) as caught:
                    self.session.open(data)
                self.assertEqual((caught.exception.reason, caught.exception.number), ("load", number))
                self.assertEqual(self.session.workspace(), before)
        with self.assertRaises(FileNotFoundError):
            self.session.open(self.folder / "none")

    def test_what_was_open_goes(self) -> None:
        self.typed("∇F", "1")
        self.session.open(b'{"contexts":[],"functions":[],"io":0,"variables":[],"version":2}')
        self.assertEqual(self.typed("⍳3"), "0 1 2\n")

    def test_samples(self) -> None:
        for path in sorted(Path(__file__).parents[2].joinpath("workspaces").glob("*.json")):
            self.session.open(path)
            self.assertEqual(self.session.workspace(), path.read_bytes())
