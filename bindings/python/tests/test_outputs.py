"""The module relkvanu.outputs: what a sink prepares, publishes and gives up, over files and over a table. It needs no library."""
import json
import pathlib
import sqlite3
import tempfile
import unittest
from unittest import mock

from relkvanu.outputs import Entry, Files, OutputError, SinkFailed, Table


class Sinks(unittest.TestCase):
    def setUp(self):
        self.folder = pathlib.Path(self.enterContext(tempfile.TemporaryDirectory()))
        database = sqlite3.connect(self.folder / "out.db")
        database.execute("CREATE TABLE lines (it INTEGER)")
        database.close()

    def sinks(self, **more):
        return [Files(str(self.folder), **more), Table(lambda: sqlite3.connect(self.folder / "out.db"), "INSERT INTO lines VALUES (?)", name="lines", **more)]

    def rows(self, sink):
        if isinstance(sink, Files):
            return [json.loads(it)[0] for path in sorted(self.folder.glob("*.jsonl")) for it in path.read_text().splitlines()]
        database = sqlite3.connect(self.folder / "out.db")
        found = [it for it, in database.execute("SELECT it FROM lines ORDER BY rowid")]
        database.close()
        return found

    def hidden(self):
        return len(list(self.folder.glob(".*.prepared")))

    def put(self, sink, *numbers):
        for it in numbers:
            sink((it,))

    def prepared(self, sink, *numbers, record=1):
        """Begins a sink, which prepares these. Returns its state."""
        sink.begin("a")
        self.put(sink, *numbers)
        return sink.cut(record)

    def test_what_is_prepared_is_published_once_a_record_is_complete(self):
        """Rows whose preparation failed, and an entry of a record that failed, go with the next."""
        for sink in self.sinks():
            sink.begin("a")
            self.put(sink, 1)
            with mock.patch.object(sink, "prepare", side_effect=OSError):
                self.assertRaises(OSError, sink.cut, 1)
            sink.cut(2)
            self.put(sink, 2)
            sink.cut(3)
            self.put(sink, 3)  # behind the cut
            self.assertEqual(self.rows(sink), [])
            for _ in range(2):
                sink.complete(3)
                self.assertEqual(self.rows(sink), [1, 2])

    def test_a_restart_publishes_what_the_state_lists_and_gives_up_all_else(self):
        for sink, again in zip(self.sinks(), self.sinks()):
            state = self.prepared(sink, 1)
            self.put(sink, 2)
            sink.cut(2)
            self.put(sink, 3)
            for _ in range(2):
                again.begin("a", state)
                self.assertEqual((self.rows(again), again.rows), ([1], []))
            again.cut(3)
            self.assertEqual(self.hidden(), 0)

    def test_a_process_that_wakes_beside_its_successor(self):
        """It has restored the job before that one, and gives up nothing that it has prepared."""
        slept, successor = self.sinks()[0], self.sinks()[0]
        self.put(slept, 1)
        slept.begin("a")
        successor.begin("a")
        self.put(successor, 1)
        state = successor.cut(5)
        slept.begin("a")
        self.put(slept, 1)
        slept.cut(4)  # of its own term
        successor.complete(5)
        self.assertEqual((self.rows(successor), self.hidden()), ([1], 1))
        self.sinks()[0].begin("a", state)

    def test_a_backup_that_was_put_back_is_refused(self):
        for sink, again in zip(self.sinks(), self.sinks()):
            self.prepared(sink, 1)
            sink.complete(1)
            again.begin("a")
            self.put(again, 9)
            again.cut(1)
            self.assertRaises(OutputError, again.complete, 1)
            self.assertEqual(self.rows(sink), [1])

    def test_a_prepared_file_that_is_lost(self):
        sink, _ = self.sinks()
        state = self.prepared(sink, 1)
        [hidden] = self.folder.glob(".*.prepared")
        hidden.unlink()
        self.assertRaises(OutputError, self.sinks()[0].begin, "a", state)
        self.sinks()[0].begin("b", state)  # of the job that an imported record is from, whose target is elsewhere
        self.assertEqual(self.rows(sink), [])

    def test_an_imported_record_publishes_under_its_origin(self):
        for sink, again in zip(self.sinks(), self.sinks()):
            state = self.prepared(sink, 1, record=7)
            again.begin("b", state)
            self.put(again, 2)
            again.cut(7)
            again.complete(7)
            sink.complete(7)  # the first job, which goes on
            self.assertEqual(self.rows(sink), [1, 2])

    def test_a_target_that_is_away(self):
        for sink in self.sinks(patience=0.2):
            state = self.prepared(sink, 1)
            with mock.patch.object(sink, "publish", side_effect=OSError):
                sink.complete(1)
                self.assertRaises(SinkFailed, sink.complete, 1, at_once=True)
                self.assertRaises(SinkFailed, sink.begin, "a", state)
            sink.begin("a", state)
            self.assertEqual(self.rows(sink), [1])

    def test_sinks_of_one_target_by_name(self):
        one, two = (Files(str(self.folder), name) for name in ("one", "two"))
        states = []
        for sink, number in ((one, 1), (two, 2)):
            sink.begin("a")
            self.put(sink, number)
            states.append(sink.cut(1))
            self.put(sink, 9)
            sink.cut(2)
        both = Files(str(self.folder), "one")
        both.begin("a", *states)  # a restore with one sink
        both.cut(3)
        self.assertEqual((self.rows(one), self.hidden()), ([1, 2], 0))

    def test_a_row_that_the_database_refuses(self):
        _, table = self.sinks()
        table.begin("a")
        table((1,))
        table((2, 3))
        table.cut(1)
        self.assertRaises(SinkFailed, table.complete, 1, at_once=True)
        self.assertEqual(self.rows(table), [])

    def test_a_job_whose_place_another_has_taken(self):
        _, table = self.sinks()
        table.begin("a")
        table.end("a")
        table.end("a")
        self.put(table, 1)
        table.cut(1)
        self.assertRaises(OutputError, table.complete, 1)
        table.publish(Entry(1, "b", "lines", table.prepare("b", 1, [(5,)])))
        self.assertEqual(self.rows(table), [5])
