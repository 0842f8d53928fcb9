"""The held run: threads, stops, saves and what is refused of them."""
import os
import pathlib
import tempfile
import threading
from unittest import mock

import numpy as np

from threshcinch import LoadError, Progress, Refusal, Run, _save, spectral_embedding

from .common import HERE, KINDS, Case, Stop, Watch, csr, ended, graph_of_kinds, random_graph

# Where the parts of a save begin; threshcinch/_save.py has the table.
VERSION = 8
GRAPH_SUM = 40
LENGTHS = 48
STATE = 136
STAGE = STATE + 48
ISOLATED = STAGE + 88 + 24
LISTS = STATE + 5688


class Held(Case):
    def test_threads(self):
        """5 chunks: fewer threads than chunks, and more."""
        graph = random_graph(16385, 2, 3)
        words = {"dims": 1, "rounds": 1, "degree": 2}
        expected = spectral_embedding(graph, **words)
        for threads in (2, 3, 8):
            with self.subTest(threads=threads):
                self.same(spectral_embedding(graph, threads=threads, **words), expected)

    def test_threads_are_started_and_end(self):
        run = Run.open(random_graph(8193, 2, 3), dims=1, rounds=1, degree=1)
        before = threading.active_count()
        seen = []
        run.drive(3, lambda accepted, owed: seen.append(threading.active_count()))
        self.assertEqual((max(seen), threading.active_count()), (before + 2, before))

    def test_progress_of_several_threads(self):
        """From the calling thread alone, never falling, to the end."""
        watch, callers = Watch(), set()

        def progress(accepted, owed):
            callers.add(threading.current_thread())
            watch(accepted, owed)

        _, counts = spectral_embedding(random_graph(8193, 2, 3), dims=1, rounds=1, degree=1, threads=2, progress=progress)
        calls = (9 + (1 + 2 + 7 * 9) + 7 * counts.refreshed) * 4
        accepted = [told[0] for told in watch.told]
        self.assertEqual((accepted, watch.told[-1]), (sorted(accepted), (calls, 0)))
        self.assertEqual(callers, {threading.current_thread()})

    def test_numbers_of_threads(self):
        for wrong in (0, -1):
            with self.assertRaisesRegex(ValueError, "threads"):
                spectral_embedding(random_graph(10, 2, 4), threads=wrong)
        with self.assertRaises(TypeError):
            spectral_embedding(random_graph(10, 2, 4), threads=2.0)

    def test_by_hand(self):
        """Chunks in any order; refused calls leave the run as it is."""
        graph = random_graph(8193, 2, 3)
        words = {"dims": 1, "rounds": 1, "degree": 1}
        run = Run.open(graph, **words)
        self.assertEqual((run.chunk_count, run.progress()), (3, Progress("degrees", 0, 300)))
        run.chunk(2)
        self.assertEqual((run.chunks_left(), run.progress()), ([0, 1], Progress("degrees", 1, 299)))
        for number, place, call in ((13, 2, lambda: run.chunk(2)), (12, 3, lambda: run.chunk(3)), (12, 2**64 - 1, lambda: run.chunk(-1)), (14, 0, run.close)):
            self.refusal(number, place, call)
        while run.is_open:
            for number in reversed(run.chunks_left()):
                run.chunk(number)
            run.close()
        self.same(ended(run), spectral_embedding(graph, **words))
        self.assertEqual((run.chunks_left(), run.progress()[:1] + run.progress()[2:]), ([], ("ended", 0)))
        self.refusal(15, 0, run.close)

    def refusal(self, number, place, call):
        with self.assertRaises(Refusal) as caught:
            call()
        self.assertEqual((caught.exception.number, caught.exception.place), (number, place))

    def test_no_seed_before_the_end(self):
        with self.assertRaisesRegex(RuntimeError, "not ended"):
            Run.open(random_graph(10, 2, 4)).seed

    def test_asked(self):
        run = Run.open(csr([0, 1, 2], [1, 0], [1.0, 2.0]), dims=3, rounds=4, degree=6, seed_std=0.5)
        self.assertEqual(run.asked, {"dims": 3, "rows": 2, "entries": 2, "rounds": 4, "degree": 6, "seed_std": 0.5})

    def test_a_closing_that_is_interrupted(self):
        """Ctrl-C may raise between the library's answer and the run's taking it: the run stands before the closing, and goes on."""
        graph = random_graph(30, 3, 1)
        run = Run.open(graph, rounds=1, degree=1)
        run.chunk(0)
        before = (run.progress(), run.chunks_left())

        def interrupted(state, memory):
            raise KeyboardInterrupt

        run._stand = interrupted
        with self.assertRaises(KeyboardInterrupt):
            run.close()
        del run._stand
        self.assertEqual(((run.progress(), run.chunks_left()), run.chunks_left()), (before, []))
        self.assertTrue(run.drive())
        self.same(ended(run), spectral_embedding(graph, rounds=1, degree=1))


class Stops(Case):
    def test_stop_and_go_on(self):
        """Within a stage and between stages, with one thread and several, from progress and from another thread's hand."""
        graph = random_graph(8193, 2, 3)
        words = {"dims": 1, "rounds": 1, "degree": 1}
        expected = spectral_embedding(graph, **words)
        for threads in (1, 2):
            run = Run.open(graph, **words)
            stops = 0
            while not run.drive(threads, lambda accepted, owed: run.stop() if accepted % 50 == 5 else None):
                stops += 1
            self.assertGreater(stops, 1 if threads == 1 else 0)
            self.same(ended(run), expected)

    def test_stop_before_a_drive(self):
        run = Run.open(random_graph(30, 3, 1), rounds=1, degree=1)
        run.stop()
        self.assertFalse(run.drive())
        self.assertEqual(run.progress().accepted, 0)
        self.assertTrue(run.drive())

    def test_progress_that_raises_with_threads(self):
        """The run stands as a stop leaves it: all chunks that were begun are done, and it goes on."""
        graph = random_graph(8193, 2, 3)
        words = {"dims": 1, "rounds": 1, "degree": 1}
        run = Run.open(graph, **words)

        def progress(accepted, owed):
            if accepted > 40:
                raise Stop

        with self.assertRaises(Stop):
            run.drive(3, progress)
        self.assertTrue(run.drive(3))
        self.same(ended(run), spectral_embedding(graph, **words))


class Saves(Case):
    """One file, in the Rust binding's form."""

    def setUp(self):
        folder = tempfile.TemporaryDirectory()
        self.addCleanup(folder.cleanup)
        self.path = pathlib.Path(folder.name) / "run.held"
        self.graph = csr([0, 1, 2], [1, 0], [1.0, 2.0])

    def small(self):
        """A run that stands a chunk into its ninth stage: bindings/rust/tests/saves.rs, small()."""
        run = Run.open(self.graph, dims=1, rounds=1, degree=2)
        for _ in range(8):
            run.chunk(0)
            run.close()
        run.chunk(0)
        return run

    def bytes(self):
        self.small().save(self.path)
        return self.path.read_bytes()

    def load(self, data, graph=None):
        self.path.write_bytes(data)
        return Run.load(self.graph if graph is None else graph, self.path)

    def reason(self, data, graph=None):
        with self.assertRaises(LoadError) as caught:
            self.load(data, graph)
        self.assertTrue(str(caught.exception))
        return caught.exception.reason

    def summed(self, data):
        """With the right check sum, by FNV-1a as it is defined."""
        found = 0xCBF29CE484222325
        for byte in data[:-8]:
            found = ((found ^ byte) * 0x100000001B3) & (2**64 - 1)
        return data[:-8] + found.to_bytes(8, "little")

    def forged(self, data, at, number):
        return self.summed(data[:at] + number.to_bytes(8, "little") + data[at + 8 :])

    def test_rusts_save(self):
        """The Rust binding wrote rust.held, of a run over this graph (1, Params::new().rounds(2).degree(2)) that stands a chunk into the stage
        behind its first round's products: it goes on here, and Python's save of the same run has its every byte."""
        stored = (HERE / "rust.held").read_bytes()
        words = {"dims": 1, "rounds": 2, "degree": 2}
        run = Run.open(self.graph, **words)
        while not run.rounds_closed:
            run.chunk(0)
            run.close()
        run.chunk(0)
        run.save(self.path)
        self.assertEqual(self.path.read_bytes(), stored)
        run = Run.load(self.graph, HERE / "rust.held")
        self.assertEqual((run.chunks_left(), run.rounds_closed), ([], 1))
        run.drive()
        self.same(ended(run), spectral_embedding(self.graph, **words))

    def test_check_sum(self):
        """Beside the plain loop, around the blocks that it is computed in."""
        chance = np.random.default_rng(5)
        for length in (0, 1, 2, 9, 65535, 65536, 65537, 140000):
            data = chance.bytes(length) + bytes(8)
            found = _save.check_sum(np.frombuffer(data[:-8], np.uint8))
            self.assertEqual(found.to_bytes(8, "little"), self.summed(data)[-8:], length)

    def test_every_kind_of_stage(self):
        """Saved in the middle of each kind of stage, and gone on with from the file."""
        graph = random_graph(4097, 2, 3)
        words = {"dims": 1, "rounds": 1, "degree": 1}
        run = Run.open(graph, **words)
        saved = set()
        while run.is_open:
            run.chunk(1)
            if run.progress().stage not in saved:
                saved.add(run.progress().stage)
                run.save(self.path)
                before = run.progress()
                run = Run.load(graph, self.path)
                self.assertEqual((run.progress(), run.chunks_left()), (before, [0]))
            run.chunk(0)
            run.close()
        self.assertEqual(len(saved), 19)
        self.same(ended(run), spectral_embedding(graph, **words))
        run.save(self.path)
        self.same(ended(Run.load(graph, self.path)), ended(run))

    def test_cut_and_lengthened(self):
        data = self.bytes()
        for length in (0, 1, 8, 15, 16, 100, STATE - 1, STATE, LISTS, len(data) - 81, len(data) - 1):
            self.assertEqual(self.reason(data[:length]), "length", length)
        self.assertEqual(self.reason(data + b"\0"), "length")

    def test_not_a_save(self):
        for data in (b"x", b"PK\x03\x04" + bytes(200), b"tcinchrn" + self.bytes()[8:]):
            self.assertEqual(self.reason(data), "not a save")

    def test_version(self):
        for other in (0, 4, 2**64 - 1):
            self.assertEqual(self.reason(self.forged(self.bytes(), VERSION, other)), "version")

    def test_a_save_of_version_1(self):
        """The Rust binding of 0.1.0 wrote version1.held, of the same run: it lacks the Ritz record's length and its ten numbers, and nothing
        else is other than today. It is refused, and the words say why."""
        stored = (HERE / "version1.held").read_bytes()
        data = self.bytes()
        head = data[:VERSION] + (1).to_bytes(8, "little") + data[VERSION + 8 : STATE - 8]
        self.assertEqual(self.summed(head + data[STATE : -8 - 8 * 10] + bytes(8)), stored)
        self.assertEqual(self.reason(stored), "no Ritz record")
        with self.assertRaisesRegex(LoadError, "threshcinch 0.1, which kept no Ritz record: go on with it there, or begin it anew"):
            self.load(stored)

    def counted_by_entries(self, run, rows):
        """The run as threshcinch 0.2 saved it: version 2, and its isolated rows are so many with no entries."""
        run.save(self.path)
        return self.forged(self.forged(self.path.read_bytes(), VERSION, 2), ISOLATED, rows)

    def goes_on(self, graph, run, rows, **words):
        """Saved by 0.2 it is the run that this version saves, in every byte, and so has the end of the one call."""
        old = self.counted_by_entries(run, rows)
        new = self.path.read_bytes()
        loaded = self.load(old, graph)
        self.assertEqual(loaded.counts, run.counts)
        loaded.save(self.path)
        self.assertEqual(self.path.read_bytes(), new)
        loaded.drive(2)
        self.same(ended(loaded), spectral_embedding(graph, **words))

    def test_a_save_of_version_2(self):
        """At its opening, in every kind of stage and at its end."""
        words = {"dims": 1, "rounds": 1, "degree": 2}
        run = Run.open(KINDS, **words)
        self.goes_on(KINDS, run, 1, **words)
        seen = set()
        while run.is_open:
            run.chunk(0)
            if run.progress().stage not in seen:
                seen.add(run.progress().stage)
                self.goes_on(KINDS, run, 1, **words)
            run.close()
            self.assertEqual(run.counts.isolated, 8)
        self.assertEqual(len(seen), 19)
        self.goes_on(KINDS, run, 1, **words)

    def test_a_save_of_version_2_of_several_chunks(self):
        graph = graph_of_kinds(4104)
        words = {"dims": 1, "rounds": 1, "degree": 1}
        run = Run.open(graph, **words)
        run.chunk(1)
        self.goes_on(graph, run, 342, **words)
        run.drive(1, lambda accepted, owed: run.stop() if run.progress().stage == "plain pass" else None)
        self.assertEqual(run.counts.isolated, 342 * 8)
        self.goes_on(graph, run, 342, **words)

    def test_a_stored_save_of_version_2(self):
        """threshcinch 0.2.1 wrote version2.held, of a run over KINDS (dims 1, rounds 2, degree 2) that stands a chunk into the stage behind its
        first round's products. Its version, its count and so its check sum are other than today, and nothing else."""
        stored = (HERE / "version2.held").read_bytes()
        words = {"dims": 1, "rounds": 2, "degree": 2}
        run = Run.open(KINDS, **words)
        while not run.rounds_closed:
            run.chunk(0)
            run.close()
        run.chunk(0)
        self.assertEqual(self.counted_by_entries(run, 1), stored)
        self.goes_on(KINDS, run, 1, **words)
        run = Run.load(KINDS, HERE / "version2.held")
        self.assertEqual((run.counts.isolated, run.chunks_left(), run.rounds_closed), (8, [], 1))

    def test_a_damaged_save_of_version_2(self):
        run = Run.open(KINDS, dims=1, rounds=1, degree=2)
        run.chunk(0)
        run.close()
        data = self.counted_by_entries(run, 1)
        self.assertEqual(self.load(data, KINDS).counts.isolated, 8)
        self.assertEqual(self.reason(data[:-1], KINDS), "length")
        for place in (ISOLATED, STAGE, LISTS, len(data) - 1):
            self.assertEqual(self.reason(data[:place] + bytes([data[place] ^ 1]) + data[place + 1 :], KINDS), "check sum", place)
        self.assertEqual(self.reason(data), "other graph")
        for place, number, refusal in ((ISOLATED, 13, 16), (STAGE, 0, 15)):
            with self.assertRaises(LoadError) as caught:
                self.load(self.forged(data, place, number), KINDS)
            self.assertEqual((caught.exception.reason, caught.exception.__cause__.number), ("refused", refusal))

    def test_a_save_of_version_2_over_a_graph_that_no_run_opens_with(self):
        """Only a forged one is."""
        data = self.counted_by_entries(self.small(), 0)
        self.load(data)
        wrong = csr([0, 1, 2], [1, 0], [1.0, np.nan])
        found = _save._sum_of([wrong.indptr.astype(np.uint64), wrong.indices.astype(np.uint32), wrong.data])
        with self.assertRaises(LoadError) as caught:
            self.load(self.forged(data, GRAPH_SUM, found), wrong)
        self.assertEqual((caught.exception.reason, caught.exception.__cause__.number), ("refused", 7))

    def test_a_save_of_version_2_with_too_little_memory(self):
        """The rows are counted once all else is known to fit, and not where the count is known to be 0."""
        run = Run.open(KINDS, dims=1, rounds=1, degree=2)
        opened = self.counted_by_entries(run, 1)
        run.drive()
        closed = self.counted_by_entries(run, 1)
        with mock.patch("threshcinch._run.prepare", side_effect=MemoryError):
            with self.assertRaises(MemoryError):
                self.load(closed, KINDS)
            self.assertEqual(self.reason(self.forged(closed, STAGE, 21), KINDS), "refused")
            self.assertEqual(self.load(opened, KINDS).counts.isolated, 0)
            self.assertEqual(self.load(self.forged(closed, VERSION, 3), KINDS).counts.isolated, 1)

    def test_changed_bytes(self):
        data = self.bytes()
        for place in (16, GRAPH_SUM, STATE, STAGE, LISTS, LISTS + 40, len(data) - 9, len(data) - 1):
            changed = bytearray(data)
            changed[place] ^= 1
            self.assertEqual(self.reason(bytes(changed)), "check sum", place)

    def test_lists_of_other_lengths(self):
        """One list has one element less and another one more: as many bytes in all."""
        data = self.bytes()
        lengths = [int.from_bytes(data[at : at + 8], "little") for at in range(LENGTHS, STATE, 8)]
        for less, more in ((0, 9), (10, 9), (9, 10)):
            forged = self.forged(data, LENGTHS + 8 * less, lengths[less] - 1)
            self.assertEqual(self.reason(self.forged(forged, LENGTHS + 8 * more, lengths[more] + 1)), "lists")

    def test_rounds_that_the_record_has_not(self):
        """The state's rounds decide how long the Ritz record is."""
        self.assertEqual(self.reason(self.forged(self.bytes(), STATE + 24, 2)), "lists")

    def test_other_graphs(self):
        data = self.bytes()
        for other in (csr([0, 1, 2], [1, 0], [1.0, 3.0]), csr([0, 1, 2], [1, 1], [1.0, 2.0]), csr([0, 2, 2], [1, 0], [1.0, 2.0]), csr([0, 1], [0], [1.0])):
            self.assertEqual(self.reason(data, other), "other graph")
        self.assertEqual(self.reason(self.forged(data, GRAPH_SUM, 1)), "other graph")
        with self.assertRaises(TypeError):
            self.load(data, self.graph.tocoo())

    def test_forged_states(self):
        data = self.bytes()
        for at, number, refusal in ((STAGE, 21, 16), (STAGE, 0, 15), (STATE, 8, 1), (STATE + 24, 0, 8)):
            with self.assertRaises(LoadError) as caught:
                self.load(self.forged(data, at, number))
            self.assertEqual((caught.exception.reason, caught.exception.__cause__.number), ("refused", refusal))
            self.assertIn(caught.exception.__cause__.words, str(caught.exception))

    def test_forged_graph_whose_starts_fall(self):
        """Threads rest on rising starts, and so they are tested beside the check sum."""
        falling = csr([0, 1, 2], [1, 0], [1.0, 2.0])
        falling.indptr = np.array([0, 3, 2], np.int32)
        lists = [np.array([0, 3, 2], np.uint64), np.array([1, 0], np.uint32), np.array([1.0, 2.0])]
        found = _save._sum_of(lists)
        self.assertEqual(self.reason(self.forged(self.bytes(), GRAPH_SUM, found), falling), "other graph")

    def test_a_save_that_fails_leaves_the_older(self):
        self.path.write_bytes(b"older")
        with self.assertRaises(Stop):
            with _save.written_whole(self.path) as file:
                file.write(b"half of the new one")
                raise Stop
        self.assertEqual((self.path.read_bytes(), os.listdir(self.path.parent)), (b"older", ["run.held"]))

    def test_no_file(self):
        with self.assertRaises(FileNotFoundError):
            Run.load(self.graph, self.path)
        with self.assertRaises(FileNotFoundError):
            self.small().save(self.path.parent / "nothing" / "run.held")

    def test_the_empty_graph(self):
        """Lists of no elements, and bits that are the one call's."""
        graph = csr([0, 0], [], [])
        Run.open(graph, dims=1, rounds=1, degree=1).save(self.path)
        run = Run.load(graph, self.path)
        run.drive()
        self.same(ended(run), spectral_embedding(graph, dims=1, rounds=1, degree=1))
