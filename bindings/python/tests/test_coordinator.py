"""What the package adds to the calls: openings, images, moments, numbers that do not fit, closing, threads; and groups of keys, by the check value of CRC-32."""
import unittest
from concurrent.futures import ThreadPoolExecutor

from relkvanu import (
    AckCompleted, AckPending, BadArgument, Closed, Configured, Coordinator, Refused, Settings, Shown, Triggered, calls, group_of,
)

SETTINGS = Settings(interval=1000)


class Openings(unittest.TestCase):
    def test_what_a_coordinator_is_not_opened_with(self):
        for name, *arguments in (
            ("BadConfig", Settings(interval=9), [1], 0), ("BadShape", SETTINGS, [], 0), ("BadShape", SETTINGS, [4097], 0), ("BadMoment", SETTINGS, [1], 1 << 62),
            ("BadFirst", SETTINGS, [1], 0, 0),
        ):
            self.assertRaisesRegex(BadArgument, f"^{name}$", Coordinator, *arguments)
        Coordinator(SETTINGS, [1], (1 << 62) - 1, (1 << 62) - 1).close()


class SettingsOfALiveJob(unittest.TestCase):
    """Checkpoints now, and other settings: no row has them."""

    def test_settings_outside_their_limits(self):
        with Coordinator(SETTINGS, [1], 0) as job:
            before = job.save()
            for call in (lambda: job.configure(3000, Settings(interval=9)), lambda: job.line(b"configure 3000 9 0 1 600000 0 1 keep")):
                self.assertRaisesRegex(BadArgument, "^BadConfig$", call)
            self.assertEqual(job.save(), before)

    def test_lines(self):
        settings = Settings(interval=2000, pause=5, at_once=3, timeout=70, tolerable=4, retained=2, keep_on_cancel=True)
        for call, line in [
            (calls.Trigger(7), "trigger 7"),
            (calls.Trigger(7, 3), "in 3 trigger 7"),
            (calls.Configure(8, settings), "configure 8 2000 5 3 70 4 2 keep"),
            (calls.Configure(8, SETTINGS, 3), "in 3 configure 8 1000 0 1 600000 0 1 delete"),
        ]:
            self.assertEqual(call.line(), line)
            self.assertEqual(calls.line_call(line.encode()), call)
        with Coordinator(SETTINGS, [1], 0) as job:
            self.assertEqual((job.configure(8, settings), job.due(), job.trigger(9)), (Configured(0, 0), 1000, Triggered(0, 1)))


class Moments(unittest.TestCase):
    DAY = 24 * 60 * 60 * 1000

    def test_a_moment_that_is_far_ahead_is_refused(self):
        with Coordinator(SETTINGS, [1], 0) as job:
            job.tick(1000)
            late = 1000 + SETTINGS.timeout + self.DAY + 1  # a timer may wait until checkpoint 1 expires
            image = job.save()
            for call in (
                lambda: job.tick(late), lambda: job.savepoint(late), lambda: job.ack(late, 1, 0, 0, [1]), lambda: job.decline(late, 1, 0, 0),
                lambda: job.restore(late), lambda: job.cancel(late), lambda: job.tick((1 << 62) - 1), lambda: job.tick(1 << 62),
            ):
                self.assertRaisesRegex(Refused, "^MomentTooLarge$", call)
            self.assertEqual(job.save(), image)
            job.ack(late - 1, 1, 0, 0, [1])
            job.most_ahead = 2 * self.DAY
            job.tick(late + self.DAY)
            self.assertEqual(job.moment(), late + self.DAY)

    def test_a_timer_that_waits_for_long_is_not_ahead(self):
        with Coordinator(Settings(interval=100 * self.DAY, timeout=200 * self.DAY), [1], 0) as job:
            self.assertEqual(job.tick(job.due()), Triggered(expired=0, id=1))
            self.assertEqual(job.tick(300 * self.DAY).expired, 1)

    def test_a_line_of_a_log_is_not_checked(self):
        with Coordinator(SETTINGS, [1], 0) as job:
            job.line(b"tick 1000000000000")
            self.assertEqual(job.moment(), 1000000000000)
            job.tick(1000000000000 + self.DAY)


class Terms(unittest.TestCase):
    def test_calls_in_a_term(self):
        """One that is far ahead is refused, and one that is made wakes who waits."""
        with Coordinator.open_fenced(SETTINGS, [1], 0, 1, 5) as job:
            self.assertEqual((job.term(), job.reserve(1, 3), job.tick(1000)), ((1, 5), range(5, 8), Triggered(expired=0, id=1)))
            late = 1000 + SETTINGS.timeout + job.most_ahead + 1
            for call in (lambda: job.ack_in(1, late, 1, 0, 0, [7]), lambda: job.decline_in(1, late, 1, 0, 0)):
                self.assertRaisesRegex(Refused, "^MomentTooLarge$", call)
            seen = job.calls()
            job.reserve(1, 1)
            self.assertEqual(job.calls(), seen)
            self.assertEqual((job.ack_in(1, late - 1, 1, 0, 0, [6, 5]), job.calls()), (AckCompleted(dropped=0, released=0), seen + 1))


class Images(unittest.TestCase):
    def test_a_saved_coordinator_goes_on(self):
        with Coordinator(Settings(interval=1000, at_once=2), [2], 0) as job:
            job.savepoint(1200)
            job.ack(1300, 1, 0, 1, [3])
            with Coordinator.open_saved(job.save()) as again:
                self.assertEqual(again.save(), job.save())
                self.assertEqual(again.tick(3000), job.tick(3000))
                self.assertEqual(again.save(), job.save())

    def test_a_text_that_is_no_image_opens_nothing(self):
        with Coordinator(SETTINGS, [2], 0) as job:
            image = job.save().encode()
        for text in (b"", b"{}", b"\xff", image[:-1], image + b"x"):
            self.assertRaisesRegex(BadArgument, "^BadImage$", Coordinator.open_saved, text)


class Calls(unittest.TestCase):
    def test_a_number_that_does_not_fit_is_not_cut_off(self):
        with Coordinator(SETTINGS, [2], 0) as job:
            self.assertEqual(job.tick(1000), Triggered(expired=0, id=1))
            for call in (
                lambda: job.tick(1 << 64),
                lambda: job.ack(1000, 1, 1 << 16, 0, []),
                lambda: job.ack(1000, 1, 0, -1, []),
                lambda: job.ack(1000, 1, 0, 0, [1 << 64]),
                lambda: job.restore(1000, 1 << 64),
                lambda: Coordinator(Settings(interval=1 << 64), [1], 0),
                lambda: Coordinator.open_fenced(SETTINGS, [1], 0, 1, 1 << 64), lambda: job.reserve(1 << 64, 1), lambda: job.reserve(1, -1),
                lambda: job.forfeit(1, [1 << 64]), lambda: job.garbage([-1]), lambda: job.ack_in((1 << 64) + 1, 2000, 2, 0, 0, [7]),
                lambda: job.decline_in(1, 2000, 2, 1 << 16, 0),
            ):
                self.assertRaises(OverflowError, call)
            self.assertEqual(job.ack(1000, 1, 0, 0, [(1 << 64) - 1]), AckPending(missing=1))

    def test_a_refusal_names_itself_and_the_file(self):
        with Coordinator(SETTINGS, [2], 0) as job:
            job.tick(1000)
            for name, file, call in (("FileGone", 7, lambda: job.ack(1000, 1, 0, 0, [], [8, 7])), ("NotTaken", None, lambda: job.deleted(7))):
                with self.assertRaises(Refused) as raised:
                    call()
                self.assertEqual((raised.exception.name, raised.exception.file), (name, file))

    def test_a_savepoint_0_is_not_the_latest(self):
        with Coordinator(SETTINGS, [1], 0) as job:
            self.assertRaises(ValueError, job.restore, 0, 0)
            self.assertRaises(BadArgument, job.restore, 0, None, [])

    def test_metadata_that_is_longer_than_the_first_buffer(self):
        with Coordinator(SETTINGS, [1], 0) as job:
            job.tick(1000)
            files = tuple(range(1 << 60, (1 << 60) + 1000))
            job.ack(1000, 1, 0, 0, files)
            shown = job.show(1)
            self.assertIsInstance(shown, Shown)
            self.assertEqual(shown.files, {(0, 0): files})

    def test_a_closed_one_stays_closed(self):
        job = Coordinator(SETTINGS, [1], 0)
        with job:
            pass
        job.close()
        for name, *given in (
            ("ack", 1000, 1, 0, 0, [1]), ("decline", 1000, 1, 0, 0), ("restore", 1000), ("restore", 1000, None, [2]), ("take", 1), ("show", 1), ("save",),
            ("line", b"tick 1000"), ("reserve", 1, 1), ("forfeit", 1, [7]), ("ack_in", 1, 2000, 2, 0, 0, [7]), ("decline_in", 1, 2000, 2, 0, 0), ("garbage", [7]),
            ("mode",), ("moment",), ("due",), ("oldest_expiry",), ("choice",), ("live", 0), ("missing", 1), ("file_counts",), ("live_from", 0), ("standing", 1),
            ("files_of", 1, 0, 0), ("pins_of", 1), ("waiting_file", 0), ("taken_files",), ("next_tick", None), ("term",), ("fence", 1),
        ):
            self.assertRaises(Closed, getattr(job, name), *given)
        for kind, make in {**calls.OF_A_MOMENT, **calls.OF_A_NUMBER}.items():
            given = [number for name, number in vars(make(1000, 0)).items() if name != "term"]
            self.assertRaises(Closed, getattr(job, calls.CallKind(kind).name.lower()), *given)

    def test_threads_share_it(self):
        with Coordinator(SETTINGS, [64], 0) as job:
            job.tick(1000)

            def share(first):
                for index in range(first, first + 8):
                    job.ack(1000, 1, 0, index, [index])

            with ThreadPoolExecutor(8) as threads:
                list(threads.map(share, range(0, 64, 8)))
            self.assertEqual(job.show(1).metadata["state"], "done")


class GroupsOfKeys(unittest.TestCase):
    def test_the_check_value(self):
        for key in (b"123456789", "123456789", 123456789):
            self.assertEqual(group_of(key, 1 << 32), 0xCBF43926)

    def test_keys_of_each_kind(self):
        self.assertEqual([group_of(it, 8) for it in ("a", "b", 7, 1, True, ("a", 1), ("a", True))], [3, 1, 2, 7, 7, 6, 6])
        self.assertNotEqual(group_of(("a", "bc"), 1 << 32), group_of(("ab", "c"), 1 << 32))
        self.assertRaises(TypeError, group_of, 1.0, 8)
