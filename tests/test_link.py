"""The link: when a line was served, whatever the program's speed, and how the program ends."""
import fcntl, os, random, subprocess, sys, termios, time

from common import FAKE, PROGRAM, PROGRAMS, Test, needs_program
from link import Line, Link

HOSTILE = [b'1>begin ("a")', b'2>begin ("b")', b"1>put (1)", b"2>REP put (2) PER", b"*1", b"*7", b"2^", b"2>halt", b"!",
           b"", b'1>TEXT VAR t :: 9000 * "x"; putline (t); putline (t); put (t)', b"4>task info", b"1>put (aple)",
           b"*3"]


def ended(program):
    program.wait(10)
    program.stdin.close()
    program.stdout.close()


class LinkTest(Test):
    def link(self, *words, **more):
        if more:
            os.environ["FAKE"] = more["fault"]
            self.addCleanup(os.environ.pop, "FAKE")
        link = Link(words)
        self.addCleanup(ended, link.program)
        self.addCleanup(link.kill)
        return link

    def serve(self, link, lines, seconds=40):
        """What was shown until each line was served."""
        shown, found = [], []
        link.shown = shown.append
        link.waiting.extend(Line(line, lambda line: (found.append(list(shown)), shown.clear())) for line in lines)
        end = time.monotonic() + seconds
        while not link.gone and len(found) < len(lines):
            self.assertLess(time.monotonic(), end, "it was not served")
            link.step(1)
        return found

    def finish(self, link, patience):
        """Goes on until the program has ended. Returns its status."""
        link.patience = patience
        self.until(lambda: link.step(0.05) is not None and link.gone, "it does not end")
        return link.program.wait(5)

    def test_shown_with_each_line_is_what_the_line_adds(self):
        for seed, program in enumerate(PROGRAMS):
            dice = random.Random(seed)
            lines = HOSTILE[:2] + [dice.choice(HOSTILE) for _ in range(16)]
            found = self.serve(self.link(program, "play"), lines)
            for count in range(1, len(lines) + 1):
                all_shown = b"".join(piece + b"\n" for pieces in found[:count] for piece in pieces)
                told = self.plays(b"".join(line + b"\n" for line in lines[:count]), program)
                self.assertTrue(all_shown == told, (program, lines[:count]))

    def test_a_slow_program(self):
        found = self.serve(self.link(FAKE, "play", fault="slow"), [b'1>begin ("a")', b"", b"1>x", b"!"])
        self.assertEqual(found, [[b"1:gib kommando :"], [], [b"1:x", b"1:gib kommando :"], [b"! fixpoint"]])

    def test_many_lines_at_once(self):
        for program in PROGRAMS:
            begun = time.monotonic()
            self.assertEqual(len(self.serve(self.link(program, "play"), [b"!"] * 300)), 300)
            self.assertLess(time.monotonic() - begun, 15)

    def test_a_program_that_dies(self):
        link = self.link(FAKE, "play", fault="dies")
        self.assertEqual(len(self.serve(link, [b"!", b"!", b"!", b"!"])), 1)
        self.assertEqual((link.gone, self.finish(link, 5)), (True, 2))

    def test_another_process_keeps_the_pipe_open(self):
        link = self.link(FAKE, "play", fault="clings")
        self.assertEqual(self.serve(link, [b"!", b"."])[0], [b"! fixpoint"])
        begun = time.monotonic()
        self.assertEqual(self.finish(link, 10), 0)
        self.assertLess(time.monotonic() - begun, 5)

    def test_a_program_that_takes_nothing_is_ended_by_force(self):
        link = self.link(FAKE, "play", fault="deaf")
        link.waiting.append(Line(b"!"))
        self.assertEqual(self.finish(link, 0.5), -9)

    def test_a_program_that_closes_its_output_is_ended_by_force(self):
        link = self.link(FAKE, "play", fault="closes")
        link.waiting.append(Line(b"!"))
        begun = time.monotonic()
        self.assertEqual(self.finish(link, 30), -9)
        self.assertLess(time.monotonic() - begun, 5)

    def test_a_pipe_that_is_never_full_wakes_too_early(self):
        link = self.link(FAKE, "play", fault="slow")
        fcntl.fcntl(link.to, 1031, 1 << 16)
        self.assertEqual(self.serve(link, [b"!", b"!"]), [[b"! fixpoint"], [b"! fixpoint"]])


@needs_program
class FactsTest(Test):
    """The two facts by which the desk knows that a line was served."""

    def setUp(self):
        super().setUp()
        self.program = subprocess.Popen([PROGRAM, "play"], stdin=subprocess.PIPE, stdout=subprocess.PIPE, bufsize=0)
        self.addCleanup(ended, self.program)
        self.addCleanup(self.program.kill)
        os.set_blocking(self.program.stdout.fileno(), False)

    def untaken(self):
        return int.from_bytes(fcntl.ioctl(self.program.stdin.fileno(), termios.FIONREAD, bytes(4)), sys.byteorder)

    def type_flood(self, lines):
        """Types a line that shows more than the pipe back has room for, and others, until the program takes no more."""
        self.program.stdin.write(b'1>begin ("a")\n1>TEXT VAR t :: 4000 * "a"; REP put (t) PER\n')
        self.until(lambda: self.untaken() == 0, "two lines are not taken")
        self.program.stdin.write(b"*1\n" + lines)
        self.until(lambda: self.untaken() == 0, "turns are not taken")

    def shown(self, end, at_once=1 << 20):
        """What the program shows up to some end."""
        shown = []

        def is_there():
            shown.append(self.program.stdout.read(at_once) or b"")
            return end in b"".join(shown)

        self.until(is_there, "it does not show %r" % end)
        return b"".join(shown)

    def test_what_a_line_shows_is_put_before_more_is_taken(self):
        self.type_flood(b"")
        self.program.stdin.write(b"!\n")
        time.sleep(0.5)
        self.assertEqual(self.untaken(), 2)
        self.assertGreater(len(self.shown(b"\n! fixpoint\n")), 1 << 16)
        self.assertEqual(self.untaken(), 0)

    def test_no_byte_is_taken_while_a_whole_line_is_ahead(self):
        self.type_flood(b"*3\n!\n")
        self.program.stdin.write(b"!\n")
        first = self.shown(b" \n1,", 1 << 16)
        time.sleep(0.5)
        # the first flood is over, and of the second some is shown: between the two nothing was taken
        self.assertEqual((first.count(b"\n1,"), self.untaken()), (2, 2))
        self.shown(2 * b"! fixpoint\n")
        self.assertEqual(self.untaken(), 0)
