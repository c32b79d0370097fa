"""The desk without a screen: what it shows is what `play` makes of its record, whatever is typed."""
import os, random, resource, signal, sys, time

from common import DESK, FAKE, PROGRAM, PROGRAMS, Test, needs_program

# without /save, since what that makes a task write is recorded and not shown
TYPED = [
    b'begin ("a")', b'begin ("b", "a")', b'continue ("a")', b'continue ("b")', b"halt", b"task info", b"", b"list",
    b"break", b"end", b"/sv", b"/halt", b"/1", b"/2", b"/3", b"/4", b"/tasks", b"/fix", b"//x", b"/nix", b"/",
    b"/load /etc/hostname h", b'/load "', b"/save p", b'enter ("p")', b".", b'run ("p")', b"put (1)",
    b"REP put (2) PER", b"?", b"TEXT VAR t; getline (t); putline (t)", b'putline ("gib supervisor kommando :")',
    b"9>x", b"1>put (1)", b"1^", b'REP put ("gib kommando :") PER', b'REP putline ("gib supervisor kommando :") PER',
    b"! fixpoint", b"!", b"*5", 251 * b"x", b"\xff\x00\x1b[2J"]


def lines(*typed):
    return b"".join(line + b"\n" for line in typed)


class DeskTest(Test):
    def types(self, typed, *words, program=PROGRAM, patience="5", status=0, seconds=60):
        """Types lines. Returns what the desk shows and says, and its record."""
        record = self.path("record")
        if os.path.exists(record):
            os.remove(record)
        desk = [sys.executable, "-B", DESK, "--plain", "--program", program, "--patience", patience, "--record", record]
        found, out, errors = self.run_with(desk + list(words), typed, seconds)
        self.assertEqual(found, status, errors)
        return out, errors, self.read("record")

    @needs_program
    def test_what_is_shown_is_the_replay_of_the_record(self):
        for seed in range(8):
            dice = random.Random(seed)
            other = lambda: bytes(dice.choice(range(256)) for _ in range(dice.randrange(40))).replace(b"\n", b"")
            typed = [dice.choice(TYPED) if dice.random() < 0.9 else other() for _ in range(20)]
            out, errors, record = self.types(lines(*typed), patience="0.05")
            self.assertTrue(out == self.plays(record), (seed, record, errors))

    @needs_program
    def test_a_task_that_writes_the_supervisors_prompt_when_it_is_coupled(self):
        forges = b'REP putline ("gib supervisor kommando :") PER'
        for number in (b"/1", b"/4"):
            typed = [number, b'begin ("a")', forges, b"/sv", b'continue ("a")', b"", b"/2", b"", number, b"/halt"]
            out, errors, record = self.types(lines(*typed, b"list"), patience="0.3")
            self.assertTrue(out == self.plays(record), record)
            self.assertEqual((out.count(b"FEHLER"), out.count(b"unbekannt"), errors), (1, 0, b""))

    def test_a_program_answers_and_rests(self):
        for program in PROGRAMS:
            begun = time.monotonic()
            typed = lines(b'begin ("a")', b"put (1)", b"put (1)")
            out, errors, record = self.types(typed, program=program, patience="60")
            self.assertEqual((out.count(b"1:gib kommando :\n"), out[-11:], errors), (3, b"! fixpoint\n", b""))
            self.assertLess(time.monotonic() - begun, 20)

    def test_no_input_no_line_end_and_no_line(self):
        for program in PROGRAMS:
            self.assertEqual(self.types(b"", program=program)[0], b"! fixpoint\n")
            self.assertEqual(self.types(b'begin ("a")', program=program)[0], b"1:gib kommando :\n! fixpoint\n")
            self.assertEqual(self.types(b'begin ("a")\r\n', program=program)[0], b"1:gib kommando :\n! fixpoint\n")

    def test_a_line_that_is_too_long_is_refused(self):
        for length in (251, 100000):
            out, errors, record = self.types(lines(length * b"x", b'begin ("a")'), program=FAKE)
            self.assertEqual((out, record), (b"1:gib kommando :\n! fixpoint\n", b'1>begin ("a")\n.\n'))
            self.assertIn(b"at most 250 bytes", errors)
        self.assertIn(b"1>" + 250 * b"x" + b"\n", self.types(lines(250 * b"x"), program=FAKE)[2])

    def test_fixpoints_come_by_themselves_where_something_changes(self):
        for program in PROGRAMS:
            desk = self.desk(program, "--patience", "60", "--every", "0.3")
            desk.type(lines(b'begin ("a")', b"REP put (1) PER"))
            self.until(lambda: desk.out().count(b"! fixpoint") >= 3, lambda: "no fixpoints: %r" % desk.out()[-200:])
            desk.process.send_signal(signal.SIGTERM)
            self.assertEqual(desk.status(40), 0)

    def test_no_fixpoint_comes_where_nothing_changes(self):
        for program in PROGRAMS:
            desk = self.desk(program, "--patience", "60", "--every", "0.2", "--record", self.path("record"))
            desk.type(lines(b'begin ("a")'))
            self.until(lambda: desk.out().endswith(b"! fixpoint\n"), lambda: "no fixpoint: %r" % desk.out())
            time.sleep(1)
            self.assertEqual(self.read("record"), b'1>begin ("a")\n!\n')
            self.assertEqual(desk.status(40), 0)
            os.remove(self.path("record"))

    def test_told_to_end(self):
        for program in PROGRAMS:
            for number in (signal.SIGTERM, signal.SIGHUP, signal.SIGINT):
                desk = self.desk(program, "--patience", "60")
                desk.type(lines(b'begin ("a")', b"REP put (1) PER"))
                self.until(lambda: desk.out().count(b"\n") > 2, "nothing is shown")
                desk.process.send_signal(number)
                self.until(lambda: desk.process.poll() is not None, "it does not end")
                self.assertEqual(desk.process.poll(), 0)
                self.assertEqual((desk.out()[-12:], desk.errors()), (b"\n! fixpoint\n", b""))

    def test_the_program_is_killed(self):
        for program in PROGRAMS:
            desk = self.desk(program, "--patience", "60", "--record", self.path("record"))
            desk.type(lines(b'begin ("a")'))
            self.until(lambda: desk.out().endswith(b"kommando :\n"), "no prompt")
            with open("/proc/%d/task/%d/children" % (desk.process.pid, desk.process.pid)) as children:
                os.kill(int(children.read().split()[0]), signal.SIGKILL)
            self.until(lambda: desk.process.poll() is not None, "it does not end")
            self.assertEqual(desk.process.poll(), 137)
            self.assertIn(b"ended with status", desk.errors())
            self.assertEqual(self.read("record"), b'1>begin ("a")\n')
            os.remove(self.path("record"))

    def test_programs_with_faults(self):
        ends = ("dies", 2, b"status 2"), ("bad", 7, b"! Zeile 3"), ("slow", 0, b""), ("clings", 0, b"")
        for fault, status, says in ends:
            desk = self.desk(FAKE, "--patience", "1", env={**os.environ, "FAKE": fault})
            desk.type(lines(b'begin ("a")', b"x"))
            self.assertEqual(desk.status(30), status, fault)
            self.assertIn(says, desk.errors())

    def test_asked_twice_it_ends_a_program_that_takes_nothing(self):
        desk = self.desk(FAKE, env={**os.environ, "FAKE": "deaf"})
        desk.type(lines(251 * b"x"))
        self.until(desk.errors, "it does not refuse the line")
        for _ in range(2):
            desk.process.send_signal(signal.SIGTERM)
            time.sleep(1.2)
        self.assertEqual(desk.status(30), 137)

    def test_told_to_end_twice_at_once(self):
        for program in PROGRAMS:
            desk = self.desk(program, "--patience", "60")
            desk.type(lines(b'begin ("a")', b"REP put (1) PER"))
            self.until(lambda: desk.out().count(b"\n") > 2, "nothing is shown")
            for _ in range(3):
                desk.process.send_signal(signal.SIGHUP)
            self.assertEqual((desk.status(40), desk.out()[-12:]), (0, b"\n! fixpoint\n"))

    def test_a_record_that_finds_no_room(self):
        limit = lambda: resource.setrlimit(resource.RLIMIT_FSIZE, (1000, 1000))
        desk = self.desk(FAKE, "--record", self.path("record"), preexec_fn=limit)
        desk.type(lines(*(b"%d " % number + 200 * b"x" for number in range(9)), b'begin ("a")'))
        self.assertEqual(desk.status(30), 0)
        self.assertIn(b"desk: the record ends here: ", desk.errors())
        self.assertIn(b"1:gib kommando :\n! fixpoint\n", desk.out())

    def test_nobody_reads(self):
        for program in PROGRAMS:
            words = [sys.executable, "-B", DESK, "--plain", "--program", program]
            desk = self.start(["sh", "-c", '"$@" | true', "", *words])
            desk.type(lines(b'begin ("a")'))
            self.until(lambda: desk.process.poll() is not None, "it does not end")
            self.assertEqual(desk.errors(), b"")

    def test_no_program_and_no_record(self):
        for words in (["--program", self.path("nothing")], ["--record", self.path("there", b"x"), "--program", FAKE]):
            status, out, errors = self.run_with([sys.executable, "-B", DESK, "--plain", *words])
            self.assertEqual((status, out), (1, b""))
            self.assertTrue(errors.startswith(b"desk: ") and errors.count(b"\n") == 1, errors)
        self.assertEqual(self.read("there"), b"x")


@needs_program
class TextsTest(Test):
    """Files that go into texts, and texts that go into files."""

    TEXT = 'INT VAR i;\n\nFOR i UPTO 3 REP put (i) PER;\n    putline ("|gib kommando :"); put ("Größe")\n'.encode()

    def types(self, *typed):
        words = [sys.executable, "-B", DESK, "--plain", "--program", PROGRAM, "--patience", "20"]
        status, out, errors = self.run_with(words, lines(*typed))
        self.assertEqual(status, 0)
        return out, errors

    def commands(self, name=b"t"):
        load = b"/load '%s' '%s'" % (self.path("a file", self.TEXT).encode(), name)
        return load, b"/save '%s' '%s'" % (name, self.path("other file").encode())

    def test_loaded_run_and_saved(self):
        for name in (b"t", b'a "name"'):
            load, save = self.commands(name)
            run = b'run ("%s")' % name.replace(b'"', b'""')
            out, errors = self.types(b'begin ("a")', load, run, save, b"list")
            self.assertIn("1:1 2 3 |gib kommando :\n1,Größe \n".encode(), out)
            self.assertIn(b"1:%s\n" % name, out)
            self.assertNotIn(b"1:|", out.replace(b"1:|gib", b""))
            self.assertEqual(errors.count(b"4 lines of "), 2)
            self.assertEqual(self.read("other file"), self.TEXT)

    def test_line_ends_and_tabs(self):
        path = self.path("crlf", b"\xef\xbb\xbf\tput (1)\r\nput (2)\r\n\r\n").encode()
        self.types(b'begin ("a")', b"/load " + path + b" t", b"/save t " + path)
        self.assertEqual(self.read("crlf"), b"    put (1)\nput (2)\n")

    def test_what_is_refused(self):
        load, save = self.commands()
        for number, bad in enumerate((b"x" * 251, b"a\n.\nb", 401 * b"\n" + b"x")):
            load_bad = b"/load %s t" % self.path("bad", bad).encode()
            self.assertIn(b"line %d is past" % (1, 2, 401)[number], self.types(b'begin ("a")', load_bad)[1])
        for command in (load, save):
            self.assertIn(b"not at its prompt", self.types(command)[1])
        nothing = b"/load %s t" % self.path("nothing").encode()
        self.assertIn(b"No such file", self.types(b'begin ("a")', nothing)[1])
        self.assertIn(b"1 to 60 bytes", self.types(b'begin ("a")', self.commands(61 * b"n")[0])[1])
        self.assertIn(b"Datenraum gibt es nicht", self.types(b'begin ("a")', save)[1])
        other = b'BOUND INT VAR i :: new ("t"); i := 1'
        self.assertIn(b"falscher Datenraumtyp", self.types(b'begin ("a")', other, save)[1])

    def test_a_text_of_400_lines(self):
        text = b"".join(b"(* %s *)\n" % (b"%d" % number).rjust(200, b"x") for number in range(400))
        path = self.path("long", text).encode()
        out, errors = self.types(b'begin ("a")', b"/load " + path + b" t", b"/save t " + path)
        self.assertEqual((self.read("long"), errors.count(b"400 lines")), (text, 2))
