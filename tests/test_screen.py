"""The desk's window, in a terminal that tmux makes: keys, and then what must stand there."""
import os, subprocess, sys, tempfile

from common import DESK, FAKE, PROGRAM, PROGRAMS, Test, needs_program, needs_tmux


@needs_tmux
class ScreenTest(Test):
    def tmux(self, *words):
        """Runs a command of tmux, and returns what it writes."""
        how = {"stdin": subprocess.DEVNULL, "stderr": subprocess.DEVNULL, "env": {**os.environ, "LC_ALL": "C.UTF-8"}}
        with tempfile.TemporaryFile() as out:
            words = ["tmux", "-S", self.path("socket"), "-f", "/dev/null", *words]
            subprocess.run(words, stdout=out, timeout=20, **how)
            out.seek(0)
            return out.read().decode("utf-8", "replace")

    def open(self, program, *more, sees="F10 end"):
        self.addCleanup(self.tmux, "kill-server")
        desk = " ".join([*more, sys.executable, "-B", DESK, "--program", program, "--record", self.path("record")])
        # the shell outlives its terminal, to tell the status, and then waits only if the terminal is there
        shell = "trap '' HUP; %s; echo ended $? | tee %s; [ -t 1 ] && exec sleep 60" % (desk, self.path("ended"))
        self.tmux("new-session", "-d", "-s", "s", "-x", "100", "-y", "30", shell)
        # what is typed before it is there is taken by the terminal itself
        self.sees(sees)

    def screen(self):
        return self.tmux("capture-pane", "-p", "-t", "s")

    def pane(self, number):
        rows = self.screen().split("\n")[:27]
        rows = rows[:13] if number < 3 else rows[13:]
        return "\n".join(row[:49] if number in (1, 3) else row[50:] for row in rows)

    def keys(self, *keys):
        """Presses keys: those of a tuple by their names, others as text and Enter."""
        for key in keys:
            if isinstance(key, tuple):
                self.tmux("send-keys", "-t", "s", *key)
            else:
                self.tmux("send-keys", "-t", "s", "-l", key)
                self.tmux("send-keys", "-t", "s", "Enter")

    def sees(self, what, pane=0):
        """Waits until something is there, or is so."""
        look = (lambda: self.pane(pane)) if pane else self.screen
        self.until(lambda: what(look()) if callable(what) else what in look(), lambda: "%s\n%s" % (what, self.screen()))

    def ended(self, status=0):
        self.keys(("F10",))
        self.sees("ended %d" % status)

    @needs_program
    def test_a_session(self):
        self.open(PROGRAM)
        self.sees(lambda seen: seen.count("gib supervisor kommando :") == 4)
        self.keys('begin ("anna")')
        self.sees("gib kommando :", 1)
        self.keys("put (6 * 7)")
        self.sees("\n42", 1)
        self.sees("1 anna frei")
        self.keys("put (aple)")
        self.sees('-> bei "aple)": Diesen Namen gibt es', 1)
        self.keys(("F2",), 'begin ("ben", "anna")')
        self.sees("gib kommando :", 2)
        self.keys('TEXT VAR who; put ("Who?"); getline (who); putline ("Hi " + who)')
        self.sees("2 ben wartet")
        self.keys(("M-1",), "INT VAR i; REP i := (i + 1) MOD 1000; put (i) PER")
        self.sees("1 anna rechnet")
        self.keys(("M-2",), "Ben")
        self.sees("Hi Ben", 2)
        self.keys(("F1",), ("C-c",))
        self.sees("FEHLER : halt vom Terminal", 1)
        self.keys('putline ("Grüße, größer")')
        self.sees("\nGrüße, größer", 1)
        self.keys(("F2",), ("C-g",))
        self.sees(lambda seen: "gib supervisor kommando :" in seen.split("Hi Ben")[-1], 2)
        self.keys('continue ("ben")')
        self.sees("2 ben frei")
        self.ended()
        self.assertIn(b"\n2:Hi Ben\n", self.plays(self.read("record")))

    def test_the_line_that_is_typed(self):
        self.open(FAKE)
        self.keys('begin ("anna")', "abc")
        self.sees(lambda seen: "\nabc" in seen, 1)
        self.tmux("send-keys", "-t", "s", "-l", "acd")
        self.keys(("Left",), ("Left",))
        self.tmux("send-keys", "-t", "s", "-l", "b")
        self.keys(("Home",))
        self.tmux("send-keys", "-t", "s", "-l", "_")
        self.keys(("End", "BSpace", "Left", "DC"))
        self.tmux("send-keys", "-t", "s", "-l", "XY")
        self.sees("1> _abXY")
        self.keys(("Enter",))
        self.sees("\n_abXY", 1)
        self.keys(("Up", "Up"))
        self.sees("1> abc")
        self.keys(("Down", "Down"))
        self.sees(lambda seen: "1>\n" in "\n".join(row.rstrip() for row in seen.split("\n")))
        self.keys("x" * 251)
        self.sees("a line has at most 250 bytes, and this one has 251")
        self.keys(("BSpace",), ("Enter",))
        self.sees("xxxx", 1)
        self.keys("//load")
        self.sees("\n/load", 1)
        self.keys("/nothing")
        self.sees("the desk knows no /nothing")
        self.keys(("Down",), "/help")
        self.sees("/load FILE TEXT", 1)
        self.ended()

    def test_windows(self):
        self.open(FAKE)
        self.keys('begin ("anna")', *("line %d" % number for number in range(12)))
        self.sees("line 11", 1)
        self.keys(("PPage",))
        self.sees("(8 lines back)", 1)
        self.sees(lambda seen: "line 11" not in seen, 1)
        self.keys(("NPage",))
        self.sees("line 11", 1)
        self.keys(("F2",), ("F6",))
        self.sees(lambda seen: "[1]" not in seen and "[2]" in seen)
        self.keys(("C-o",))
        self.sees("[4]")
        for wide, high, sees in ((40, 10, "[2]"), (20, 5, "too small"), (1, 1, ""), (100, 30, "[4]")):
            self.tmux("resize-window", "-t", "s", "-x", str(wide), "-y", str(high))
            self.sees(sees)
        self.keys(("C-f",), ("F3",))
        self.sees("3>")
        self.ended()
        self.assertIn(b"\n!\n", self.read("record"))

    def test_what_cannot_be_drawn(self):
        self.open(FAKE)
        self.keys('begin ("anna")')
        self.keys("a漢e\u0301b")
        self.sees("\na?e?b", 1)
        self.ended()

    @needs_program
    def test_a_flood_is_halted(self):
        self.open(PROGRAM)
        self.keys('begin ("anna")', 'TEXT VAR t :: 4000 * "a"; REP put (t) PER')
        self.sees("aaaaaaaaaa", 1)
        self.keys(("F2",))
        self.sees("2>")
        self.keys(("F1",), ("C-c",))
        self.sees(lambda seen: "halt vom" in seen.split("aaaa")[-1], 1)
        self.ended()

    def test_the_terminal_goes_away(self):
        for program in PROGRAMS:
            self.open(program)
            self.keys('begin ("anna")', "REP put (1) PER")
            self.until(lambda: b"REP" in self.read("record"), self.screen)
            self.tmux("kill-server")
            self.until(lambda: os.path.exists(self.path("ended")) and self.read("ended"), "it does not end")
            self.assertEqual(self.read("ended"), b"ended 0\n")
            record = self.read("record")
            self.assertTrue(record.startswith(b'1>begin ("anna")\n1>REP put (1) PER\n'), record)
            self.assertEqual(record[-3:], b"\n.\n")
            os.remove(self.path("record"))
            os.remove(self.path("ended"))

    def test_no_such_terminal(self):
        self.open(FAKE, "env", "TERM=nothing", sees="--plain needs no screen")
        self.sees("ended 0")

    def test_the_program_dies(self):
        os.environ["FAKE"] = "dies"
        self.addCleanup(os.environ.pop, "FAKE")
        self.open(FAKE)
        self.keys('begin ("anna")')
        self.sees("the program ended with status 2")
        self.sees("ended 2")
