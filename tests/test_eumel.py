"""The script ./eumel, with a stand-in of the program and of the command rt."""
import os, pty, shutil, sys

from common import FAKE, PROGRAM, TOP, Test, needs_program

# what it was given, or the answer of a file beside it; and a proof that ends at once
PROGRAM_TEXT = b"""#!/bin/sh
if [ -e "$(dirname "$0")/answer" ]; then cat "$(dirname "$0")/answer"; else echo "$*"; cat; echo; fi
exit "$(cat "$(dirname "$0")/status" 2>/dev/null || echo 0)"
"""
RT_TEXT = b"""#!/bin/sh
case "$1" in
    all) printf '== low\\nit is proved\\n== eumel\\nit is proved\\n== summary\\n'; exit "${PROVES:-0}" ;;
    run) mkdir -p out; printf '#!/bin/sh\\necho "built: $*"\\n' >out/eumel; chmod +x out/eumel ;;
    try) shift 2; echo "tried: $*"; cat; echo "run=ended status=0 runners=1 proved=no" >&2 ;;
esac
"""


class ScriptTest(Test):
    def setUp(self):
        super().setUp()
        self.out = self.path("crates/eumel/out")
        os.makedirs(self.path("crates/low/src"))
        os.makedirs(self.path("bin"))
        os.makedirs(self.out)
        shutil.copy(os.path.join(TOP, "eumel"), self.folder)
        os.symlink(os.path.join(TOP, "desk"), self.path("desk"))
        self.path("crates.txt", b"# crates\nlow: \neumel: low\n")
        self.path("crates/low/src/lib.rt", b"")
        for name, text in (("bin/rt", RT_TEXT), ("crates/eumel/out/eumel", PROGRAM_TEXT)):
            os.chmod(self.path(name, text), 0o755)

    def eumel(self, *words, given=b"", **environment):
        env = {**os.environ, "PATH": self.path("bin") + ":" + os.environ["PATH"], **environment}
        status, out, errors = self.run_with([self.path("eumel"), *words], given, 30, env=env)
        return status, out.decode(), errors.decode()

    def answers(self, answer, status=0):
        self.path("crates/eumel/out/answer", answer)
        self.path("crates/eumel/out/status", b"%d" % status)

    def test_help_and_words_that_are_none(self):
        for word in ("-h", "--help"):
            status, out, errors = self.eumel(word)
            self.assertEqual((status, out[:5], errors), (0, "use: ", ""))
            self.assertIn("./eumel desk", out)
        status, out, errors = self.eumel()
        self.assertEqual((status, out, errors[:5]), (1, "", "use: "))
        status, out, errors = self.eumel("lines")
        self.assertEqual((status, out), (1, ""))
        self.assertIn("there is no command lines\nuse: ", errors)

    def test_line_and_play(self):
        self.assertEqual(self.eumel("line", given=b"put (1)"), (0, "line\nput (1)\n", ""))
        self.assertEqual(self.eumel("play", given=b"1^\n.\n"), (0, "play\n1^\n.\n\n", ""))
        file = self.path("file", b"put (1);\r\nput (2)\n\n")
        self.assertEqual(self.eumel("line", file), (0, "line\nput (1); put (2)\n", ""))
        self.assertEqual(self.eumel("line", file, file)[1], 2 * ("== %s\nline\nput (1); put (2)\n" % file))
        session = self.path("session", b"1^\n.\n")
        self.assertEqual(self.eumel("play", session), (0, "play\n1^\n.\n\n", ""))
        self.assertEqual(self.eumel("play", session, session)[0], 1)
        for command in ("line", "play"):
            for path in (self.path("nothing"), self.folder):
                self.assertEqual(self.eumel(command, path), (1, "", "eumel: %s cannot be read\n" % path))

    def test_a_session_that_ends_before_its_file(self):
        self.answers(b"! fixpoint\n")
        self.assertEqual(self.eumel("play", self.path("long", b".\n" + 100000 * b"1^\n")), (0, "! fixpoint\n", ""))

    def test_returns_in_a_session(self):
        status, out, errors = self.eumel("play", self.path("session", b"1^\r\n.\r\n"))
        self.assertEqual((status, out), (0, "play\n1^\r\n.\r\n\n"))
        self.assertIn("end with byte 13", errors)

    def test_a_status_is_explained(self):
        self.answers(b"! Zeile 1\n", 7)
        status, out, errors = self.eumel("line", self.path("long", b"x" * 200 + b"\n" + b"y" * 50 + b"\n"))
        self.assertEqual((status, out), (7, "! Zeile 1\n"))
        self.assertIn("has 251 bytes on one line, and a line at most 250", errors)
        self.assertIn("status 7", errors)

    def test_places_are_those_of_the_file(self):
        file = self.path("file", b"put (1);\r\n\n  put (aple)")
        for told, line, place in ((1, 1, 1), (9, 1, 9), (10, 2, 1), (11, 3, 1), (18, 3, 8)):
            self.answers(b"FEHLER : unbekannt (Zeile 1, Stelle %d)\n" % told)
            self.assertEqual(self.eumel("line", file)[1], "FEHLER : unbekannt (Zeile %d, Stelle %d)\n" % (line, place))

    def test_what_is_no_refusal_stays(self):
        file = self.path("file", b"a\nb\n")
        place = "(Zeile 1, Stelle 3)\n"
        for answer in ("x\nFEHLER : unbekannt " + place, "FEHLER : mein " + place, "FEHLER : INT-Ueberlauf\n", ""):
            self.answers(answer.encode())
            self.assertEqual(self.eumel("line", file)[1], answer)

    def test_the_first_proof(self):
        os.remove(self.path("crates/eumel/out/eumel"))
        status, out, errors = self.eumel("line")
        self.assertEqual((status, out), (0, "built: line\n"))
        self.assertIn("proves 2 crates, which takes some 125 processor minutes", errors)
        self.assertIn("checked low, 1 of 2, after 0 minutes", errors)
        self.assertEqual(self.eumel("line"), (0, "built: line\n", ""))

    def test_no_proof(self):
        os.remove(self.path("crates/eumel/out/eumel"))
        status, out, errors = self.eumel("line", PROVES="1")
        self.assertEqual((status, out), (1, ""))
        self.assertIn("it is not proved", errors)

    def test_try(self):
        status, out, errors = self.eumel("--try", "line", self.path("file", b"put (1)\n"))
        self.assertEqual((status, out), (0, "tried: line\nput (1)\n"))
        self.assertIn("nothing of this run is proved", errors)
        self.assertEqual(self.eumel("--try", "play", given=b"1^\n")[1], "tried: play\n1^\n")
        status, _, errors = self.eumel("--try", "desk")
        self.assertEqual(status, 1)
        self.assertIn("./eumel desk", errors)

    def test_try_at_a_terminal(self):
        for command in ("line", "play"):
            own, other = pty.openpty()
            started = self.start([self.path("eumel"), "--try", command], stdin=other)
            os.close(other)
            status, errors = started.status(20), started.errors()
            os.close(own)
            self.assertEqual(status, 1)
            self.assertIn(b"takes nothing that is typed", errors)

    def test_desk(self):
        status, out, errors = self.eumel("desk", "--help")
        self.assertEqual((status, errors), (0, ""))
        self.assertIn("--patience", out)
        shutil.copy(FAKE, self.path("crates/eumel/out/eumel"))
        self.assertEqual(self.eumel("desk", given=b'begin ("a")\n'), (0, "1:gib kommando :\n! fixpoint\n", ""))
        self.assertEqual(self.eumel("desk", "--nothing")[0], 2)

    @needs_program
    def test_the_real_program(self):
        shutil.copy(PROGRAM, self.path("crates/eumel/out/eumel"))
        self.assertEqual(self.eumel("line", given=b"put (1 + 2 * 3)"), (0, "7 \n", ""))
        file = self.path("file", b"INT VAR i;\n\nFOR i UPTO 3 REP\n    put (j)\nPER\n")
        self.assertEqual(self.eumel("line", file), (0, "FEHLER : unbekannt (Zeile 4, Stelle 10)\n", ""))
        shown = (0, "1:gib supervisor kommando :\n! fixpoint\n", "")
        self.assertEqual(self.eumel("play", self.path("session", b"1^\n.\n")), shown)
