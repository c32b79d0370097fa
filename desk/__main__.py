"""Four terminals for EUMEL in one window. It types for who sits in front, lets time pass, and keeps apart
what they show. With --plain or without a terminal it types lines of its input and puts out what is shown."""
import argparse, contextlib, curses, os, select, signal, subprocess, sys, time

from link import Link
from screen import Screen
from terminals import TOP, Session

DEAF, LONGEST_INPUT = 10.0, 1 << 16  # seconds that the end waits for whoever reads; bytes

def say(text):
    with contextlib.suppress(OSError):  # the terminal may be gone
        print("desk: %s" % text, file=sys.stderr, flush=True)

class Plain(Session):
    """Types each line of standard input, and before the next lets time pass until no task is ready or a
    patience is over. What the program shows is put out unchanged."""

    def tell(self, rows):
        self.notes.append(b"\n".join(rows).decode("utf-8", "replace"))

    def shown(self, piece):
        """Waits for whoever reads what is shown, but not for ever once the end was asked for."""
        super().shown(piece)
        rest, ready = b"" if self.is_deaf else piece + b"\n", [1]
        with contextlib.suppress(OSError):
            while rest and (ready or not self.ending):
                ready = select.select([], [1], [], DEAF)[1]
                if ready:
                    rest = rest[os.write(1, rest[:4096]) :]
        self.is_deaf = self.is_deaf or rest != b""

    def loop(self, patience):
        self.is_deaf, held, more, until = False, b"", True, 0.0
        while self.goes_on():
            is_due = not self.ending and (self.rests and not self.link.waiting or time.monotonic() >= until)
            if is_due and b"\n" in held:
                line, held = held.split(b"\n", 1)
                until = time.monotonic() + patience
                self.enter(line.rstrip(b"\r"))
            elif not self.ending and self.is_deaf or is_due and not more:
                self.end()
            if 0 in self.link.step(0.05, [0] if more and b"\n" not in held else []):
                got = os.read(0, LONGEST_INPUT)
                more, held = bool(got), held[:LONGEST_INPUT] + (got or b"\n" * (held != b""))
            while self.notes:
                say(self.notes.pop(0))

def main():
    parser = argparse.ArgumentParser("./eumel desk", formatter_class=argparse.RawDescriptionHelpFormatter,
                                     description=__doc__, epilog=(TOP / "desk/help.txt").read_text("utf-8"))
    add = parser.add_argument
    add("--plain", action="store_true", help="no screen")
    add("--patience", type=float, default=5, metavar="SECONDS", help="for a line, with --plain (5)")
    add("--every", type=float, default=300, metavar="SECONDS", help="between fixpoints (300)")
    add("--record", metavar="FILE", help="a new file for the session's lines, which play replays")
    add("--program", default=TOP / "crates/eumel/out/eumel", help="in place of the built one")
    options = parser.parse_args()
    plain = options.plain or not (os.isatty(0) and os.isatty(1))
    try:
        record = open(options.record, "xb", 0) if options.record else None
        link = Link([options.program, "play"], record, None if plain else subprocess.DEVNULL)
    except OSError as fault:
        return say(fault) or 1
    desk = (Plain if plain else Screen)(link, options.every)
    for number in (signal.SIGTERM, signal.SIGHUP, signal.SIGINT):
        signal.signal(number, lambda *_: desk.end())
    os.environ.setdefault("ESCDELAY", "25")
    try:
        desk.loop(options.patience) if plain else curses.wrapper(desk.loop)
    except curses.error as fault:  # there is no such terminal, or it is gone
        say("%s; --plain needs no screen" % fault)
    if not desk.ending:
        desk.end()
    while desk.goes_on():
        link.step(0.05)
    status = link.program.wait()
    if status:
        say("the program ended with status %d; docs/messages.md says what that means" % status)
    return status if status >= 0 else 128 - status

sys.exit(main())
