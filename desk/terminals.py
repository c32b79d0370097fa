"""The four terminals: what they show, what is typed there and goes to the program, and how time passes."""
import collections, functools, os, pathlib, re, shlex, time

from link import Line

TOP = pathlib.Path(__file__).resolve().parent.parent
KEPT, WIDEST = 2000, 4000  # lines of a terminal, and bytes of a line
PROMPT, SUPERVISOR = b"gib kommando :", b"gib supervisor kommando :"
LONGEST, MOST_LINES, LONGEST_NAME, MOST_STEPS, MOST_TURNS, FLOOD = 250, 400, 60, 1000, 256, 1 << 18
# seconds: between lines of turns; what such a line should take; without a sign of life once the end is due
TICK, SHORT, LONG, PATIENCE = 0.05, 0.01, 0.03, 30.0
UNKNOWN = "the desk knows no /%s with %d words behind it; /help shows all, and // types what begins with /"
# tells the lines of a text, with a mark before each: no prompt and no message begins with it
TELLS = (b'>BOUND STRUCT (INT n, ROW 400 TEXT z) VAR q :: old (%s); INT VAR i; '
         b'FOR i UPTO q.n REP putline ("|" + q.z [i]) PER')

class Terminal:
    """What a channel has shown. free: there is surely no task."""

    def __init__(self, number, free, messages):
        self.number, self.free, self.messages = number, free, messages
        self.lines, self.back = collections.deque([b""], KEPT), 0  # the last is open; how far it is scrolled
        self.rows, self.texts = [], {}  # of what is compiled, while it is, and of loaded texts
        self.before, self.behind = "", ""  # the cursor, in the line that is typed
        self.history, self.past = [], 0  # the lines that were typed before, and which of them is looked at

    def add(self, text, closed=True, fresh=True):
        """Puts text behind what is open, or on a fresh line, and leaves that open or closes it."""
        if fresh and self.lines[-1]:
            self.lines.append(b"")
        self.lines[-1] = (self.lines[-1] + text)[-WIDEST:]
        if closed:
            self.lines.append(b"")
        self.scroll(closed and self.back > 0)

    def scroll(self, lines):
        self.back = max(0, min(len(self.lines) - 1, self.back + lines))

    def type(self, text):
        """Shows a line that is typed, and remembers what it may have compiled."""
        self.add(text, fresh=False)
        word, name = re.fullmatch(rb' *(enter|run|insert)? *(?:\( *(".*") *\) *)?.*', text, re.S).groups()
        if word == b"enter":
            self.texts.pop(name, None)
        self.rows = self.texts.get(name, []) if word and name else [text]

    def served(self, line):
        """Behind a call of the supervisor there is no task, nor behind a command that surely it answers:
        `continue` can couple a task that writes the supervisor's prompt, but nothing else in that moment."""
        if line.data[1:] == b"^":
            self.free, self.texts = True, {}
        is_told = line.pieces[-1:] == [SUPERVISOR] and (len(line.pieces) > 1 or not line.data[2:].strip(b" "))
        self.rows, self.free = [], self.free and is_told

    def show(self, text, closed):
        """Shows a piece. A prompt and a message begin a line; an open piece is continued."""
        if closed and text in (PROMPT, SUPERVISOR):
            return self.add(text + b" ", closed=False)
        is_message = closed and (text.startswith(b"FEHLER : ") or text in self.messages)
        self.add(text, closed, is_message)
        name, line, place = re.fullmatch(rb"(.*?)(?: \(Zeile (\d+), Stelle (\d+)\))?", text, re.S).groups()
        if is_message and name in self.messages:
            rows = self.rows[int(line) - 1 : int(line)] if line else []
            rest = rows and rows[0][int(place) - 1 :][:40]
            at = b'bei "' + rest + b'": ' if rest else b"am Ende: " if rows else b""
            self.add(b"  -> " + at + self.messages[name])

def read_messages(path):
    """What each message means, by docs/messages.md: the German sentence below its heading, or in its row."""
    text = pathlib.Path(path).read_text("utf-8", "replace") if os.access(path, os.R_OK) else ""
    found = re.findall(r"^\| `([^`]*)` \|.*\| ([^|`]*) \|$", text, re.M)
    found += re.findall(r"\n### `(.*?)(?: \(Z[^`]*)?`(?:(?!\n##).)*?\*Auf\s+Deutsch:\s+([^*]*)\*", text, re.S)
    return {name.encode(): " ".join(means.split()).encode() for name, means in found}

class Session:
    """Four terminals, time, fixpoints, and the commands of the desk itself."""

    def __init__(self, link, every):
        self.link, self.every, self.notes = link, every, []
        link.shown, link.say = self.shown, self.notes.append
        messages, help_text = read_messages(TOP / "docs/messages.md"), (TOP / "desk/help.txt").read_bytes()
        self.terminals = [Terminal(number, number in link.free, messages) for number in (1, 2, 3, 4)]
        self.front, self.changed, self.fixed = self.terminals[0], False, time.monotonic()
        self.pace, self.ticked, self.ending, self.free = 1, 0.0, 0.0, 0  # free: a channel without a task
        self.tasks, self.rests = [], None  # by `task info`, and whether turns would change nothing, if known
        # what is done at a word, and how many follow it
        self.known = {("sv", 0): lambda: self.send(b"^"), ("fix", 0): self.fix, ("end", 0): self.end,
                      ("halt", 0): lambda: self.send(b"^") or self.type(b"halt"), ("load", 2): self.load,
                      ("help", 0): lambda: self.tell(help_text.splitlines()), ("save", 2): self.save,
                      ("tasks", 0): lambda: self.tell(self.tasks)}
        for terminal in self.terminals:
            terminal.show(SUPERVISOR if terminal.free else b"(as at the last fixpoint)", True)
            self.known[str(terminal.number), 0] = functools.partial(setattr, self, "front", terminal)

    def shown(self, piece):
        if piece[:1] in (b"1", b"2", b"3", b"4"):
            self.terminals[int(piece[:1]) - 1].show(piece[2:], piece[1:2] == b":")
        elif piece != b"! fixpoint":
            self.notes.append(piece.decode("utf-8", "replace"))

    def tell(self, rows):
        """Shows rows above the line that is open."""
        self.front.lines.extend([*rows, self.front.lines.pop()])

    def enter(self, text):
        """Takes a line for the desk or the terminal in front. Answers whether it did, and says why not."""
        self.notes.clear()
        try:
            if text[:1] != b"/" or text[:2] == b"//":
                self.type(text[text[:2] == b"//" :])
            else:
                word, *words = shlex.split(text[1:].decode("utf-8", "replace")) or [""]
                if (word, len(words)) not in self.known:
                    raise ValueError(UNKNOWN % (word, len(words)))
                self.known[word, len(words)](*words)
            return True
        except (OSError, ValueError) as why:
            self.notes.append(str(why))

    def type(self, text):
        """Types a line. One of no form would end the session, so it is refused here."""
        if len(text) > LONGEST or b"\n" in text:
            raise ValueError("a line has at most %d bytes, and this one has %d" % (LONGEST, len(text)))
        self.send(b">" + text, begun=functools.partial(self.front.type, text))

    def send(self, text, then=None, **how):
        """Sends a line for the terminal in front, by which something may change."""
        self.changed, self.rests, self.pace = True, None, 1
        self.link.waiting.append(Line(b"%d%s" % (self.front.number, text), then or self.front.served, **how))

    def fix(self):
        self.changed, self.fixed = False, time.monotonic()
        self.link.waiting.append(Line(b"!"))

    def end(self):
        """Asks for the end, and later ends the program by force. (A terminal that goes away asks twice.)"""
        now = time.monotonic()
        if not self.ending:
            self.ending, self.link.alive, self.link.patience = now, now, PATIENCE
            self.link.waiting.append(Line(b"."))
        elif now - self.ending > 1:
            self.link.kill()

    def goes_on(self):
        """Sends what is due, one line at a time, so that the program never lags: a fixpoint, a question, or
        turns. The question is asked where surely no task is: the supervisor answers, and nothing changes."""
        now, self.free = time.monotonic(), max(it.number * it.free for it in self.terminals)
        is_idle = not self.ending and not self.link.waiting
        if is_idle and self.changed and now - self.fixed >= self.every:
            self.fix()
        elif is_idle and self.rests is None and self.free:
            self.link.waiting.append(Line(b"%d>task info" % self.free, self.told, hidden=True, asks=True))
        elif is_idle and not self.rests and now - self.ticked >= TICK:
            self.ticked, self.changed, self.rests = now, True, None
            self.link.waiting.append(Line(b"*%d" % self.pace, self.paced))
        return not self.link.gone

    def told(self, line):
        """Takes the answer to the question. A line that waits may change it."""
        self.tasks = line.pieces[:-1]
        is_ready = re.search(rb" rechnet(?: Kanal .)?$", b"\n".join(self.tasks), re.M)
        self.rests = None if self.link.waiting else not is_ready

    def paced(self, _):
        """How many turns the next line has, so that it takes some hundredths of a second and is no flood."""
        seconds = time.monotonic() - self.link.start
        factor = 0.5 if seconds > LONG or self.link.bytes > FLOOD else 2 if seconds < SHORT else 1
        self.pace = max(1, min(MOST_TURNS, int(factor * self.pace)))

    def title(self, name):
        """A text's name as ELAN writes it, where the task in front, as it seems, takes a line at once."""
        data = name.encode("utf-8", "surrogateescape")
        is_busy = any(line.channel == b"%d" % self.front.number for line in list(self.link.waiting))
        if is_busy or self.front.lines[-1] != PROMPT + b" ":
            raise ValueError("the task in front is not at its prompt")
        if not 1 <= len(data) <= LONGEST_NAME or b"\n" in data:
            raise ValueError("the name of a text has 1 to %d bytes" % LONGEST_NAME)
        return b'"%s"' % data.replace(b'"', b'""')

    def load(self, path, name):
        """Types the lines of a file into a text, as one does behind `enter`."""
        title, front = self.title(name), self.front
        data = pathlib.Path(os.path.expanduser(path)).read_bytes().rstrip(b"\r\n")
        lines = [it.rstrip(b"\r").expandtabs(4) for it in re.sub(rb"^\xef\xbb\xbf", b"", data).split(b"\n")]
        for count, line in enumerate(lines, 1):
            if count > MOST_LINES or len(line) > LONGEST or line == b".":
                raise ValueError(f"{path}: line {count} is past line 400, over 250 bytes, or a point alone")

        def entered(line):
            if line.pieces:
                return self.notes.append("%s was not entered" % name)
            front.texts[title] = lines
            self.notes.append("%d lines of %s go into the text %s" % (len(lines), path, name))
            self.link.waiting.extendleft(Line(b"%d>%s" % (front.number, it)) for it in [b".", *lines[::-1]])

        self.send(b">enter (%s)" % title, entered)

    def save(self, name, path):
        """Writes a text into a file. A program of the task tells its lines, which are not shown."""
        turns = [b"*8"] * MOST_STEPS

        def told(line):
            *rows, last = line.pieces or [b""]
            if last != PROMPT and turns:
                line.data = turns.pop()
                return self.link.waiting.appendleft(line)
            wrong = [row.decode("utf-8", "replace") for row in rows if not row.startswith(b"|")]
            try:
                if wrong or last != PROMPT:
                    raise ValueError((wrong + ["the task takes too long"])[0])
                pathlib.Path(os.path.expanduser(path)).write_bytes(b"".join(row[1:] + b"\n" for row in rows))
                self.notes.append("%d lines of %s are in the file %s" % (len(rows), name, path))
            except (OSError, ValueError) as why:
                self.notes.append("%s was not saved: %s" % (name, why))

        self.send(TELLS % self.title(name), told, hidden=True)
