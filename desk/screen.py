"""The window: four terminals or the one in front, the line that is typed, and two lines of state."""
import contextlib, curses, itertools, os, re, time, unicodedata

from terminals import Session

ALT = "\x1b"
KEYS = {curses.KEY_F5: "/sv", "\x07": "/sv", "\x03": "/halt", curses.KEY_F9: "/fix", "\x06": "/fix",
        curses.KEY_F10: "/end", "\x11": "/end",
        **{key: "/%d" % it for it in (1, 2, 3, 4) for key in (curses.KEY_F0 + it, ALT + str(it))}}
SCROLLS, STEPS = {curses.KEY_PPAGE: 8, curses.KEY_NPAGE: -8}, {curses.KEY_UP: -1, curses.KEY_DOWN: 1}
HINT = "F1-F4 terminal  F5 SV  F6 one/four  F9 fixpoint  F10 end  PgUp/PgDn  ^C halt  /help"
SMALLEST, FOUR = (8, 30), (15, 60)  # lines and columns: of a window, and of one with four terminals
REDRAWN, MOST_KEYS, HISTORY = 0.05, 500, 200

class Screen(Session):
    def loop(self, window):
        curses.raw()
        window.nodelay(True)
        self.window, self.four, drawn = window, True, 0.0
        while self.goes_on():
            ready, pressed = self.link.step(0.02, [0]), []
            with contextlib.suppress(curses.error):  # there are no more keys
                while len(pressed) < MOST_KEYS:
                    pressed.append(window.get_wch())
            for key, last in zip(pressed, ["", *pressed]):
                if key != ALT:
                    self.key(ALT + key if last == ALT and isinstance(key, str) else key)
            if 0 in ready and not pressed and not os.isatty(0):
                break
            if pressed or time.monotonic() - drawn >= (REDRAWN if self.link.alive > drawn else 1):
                self.draw()
                drawn = time.monotonic()

    def key(self, key):
        front, before, behind = self.front, self.front.before, self.front.behind
        edits = {curses.KEY_LEFT: (before[:-1], before[-1:] + behind), curses.KEY_HOME: ("", before + behind),
                 curses.KEY_RIGHT: (before + behind[:1], behind[1:]), curses.KEY_END: (before + behind, ""),
                 **dict.fromkeys((curses.KEY_BACKSPACE, "\x7f", "\b"), (before[:-1], behind)),
                 curses.KEY_DC: (before, behind[1:]), "\x15": ("", "")}
        if key in KEYS:
            self.enter(KEYS[key].encode())
        elif key in (curses.KEY_F6, "\x0f"):
            self.four = not self.four
        elif key in SCROLLS:
            front.scroll(SCROLLS[key])
        elif key in edits:
            front.before, front.behind = edits[key]
        elif key in STEPS:
            front.past = max(0, min(len(front.history), front.past + STEPS[key]))
            front.before, front.behind = [*front.history, ""][front.past], ""
        elif key not in ("\n", "\r", curses.KEY_ENTER):
            front.before += key if isinstance(key, str) and len(key) == 1 and key >= " " else ""
        elif self.enter((before + behind).encode("utf-8", "surrogateescape")):
            typed = before + behind
            front.history = [it for it in front.history[-HISTORY:] if it != typed] + [typed] * (typed != "")
            front.before, front.behind, front.past, front.back = "", "", len(front.history), 0

    def draw(self):
        high, wide = self.window.getmaxyx()
        self.window.erase()
        if high < SMALLEST[0] or wide < SMALLEST[1]:
            self.put(0, 0, "too small: %d lines of %d, please" % SMALLEST, wide)
        else:
            shown, rows, columns = [self.front], [(0, high - 3)], [(0, wide)]  # where each is, how far
            if self.four and high >= FOUR[0] and wide >= FOUR[1]:
                up, left, shown = (high - 3) // 2, wide // 2, self.terminals
                rows, columns = [(0, up), (up, high - 3 - up)], [(0, left - 1), (left, wide - left)]
            for terminal, (down, across) in zip(shown, itertools.product(rows, columns)):
                self.draw_pane(terminal, *down, *across)
            head = "%d> " % self.front.number
            left = max(0, len(head + self.front.before) + 1 - wide)
            self.put(high - 3, 0, head + (self.front.before + self.front.behind)[left:], wide, curses.A_BOLD)
            self.put(high - 2, 0, self.status(), wide, curses.A_REVERSE)
            self.put(high - 1, 0, (self.notes or [HINT])[-1], wide - 1, curses.A_DIM)
            self.window.move(high - 3, len(head + self.front.before) - left)
        self.window.refresh()

    def draw_pane(self, terminal, y, high, x, wide):
        style, rule, rows = (curses.A_BOLD, "=", []) if terminal is self.front else (curses.A_DIM, "-", [])
        back = "(%d lines back) " % terminal.back if terminal.back else ""
        title = "[%d] %s %s" % (terminal.number, self.at(terminal), back)
        for line in itertools.islice(reversed(terminal.lines), terminal.back, terminal.back + high):
            text = line.decode("utf-8", "replace")
            rows[:0] = [text[at : at + wide] for at in range(0, len(text) or 1, wide)]
        for number, row in enumerate([title.ljust(wide, rule), *rows[1 - high :]]):
            self.put(y + number, x, row, wide, 0 if number else style)

    def put(self, y, x, text, wide, style=0):
        """Draws text, one column a character: a question mark where it needs another, or can't be drawn."""
        is_wide = lambda char: unicodedata.combining(char) or unicodedata.east_asian_width(char) in "WF"
        columns = ("?" if is_wide(char) or not char.isprintable() else char for char in text[:wide])
        with contextlib.suppress(curses.error):  # the last place of a window can't be written
            self.window.addstr(y, x, "".join(columns).ljust(wide), style)

    def at(self, terminal):
        """The task at a terminal, and what it does, as was told last."""
        name = b"".join(re.findall(rb"^ *(.*) Kanal %d$" % terminal.number, b"\n".join(self.tasks), re.M))
        name = name.decode("utf-8", "replace") + "?" * (not self.free)
        return "SV" if terminal.free else name or "SV"

    def status(self):
        now, link = time.monotonic(), self.link
        ago = "fixpoint %d:%02d ago" % divmod(int(now - self.fixed), 60)
        kept = "nothing is kept" if not link.keeps else ago if self.changed else "all is kept"
        does = "  ends" if self.ending else "  busy" if link.current and now - link.start > 0.3 else ""
        tasks = "  ".join("%d %s" % (terminal.number, self.at(terminal)) for terminal in self.terminals)
        return " %s | %d tasks | %s%s" % (tasks, len(self.tasks), kept, does)
