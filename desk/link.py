"""The link to the program: it types session lines into it, one at a time, and takes what it shows. Two facts
tell when a line was served (docs/sessions.md, "The desk"): the program takes no byte while a whole line is
ahead, and puts what a line shows before it takes more. So behind each line, once it was taken, goes an empty
one, which does nothing. When that is taken too, the line was served, and all that it shows is in the pipe."""
import collections, contextlib, fcntl, math, os, select, signal, subprocess, termios, time

SET_PIPE_SIZE, ONE_PAGE, CHUNK = 1031, 4096, 1 << 18  # fcntl.F_SETPIPE_SZ, which Python names from 3.10 on

class Line:
    """A session line. begun() is called when it is sent, served(line) when it was served. It has the pieces
    of its channel, which are not shown where it is hidden. A question is not recorded: it changes nothing."""

    def __init__(self, data, served=lambda line: None, begun=lambda: None, hidden=False, asks=False):
        self.data, self.served, self.begun, self.hidden, self.asks = data, served, begun, hidden, asks
        self.channel, self.pieces = data[:1], []

class Link:
    """The program behind two pipes. What it shows goes to shown(piece), but for what a line hides. It is
    ended by force where it gives no sign of life for longer than patience."""

    def __init__(self, words, record=None, errors=None, keeps=False, free=(1, 2, 3, 4)):
        self.program = subprocess.Popen(words, stdin=subprocess.PIPE, stdout=subprocess.PIPE, stderr=errors,
                                        bufsize=0, start_new_session=True)
        self.to, self.back = self.program.stdin, self.program.stdout
        with contextlib.suppress(OSError):  # full with one line, it wakes us when the program has taken that
            fcntl.fcntl(self.to, SET_PIPE_SIZE, ONE_PAGE)
        os.set_blocking(self.back.fileno(), False)
        self.keeps, self.free = keeps, free  # whether fixpoints are kept; channels without a task at first
        self.record, self.shown, self.say = record, lambda piece: None, lambda text: None
        self.waiting, self.current, self.held = collections.deque(), None, b""  # the current is the first
        self.gone, self.alive, self.patience = False, time.monotonic(), math.inf

    def step(self, seconds, reads=()):
        """Waits for the program, a read, or so long, and goes on with the lines. Returns what can be read."""
        if self.waiting and not self.current:
            self.rest = self.serve()
            next(self.rest)
        ready = select.select([self.back, *reads], [self.to] if self.current else [], [], seconds)[0]
        if self.back in ready or not ready:
            self.drain()
        # asked for anew in each step, so that a wake-up that does not come, or comes early, does no harm
        if self.current and not any(fcntl.ioctl(self.to, termios.FIONREAD, bytes(4))):
            self.alive = time.monotonic()
            next(self.rest, None)
        return ready

    def serve(self):
        """Sends a line, and an empty one. It goes on behind each yield when the program has taken that."""
        line = self.current = self.waiting[0]
        self.start, self.bytes = time.monotonic(), 0
        line.begun()
        try:
            if self.record and not line.asks:
                self.record.write(line.data + b"\n")
        except OSError as fault:
            self.record = None
            self.say("the record ends here: %s" % fault)
        for data in (line.data + b"\n", b"\n"):
            with contextlib.suppress(BrokenPipeError):  # drain finds that the program has ended
                self.to.write(data)
            yield
        self.drain()  # one read takes all that stands in the pipe
        if not self.gone:
            self.current = None
            self.waiting.popleft()
            line.served(line)

    def drain(self):
        """Takes what the program has shown, or finds that it shows nothing more."""
        if time.monotonic() - self.alive > self.patience:
            self.kill()
        is_over = self.program.poll() is not None  # first: then all is there, though another keeps it open
        data = self.back.read(CHUNK)  # None where nothing is there yet
        if data:
            self.alive, self.bytes = time.monotonic(), self.bytes + len(data)
            *pieces, self.held = (self.held + data).split(b"\n")
            for piece in pieces:
                is_its = self.current and piece[:1] == self.current.channel
                if is_its:
                    self.current.pieces.append(piece[2:])
                if not (is_its and self.current.hidden):
                    self.shown(piece)
        elif is_over or data is not None:
            if not is_over:  # its output is closed, so no line is served any more
                self.kill()
            if self.held:
                self.shown(self.held)
            self.held, self.gone, self.current = b"", True, None
            self.waiting.clear()

    def kill(self):
        with contextlib.suppress(OSError):
            os.killpg(self.program.pid, signal.SIGKILL)
