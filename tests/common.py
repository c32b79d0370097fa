"""What the tests share. No test may hang: whatever is started has a limit of its own and is killed with its whole
group; what it writes goes to files, since a pipe can be kept open by another; tests for which a busy machine leaves no
time are skipped; and a watchdog ends the run."""
import contextlib, faulthandler, os, shutil, signal, subprocess, sys, tempfile, time, unittest

sys.dont_write_bytecode = True
TOP = os.path.dirname(os.path.dirname(os.path.abspath(__file__)))
DESK = os.path.join(TOP, "desk")
FAKE = os.path.join(TOP, "tests", "fake.py")
PROGRAM = os.environ.get("EUMEL_PROGRAM", os.path.join(TOP, "crates/eumel/out/eumel"))
HAS_PROGRAM = os.access(PROGRAM, os.X_OK)
sys.path.insert(0, DESK)
LIMIT, LATEST, BEGUN = 280, 200, time.monotonic()
faulthandler.dump_traceback_later(LIMIT, exit=True)

needs_program = unittest.skipUnless(HAS_PROGRAM, "there is no program: %s" % PROGRAM)
needs_tmux = unittest.skipUnless(shutil.which("tmux"), "tmux is not there")
PROGRAMS = [FAKE] + [PROGRAM] * HAS_PROGRAM


class Started:
    """A command in a group of its own, with what it writes in files."""

    def __init__(self, words, folder, stdin=subprocess.PIPE, **more):
        self.files = [tempfile.NamedTemporaryFile(dir=folder) for _ in range(2)]
        self.process = subprocess.Popen(
            words, stdin=stdin, stdout=self.files[0], stderr=self.files[1], start_new_session=True, **more)

    def out(self):
        return self.text(0)

    def errors(self):
        return self.text(1)

    def text(self, number):
        with open(self.files[number].name, "rb") as file:
            return file.read()

    def type(self, data):
        self.process.stdin.write(data)
        self.process.stdin.flush()

    def status(self, seconds):
        """Its status. It fails if the command takes longer."""
        if self.process.stdin:
            with contextlib.suppress(OSError):
                self.process.stdin.close()
        try:
            return self.process.wait(seconds)
        except subprocess.TimeoutExpired:
            self.kill()
            raise AssertionError("it had not ended after %s seconds: %r" % (seconds, self.errors()[-500:]))

    def kill(self):
        with contextlib.suppress(OSError):
            os.killpg(self.process.pid, signal.SIGKILL)
        for stream in [self.process.stdin] * (self.process.stdin is not None) + self.files:
            with contextlib.suppress(OSError):
                stream.close()
        with contextlib.suppress(subprocess.TimeoutExpired):
            self.process.wait(5)


class Test(unittest.TestCase):
    """A test with a folder of its own. What it has started is ended with it."""

    def setUp(self):
        if time.monotonic() - BEGUN > LATEST:
            self.skipTest("%d seconds are over: this machine is too busy" % LATEST)
        self.folder = tempfile.mkdtemp(prefix="eumel-test-")
        self.addCleanup(shutil.rmtree, self.folder, True)

    def path(self, name, text=None):
        path = os.path.join(self.folder, name)
        if text is not None:
            with open(path, "wb") as file:
                file.write(text)
        return path

    def read(self, name):
        with open(self.path(name), "rb") as file:
            return file.read()

    def start(self, words, **more):
        started = Started(words, self.folder, **more)
        self.addCleanup(started.kill)
        return started

    def run_with(self, words, given=b"", seconds=60, **more):
        """Runs a command with this input. Returns its status, what it wrote, and what it said."""
        with open(self.path("input", given), "rb") as file:
            started = self.start(words, stdin=file, **more)
        return started.status(seconds), started.out(), started.errors()

    def desk(self, program, *words, **more):
        return self.start([sys.executable, "-B", DESK, "--plain", "--program", program, *words], **more)

    def plays(self, session, program=PROGRAM):
        """What `play` shows of a session."""
        status, out, errors = self.run_with([program, "play"], session)
        self.assertEqual((status, errors), (0, b""))
        return out

    def until(self, is_so, what, seconds=40):
        """Waits until something is so."""
        end = time.monotonic() + seconds
        while not is_so():
            self.assertLess(time.monotonic(), end, what() if callable(what) else what)
            time.sleep(0.02)
