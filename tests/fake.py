#!/usr/bin/env python3
"""A program that answers at once, as much of `play` as the desk's tests need: it reads and writes as the real one does.
FAKE has words for what is wrong with it: deaf (it takes nothing), slow, dies (at the third line), clings (another
process keeps its output open), closes (it closes that and goes on), bad (it names a line of no form)."""
import os, re, signal, subprocess, sys, time

signal.alarm(100)  # whatever happens, it ends
FAULTS = os.environ.get("FAKE", "").split()


class System:
    def __init__(self):
        self.names, self.couplings, self.loops = ["UR", "PUBLIC"], {}, set()

    def line(self, text):
        """What a session line shows, and whether it ends the session."""
        if text in (b"!", b"."):
            return b"! fixpoint\n", text == b"."
        channel, sign, rest = text[:1].decode(), text[1:2], text[2:].decode("latin-1")
        if text[:1] == b"*":
            looping = [it for it in sorted(self.couplings) if self.couplings[it] in self.loops]
            return b"".join(b"%s,x \n" % it.encode() for it in looping), False
        if sign == b"^":
            self.couplings.pop(channel, None)
            rows = ["gib supervisor kommando :"]
        else:
            rows = (self.task if channel in self.couplings else self.supervisor)(channel, rest) if text else []
        return b"".join(b"%s:%s\n" % (channel.encode(), row.encode("latin-1")) for row in rows), False

    def supervisor(self, channel, text):
        named = re.match(r'(?:begin|continue) \("(\w+)"', text)
        if named:
            self.names += [named[1]] * (named[1] not in self.names)
            self.couplings[channel] = named[1]
            return ["gib kommando :"]
        where = {name: " Kanal " + it for it, name in self.couplings.items()}
        does = lambda name: " rechnet" if name in self.loops else " frei"
        rows = [name + does(name) + where.get(name, "") for name in self.names] if text == "task info" else []
        return rows + ["gib supervisor kommando :"]

    def task(self, channel, text):
        if text.startswith("REP"):
            self.loops.add(self.couplings[channel])
            return []
        return [text, "gib kommando :"] if text else ["gib kommando :"]


def serve(system, ahead=b""):
    for count in range(1, 1 << 31):
        while b"\n" not in ahead:
            more = os.read(0, 512 - len(ahead))
            if not more:
                return 0
            ahead += more
        line, ahead = ahead.split(b"\n", 1)
        time.sleep(0.02 * ("slow" in FAULTS))
        if count == 3 and "dies" in FAULTS:
            return 2
        if count == 3 and "bad" in FAULTS:
            os.write(1, b"! Zeile 3\n")
            return 7
        shown, ends = system.line(line)
        while shown:
            shown = shown[os.write(1, shown) :]
        if ends:
            return 0


if "clings" in FAULTS:
    subprocess.Popen(["sleep", "30"], stdin=subprocess.DEVNULL, stderr=subprocess.DEVNULL)
if "closes" in FAULTS:
    os.close(1)
if "deaf" in FAULTS or "closes" in FAULTS:
    time.sleep(90)
sys.exit(serve(System()))
