# SPDX-License-Identifier: MIT
"""Where messages go: into files, or through `ncp`, which gets each segment by itself, with the time before each of its lines."""
from __future__ import annotations

import os
import re
import subprocess
import sys
import threading
from array import array
from bisect import bisect_left
from datetime import datetime, timezone

from .counts import Stop, say
from .records import HEADER, REGULAR, kind_of, record

TOP = os.path.dirname(os.path.dirname(os.path.dirname(os.path.abspath(__file__))))
TAKES_PART = ("audit", "follow")
MOST_TIMES = 2**20
NO_TIME = b"-"


def find_program():
    """`$NCP`, that of this repository, or that on the path."""
    named = os.environ.get("NCP")
    beside = os.path.join(TOP, "ncp")
    return named or (beside if os.access(beside, os.X_OK) and os.path.isdir(os.path.join(TOP, "crates")) else "ncp")


class Clock:
    """Formats times for printing."""

    def __init__(self, how):
        self.how = how
        self.start = None  # in nanoseconds since 1970
        self.last = None

    def text(self, time):
        if self.how == "absolute":
            return self.date(time)
        before = self.last if self.how == "since-last" and self.last is not None else self.start
        self.last = time
        micros = (time - before) // 1000
        return f"{'-' if micros < 0 else ''}{abs(micros) // 10**6}.{abs(micros) % 10**6:06}"

    @staticmethod
    def date(time):
        seconds, rest = divmod(time, 10**9)
        try:
            whole = datetime.fromtimestamp(seconds, timezone.utc).strftime("%Y-%m-%dT%H:%M:%S")
        except (ValueError, OverflowError, OSError):
            return f"{seconds}.{rest // 1000:06}"
        return f"{whole}.{rest // 1000:06}Z"


class Times:
    """The arrival times of the last records, by number."""

    def __init__(self):
        self.numbers, self.times = array("Q"), array("q")

    def note(self, number, time):
        if len(self.numbers) == 2 * MOST_TIMES:
            del self.numbers[:MOST_TIMES], self.times[:MOST_TIMES]
        self.numbers.append(number)
        self.times.append(time)

    def of(self, number):
        place = bisect_left(self.numbers, number)
        return self.times[place] if place < len(self.numbers) and self.numbers[place] == number else None


class Judged:
    """A segment that `ncp` reads. Its lines are printed with their times by a thread."""

    # A line that begins with the number of a record, and that of a connection.
    OF_RECORD, OF_CONNECTION = re.compile(rb"(\d+) "), re.compile(rb"\d+ at=.* opened=(\d+) ")

    def __init__(self, words, heading, clock, out):
        self.follows, self.has_times = words[0] == "follow", words[0] != "check"
        self.heading, self.clock, self.out = heading, clock, out
        self.times, self.count = Times(), 0
        self.failure = None
        try:
            self.program = subprocess.Popen([find_program(), *words], stdin=subprocess.PIPE, stdout=subprocess.PIPE, start_new_session=True)
        except OSError as error:
            raise Stop(f"cannot run {find_program()}: {error.strerror}") from None
        self.reader = threading.Thread(target=self.read, daemon=True)
        self.reader.start()
        self.write(HEADER)

    def write(self, data):
        try:
            self.program.stdin.write(data)
        except BrokenPipeError:
            self.fail()

    def flush(self):
        try:
            self.program.stdin.flush()
        except BrokenPipeError:
            self.fail()

    def fail(self):
        """`ncp` has stopped reading."""
        self.reader.join()
        raise self.failure or Stop("ncp ended before its input did") from None

    def put(self, time, made, is_control):
        self.count += 1
        if self.has_times and (is_control or not self.follows):
            self.times.note(self.count, time)
        self.write(made)

    def read(self):
        try:
            time = None
            for line in self.program.stdout:
                if not line.startswith(b"  "):
                    found = (self.OF_CONNECTION if self.follows else self.OF_RECORD).match(line)
                    time = self.times.of(int(found[1])) if found else None
                self.print(line, time)
        except Exception as error:
            self.failure = error
            self.program.kill()

    def print(self, line, time):
        if self.heading:
            self.out.write(self.heading().encode())
            self.heading = None
        if self.has_times:
            line = (NO_TIME if time is None else self.clock.text(time).encode()) + b" " + line
        self.out.write(line)
        self.out.flush()

    def end(self):
        """The status of `ncp`, once all its lines are printed."""
        try:
            self.program.stdin.close()
        except BrokenPipeError:
            pass
        self.reader.join()
        if self.failure:
            raise self.failure
        return self.program.wait()

    def close(self):
        if self.program.poll() is None:
            self.program.kill()
        self.program.wait()


class Verdicts:
    """`ncp` over each segment."""

    def __init__(self, words, clock):
        self.words, self.clock = words, clock
        self.segment, self.judged, self.status = 0, None, 0

    def put(self, segment, reason, message):
        if segment != self.segment:
            self.begin(segment, reason, message.time)
        direction, host = message.flow.side
        words = message.words
        self.judged.put(message.time, record(direction, host, words), kind_of(words) == REGULAR and words[2:3] == b"\0")

    def begin(self, segment, reason, time):
        self.finish()
        words = self.words
        if segment > 1 and words[0] in TAKES_PART and "--part" not in words:
            words = [*words, "--part"]
        heading = (lambda: f"segment {segment} at {self.clock.text(time)}: {reason}\n") if segment > 1 else None
        self.segment, self.judged = segment, Judged(words, heading, self.clock, sys.stdout.buffer)

    def flush(self):
        if self.judged:
            self.judged.flush()

    def finish(self):
        if self.judged:
            judged, self.judged = self.judged, None
            try:
                self.status = max(self.status, judged.end())
            finally:
                judged.close()

    def close(self):
        if self.judged:
            self.judged.close()


class Files:
    """A message file for each segment: FILE, and for segment K the same with K before its ending."""

    status = 0

    def __init__(self, path, clock):
        self.path, self.clock = path, clock
        self.segment, self.file = 0, None

    def put(self, segment, reason, message):
        if segment != self.segment:
            self.begin(segment, reason, message.time)
        self.file.write(record(*message.flow.side, message.words))

    def begin(self, segment, reason, time):
        self.finish()
        path = self.path
        if segment > 1:
            front, ending = os.path.splitext(path)
            path = f"{front}.{segment}{ending}"
            say(f"segment {segment} at {self.clock.text(time)}: {reason}: {path}")
        try:
            self.segment, self.file = segment, open(path, "wb")
        except OSError as error:
            raise Stop(f"cannot write {path}: {error.strerror}") from None
        self.file.write(HEADER)

    def flush(self):
        if self.file:
            self.file.flush()

    def finish(self):
        if self.file:
            file, self.file = self.file, None
            file.close()

    close = finish
