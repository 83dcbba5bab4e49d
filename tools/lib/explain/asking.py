"""Asks the proved program about a text."""
import subprocess
import time


class OutOfTime(Exception):
    """The questions of one explanation took longer than a person waits."""


class Program:
    def __init__(self, path, seconds=4.0):
        self.path, self.seconds = path, seconds
        self.end = time.monotonic() + seconds

    def restart_clock(self):
        self.end = time.monotonic() + self.seconds

    def refusal(self, data):
        """The line, from 0, and the cause for which `check` refuses a text, or nothing."""
        if time.monotonic() > self.end:
            raise OutOfTime
        done = subprocess.run([self.path, "check"], input=data, stdout=subprocess.PIPE, stderr=subprocess.DEVNULL)
        answer = done.stdout.decode("utf-8", "replace").split()
        if done.returncode != 5 or len(answer) != 3:
            return None
        return int(answer[1]) - 1, answer[2]


class Told:
    """The one refusal that a trial has told. What else would be asked of the program would cost a trial each."""

    def __init__(self, output):
        answer = output.decode("utf-8", "replace").split()[-3:]
        self.told = (int(answer[1]) - 1, answer[2]) if len(answer) == 3 and answer[0] == "refused" and answer[1].isdigit() else None

    def restart_clock(self):
        pass

    def refusal(self, _data):
        if self.told is None:
            raise OutOfTime
        told, self.told = self.told, None
        return told
