"""Processes that are killed at a moment drawn from the time that one takes."""

import random
import signal
import threading
import time


class Killer:
    """Kills processes that take about as long as one another, and counts those that hadn't ended by then."""

    def __init__(self, seed, usual):
        self.draw = random.Random(seed)
        # (the least that one took so far, in seconds, so that a slow first one doesn't let the others end)
        self.usual = usual
        self.killed = 0

    def talk(self, process, text):
        """Gives a process its input, kills it at some moment, and returns what it wrote until then."""
        timer = threading.Timer(self.draw.random() * self.usual * 1.1, process.send_signal, [signal.SIGKILL])
        began = time.monotonic()
        timer.start()
        out, _ = process.communicate(text)
        took = time.monotonic() - began
        timer.cancel()
        timer.join()
        if process.returncode == 0:
            self.usual = min(self.usual, took)
        elif process.returncode == -signal.SIGKILL:
            self.killed += 1
        else:
            raise AssertionError(f"a process ended with the status {process.returncode}")
        return out
