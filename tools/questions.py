"""Questions to the command that can be ended, for who goes on while they are asked."""
import collections
import contextlib
import hashlib
import os
import shutil
import subprocess
import tempfile
import threading
import time

import shared

MOST_KEPT, LONGEST_KEPT = 400, 4 * 1024 * 1024


class Ended(Exception):
    """A question was ended before its answer: its time is over, or nobody waits for it any more."""


class Answers:
    """Where questions are asked: a folder for their files, and the last answers, which are kept."""

    def __init__(self):
        self.folder, self.kept, self.lock = None, collections.OrderedDict(), threading.Lock()
        self.count, self.is_closed = 0, False

    def close(self):
        """Removes the folder. What is asked from here on is ended."""
        with self.lock:
            self.is_closed = True
            if self.folder:
                shutil.rmtree(self.folder, ignore_errors=True)

    def file(self, data):
        """The path of a new file of these bytes, which is the asker's to remove."""
        with self.lock:
            if self.is_closed:
                raise Ended
            if not self.folder:
                self.folder = tempfile.mkdtemp(prefix="xduce-")
            self.count += 1
            path = f"{self.folder}/{self.count}"
            with open(path, "wb") as file:
                file.write(data)
        return path

    def known(self, key):
        with self.lock:
            if key in self.kept:
                self.kept.move_to_end(key)
            return self.kept.get(key)

    def keep(self, key, answer):
        if len(answer[1]) > LONGEST_KEPT:
            return
        with self.lock:
            self.kept[key] = answer
            if len(self.kept) > MOST_KEPT:
                self.kept.popitem(last=False)


class Task:
    """Questions that belong together and end together, by `end` or after so many seconds. Also a
    long way without questions may ask `go_on` whether it is still wanted."""

    def __init__(self, answers, seconds):
        self.answers, self.is_ended = answers, False
        self.running, self.lock = None, threading.Lock()
        self.begin(seconds)

    def begin(self, seconds):
        """Lets the time begin now."""
        self.until = time.monotonic() + seconds

    @property
    def is_late(self):
        return time.monotonic() >= self.until

    def end(self):
        with self.lock:
            self.is_ended = True
            if self.running:
                self.running.kill()

    def go_on(self):
        if self.is_ended or self.is_late:
            raise Ended

    def ask(self, command, text, *words):
        """The status and the output of a command about a program. A word that is bytes stands for a
        file of them. Raises Ended where the task is."""
        data = encoded(text)
        key = (command, hashlib.sha256(data).digest(), *map(summed, words))
        found = self.answers.known(key)
        if found is None:
            self.go_on()
            found = self.asked(command, data, words)
            self.answers.keep(key, found)
        return found

    def asked(self, command, data, words):
        files = [self.answers.file(data)]
        try:
            for word in words:
                if isinstance(word, bytes):
                    files.append(self.answers.file(word))
            rest = iter(files[1:])
            words = [next(rest) if isinstance(it, bytes) else it for it in words]
            return self.run(shared.program(), command, files[0], *words)
        finally:
            for path in files:
                # (who closes the answers removes them all)
                with contextlib.suppress(FileNotFoundError):
                    os.unlink(path)

    def run(self, *words):
        with self.lock:
            if self.is_ended:
                raise Ended
            try:
                self.running = running = subprocess.Popen(
                    words, stdin=subprocess.DEVNULL, stdout=subprocess.PIPE
                )
            except OSError as error:
                shared.fail(f"{words[0]}: {error.strerror}", shared.NO_PROGRAM)
        try:
            output, _ = running.communicate(timeout=max(self.until - time.monotonic(), 0.01))
        except subprocess.TimeoutExpired:
            running.kill()
            running.communicate()
            raise Ended from None
        finally:
            with self.lock:
                self.running = None
        if self.is_ended:
            raise Ended
        if running.returncode == shared.NO_PROGRAM or running.returncode < 0:
            shared.fail(f"{words[0]} doesn't answer", shared.NO_PROGRAM)
        return running.returncode, output.decode(errors="replace")


def encoded(text):
    """The bytes of a text; of half of a pair of UTF-16 they aren't UTF-8, as is the text."""
    return text.encode("utf-8", "surrogatepass")


def summed(word):
    return hashlib.sha256(word).digest() if isinstance(word, bytes) else word
