"""The `als` of a node: it is started, asked and killed here."""
import ctypes
import http.client
import json
import os
import re
import signal
import subprocess
import time

from folder import Folder, write
from rules import Found


class Node:
    """A folder and the `als` that runs over it, for a role and a claim."""

    def __init__(self, args, keep):
        self.args, self.keep, self.als = args, keep, os.path.abspath(args.program)
        self.folder = Folder(os.path.abspath(args.dir))
        # The process, and for which role and claim it was started; what the stopped folder has; what `als status` said of it.
        self.run, self.role, self.has, self.said = None, None, None, ""
        # When it was started, when it last answered, and whether it has since its start; until when it rests.
        self.starts, self.heard, self.has_answered, self.until = [], 0, False, 0

    def runs(self):
        """The role and the claim for which it runs. None: it does not."""
        return self.role if self.run is not None and self.run.poll() is None else None

    def refused(self, claim):
        """The number by which it was refused as the standby of this claim's leader; else 0."""
        return self.refusal() if self.run is not None and self.role == ("standby", claim) and self.run.poll() == 3 else 0

    def refusal(self):
        with open(self.folder.log, "rb") as file:
            file.seek(max(0, os.path.getsize(self.folder.log) - 65536))
            found = re.findall(rb"refused (\d+)", file.read())
        return int(found[-1]) if found else 0

    def is_hasty(self):
        """Whether it was started three times in ten seconds."""
        return len([it for it in self.starts if time.monotonic() - it < 10]) >= 3

    def has_failed(self):
        """Whether the primary ended three times in ten seconds, or answers nothing for the time of a lease: a minute, before its first answer."""
        if self.role is None or self.role[0] != "primary":
            return False
        if self.runs() is None:
            return self.is_hasty()
        if self.answers():
            self.heard, self.has_answered = time.monotonic(), True
        return time.monotonic() - self.heard > (self.args.ttl if self.has_answered else 60)

    def answers(self):
        """Whether it answers at all: a primary that waits for its standbys is none that failed."""
        try:
            asked(self.args.serve, "/primary")
            return True
        except (OSError, http.client.HTTPException):
            return False

    def stop(self):
        """Kills it, and waits until it has ended: it loses nothing by that."""
        if self.run is not None:
            self.run.send_signal(signal.SIGKILL)
            self.run.wait()
        self.run, self.role = None, None

    def start(self, role, *words):
        self.stop()
        now, agent = time.monotonic(), os.getpid()
        # A start that fails is one, too.
        self.role, self.has, self.heard, self.has_answered = role, None, now, False
        self.starts = [it for it in self.starts if now - it < 10] + [now]
        if self.folder.is_empty():
            self.folder.clear()
        with open(self.folder.log, "ab") as errors:
            none = subprocess.DEVNULL
            self.run = subprocess.Popen([self.als, *words], stdin=none, stdout=none, stderr=errors, preexec_fn=lambda: end_with(agent))

    def finish(self, *words):
        """Runs a command to its end, while the lease is renewed. Its status."""
        self.start(None, *words)
        while self.run.poll() is None:
            self.keep()
            time.sleep(0.05)
        status, self.run = self.run.returncode, None
        return status

    def found(self):
        """What the folder of the stopped node has. None: it can't be read."""
        if self.has is None:
            end, seals = 0, ""
            if not self.folder.is_empty():
                run = subprocess.Popen([self.als, "status", self.folder.path], stdout=subprocess.PIPE, stderr=subprocess.STDOUT, text=True)
                while True:
                    try:
                        self.said = run.communicate(timeout=0.5)[0]
                        break
                    except subprocess.TimeoutExpired:
                        self.keep()
                found = re.search(r"\bend=(\d+)", self.said), re.search(r"^epoch \d+ seals (.*)$", self.said, re.M)
                if found[0] is None:
                    return None
                end, seals = int(found[0][1]), found[1][1] if found[1] else ""
            self.has = Found(end, seals, self.folder.note(), self.folder.wanted())
        return self.has

    def advice(self):
        """What to do about a folder that can't be read."""
        said, path = " ".join(self.said.split()) or "nothing", self.folder.path
        return f"its folder can't be read ({said}) and counts for nothing: see `als verify {path}`; it begins anew after `mv {path} {path}.bad`"

    def is_empty(self):
        return self.folder.is_empty()

    def note(self, note):
        self.has = None
        write(self.folder.noted, json.dumps(note))

    def want(self, end):
        self.has = None
        write(self.folder.rebuilt, str(end))

    def put_aside(self):
        self.has = None
        self.folder.put_aside()

    def take_over(self):
        """Takes the folder over, or lays a database out. 0, or the number by which it is refused."""
        self.has = None
        if self.folder.is_empty():
            words = ["new", self.folder.path, "--pages", self.args.pages, "--log-blocks", self.args.log_blocks]
        else:
            words = ["takeover", "--dir", self.folder.path]
        return (self.refusal() or 1) if self.finish(*words) else 0

    def lead(self, claim):
        args = self.args
        given = [it for name, value in (("--token-file", args.token_file), ("--follower", args.follower)) if value for it in (name, value)]
        ends = ["--serve", args.serve, "--listen", args.listen, "--sync", args.sync, "--timeout", "5"]
        self.start(("primary", claim), "primary", "--dir", self.folder.path, *ends, *given)

    def follow(self, leader, forgets):
        args = self.args
        words = ["--pages", args.pages, "--log-blocks", args.log_blocks, "--keep", "--serve", args.serve, "--timeout", "5"]
        words += ["--forget-unreached"] if forgets else []
        self.start(("standby", leader.claim), "standby", "--dir", self.folder.path, "--from", leader.listen, *words)

    def end_of(self, leader):
        """Where the leader's log ends now."""
        return json.loads(asked(leader.serve, "/status")[1])["end"]

    def rest(self, seconds):
        self.until = time.monotonic() + seconds

    def end_rest(self):
        """It rests no more where it is a healthy standby."""
        if self.rests() and (self.runs() or ("",))[0] == "standby" and self.is_healthy():
            self.until = 0

    def is_healthy(self):
        """Whether it follows, and hears of its primary."""
        try:
            return asked(self.args.serve, "/standby")[0] == 200
        except (OSError, http.client.HTTPException):
            return False

    def rests(self):
        return time.monotonic() < self.until


def asked(node, path):
    line = http.client.HTTPConnection(node, timeout=1)
    try:
        line.request("GET", path)
        answer = line.getresponse()
        return answer.status, answer.read()
    finally:
        line.close()


def end_with(agent):
    """The kernel kills a node's `als` where its agent ends (PR_SET_PDEATHSIG)."""
    ctypes.CDLL(None).prctl(1, signal.SIGKILL)
    if os.getppid() != agent:
        os._exit(1)
