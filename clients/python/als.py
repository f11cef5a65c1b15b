"""A client of `als`: this one file and the standard library.

    from als import Client, Is, Key

    db = Client(["10.0.0.2:7071", "10.0.0.3:7071"], token="..", mark=Key(9, 0))
    account = Key(1, 3)
    old = db.get(account).value
    db.commit({account: b"\\x2a"}, [Is(account, old)])

It is given the addresses of all nodes, and finds the one that takes commits by itself: the one whose `/primary` is 200. What was not written (503, 408, no
node that leads) is asked for again until `patience` seconds are over. **A lost answer** (504, or a connection that was cut) is asked for again too, and is
carried out once: a client with a `mark`, a key that no other client uses, puts a token of its own into it with each transaction, under the comparison that
the token of before is there. Without a mark it raises `Unknown`.

Reads come from any node, and are never older than what this client has read or committed before (`Als-At-Least`).

A client is of one thread: give each thread its own, with its own mark.
"""
import http.client
import json
import os
import time
from dataclasses import dataclass
from typing import Iterable, Mapping, NamedTuple, Optional, Sequence, Union

__all__ = ["Client", "Key", "Is", "Unchanged", "Value", "Committed", "Prepared", "Doubt", "Error", "NotAsAsked", "Held", "Refused", "Full", "Unknown", "Unavailable"]


class Key(NamedTuple):
    """Slot `slot` (0 to 14) of page `page`."""

    page: int
    slot: int


@dataclass(frozen=True)
class Is:
    """Compares: the key has this value, None for none."""

    key: Key
    value: Optional[bytes]


@dataclass(frozen=True)
class Unchanged:
    """Compares: no commit above this LSN has written the key."""

    key: Key
    since: int


@dataclass(frozen=True)
class Value:
    """What a key has: its value, None for none, and the LSN of the last commit that the answer counts."""

    value: Optional[bytes]
    lsn: int


@dataclass(frozen=True)
class Committed:
    """It committed, as transaction `trans`; its commit record is at `lsn`. Both are None where that was learned from the mark alone."""

    trans: Optional[int]
    lsn: Optional[int]


@dataclass(frozen=True)
class Prepared:
    """It is in doubt, and holds its keys, until it is decided."""

    trans: int
    lsn: int


@dataclass(frozen=True)
class Doubt:
    """A transaction in doubt, and the LSN of its last record."""

    trans: int
    lsn: int


class Error(Exception):
    """Why something was not done. Nothing was written, unless it is `Unknown`."""


class NotAsAsked(Error):
    """Comparisons did not hold: `found` has the keys of the first eight, each with the value that it has."""

    def __init__(self, found):
        super().__init__(", ".join(f"{page}/{slot} is {None if value is None else value.hex()}" for (page, slot), value in found.items()))
        self.found = found


class Held(Error):
    """A key is held by a transaction in doubt, `trans`."""

    def __init__(self, trans):
        super().__init__(f"held by transaction {trans}, which is in doubt")
        self.trans = trans


class Refused(Error):
    """The node answered `status`, and asking again does not help."""

    def __init__(self, status, text):
        super().__init__(f"{status} {text}")
        self.status, self.text = status, text


class Full(Refused):
    """The log has no room for it."""


class Unknown(Error):
    """It may have been written or not: the answer was lost, and the client has no mark."""


class Unavailable(Error):
    """No node answered in time. What was asked for last was not written, unless the message says otherwise."""


def _text(value):
    return None if value is None else value.hex()


def _bytes(text):
    return None if text is None else bytes.fromhex(text)


def _comparison(one):
    if isinstance(one, Is):
        return {"key": list(one.key), "is": _text(one.value)}
    return {"key": list(one.key), "unchanged_since": one.since}


class Client:
    """A client of the nodes at these addresses (`HOST:PORT`). `patience` is in seconds, as is `timeout` of one answer."""

    def __init__(self, addresses: Sequence[str], token: Optional[str] = None, mark: Optional[Key] = None, patience: float = 30, timeout: float = 15):
        if not addresses:
            raise ValueError("no address")
        self.addresses, self.token, self.mark, self.patience, self.timeout = list(addresses), token, mark, patience, timeout
        self._links, self._leader, self._lsn, self._marked, self._knows_mark = {}, None, 0, None, False

    # ---- reads

    def get(self, key: Key, at: Optional[str] = None) -> Value:
        """Reads a key, at any node or at the one of this address, and no older than what this client has seen."""
        status, said = self._read(f"/keys/{key.page}/{key.slot}", at)
        if status != 200:
            raise Refused(status, said.get("error", ""))
        self._saw(said["lsn"])
        return Value(_bytes(said["value"]), said["lsn"])

    def in_doubt(self) -> list[Doubt]:
        """The transactions in doubt at the node that leads."""
        status, said = self._ask_leader("GET", "/in-doubt", None, True)
        if status != 200:
            raise Refused(status, said.get("error", ""))
        return [Doubt(one["trans"], one["lsn"]) for one in said]

    # ---- changes

    def commit(self, sets: Mapping[Key, Optional[bytes]], checks: Iterable[Union[Is, Unchanged]] = ()) -> Committed:
        """Sets all of these keys, None for no value, if all comparisons hold; else nothing, and `NotAsAsked` or `Held` says why."""
        checks = [_comparison(one) for one in checks]
        sets = [{"key": list(key), "to": _text(value)} for key, value in sets.items()]
        if self.mark is None:
            return self._committed(*self._ask_leader("POST", "/commit", {"if": checks, "set": sets}, False))
        if not self._knows_mark:
            self._marked, self._knows_mark = self._value_of_mark(), True
        token = os.urandom(16)
        # (first, so that a 409 shows it whatever else fails)
        body = {"if": [_comparison(Is(self.mark, self._marked)), *checks], "set": [{"key": list(self.mark), "to": token.hex()}, *sets]}
        try:
            committed = self._committed(*self._ask_leader("POST", "/commit", body, True))
        except NotAsAsked as why:
            if why.found.get(self.mark, b"") != token:
                if self.mark in why.found:
                    self._knows_mark = False
                    raise Error(f"another client uses the mark {self.mark.page}/{self.mark.slot}") from why
                raise
            committed = Committed(None, None)
        except Unavailable:
            self._knows_mark = False
            raise
        self._marked = token
        return committed

    def prepare(self, sets: Mapping[Key, Optional[bytes]], checks: Iterable[Union[Is, Unchanged]] = ()) -> Prepared:
        """The first phase of a commit over several primaries. A lost answer is `Unknown`: `in_doubt` and `decide` clear it up."""
        body = {"if": [_comparison(one) for one in checks], "set": [{"key": list(key), "to": _text(value)} for key, value in sets.items()]}
        status, said = self._ask_leader("POST", "/prepare", body, False)
        committed = self._committed(status, said)
        return Prepared(committed.trans, committed.lsn)

    def decide(self, trans: int, commit: bool) -> bool:
        """Decides a transaction in doubt. False: it is not in doubt (any more). Asked again it changes nothing, so a lost answer is asked for again."""
        status, said = self._ask_leader("POST", "/decide", {"trans": trans, "commit": commit}, True)
        if status == 404:
            return False
        if status != 200:
            raise Refused(status, said.get("error", said.get("name", "")))
        self._saw(said["lsn"])
        return True

    def close(self) -> None:
        for link in self._links.values():
            link.close()
        self._links = {}

    def __enter__(self):
        return self

    def __exit__(self, *_):
        self.close()

    # ---- how it is asked

    def _saw(self, lsn):
        self._lsn = max(self._lsn, lsn or 0)

    def _value_of_mark(self):
        """The value of the mark, by a comparison that fails: what the leader answers of it is confirmed."""
        while True:
            wrong = os.urandom(16)
            status, said = self._ask_leader("POST", "/commit", {"if": [_comparison(Is(self.mark, wrong))], "set": [{"key": list(self.mark), "to": None}]}, True)
            if status == 409 and "not_as_asked" in said:
                return _bytes(said["not_as_asked"][0]["value"])
            self._committed(status, said)

    def _committed(self, status, said):
        if status == 200:
            self._saw(said["lsn"])
            return Committed(said["trans"], said["lsn"])
        if status == 409 and "held_by" in said:
            raise Held(said["held_by"])
        if status == 409:
            raise NotAsAsked({Key(*one["key"]): _bytes(one["value"]) for one in said["not_as_asked"]})
        if status in (504, 0):
            raise Unknown("the answer was lost: it may have been written")
        if status == 507:
            raise Full(status, "the log has no room for it")
        raise Refused(status, said.get("error", said.get("name", "")))

    def _ask(self, address, method, path, body=None, headers=None):
        """The status and the object of an answer. -1: it was not asked. 0: the answer was lost."""
        link = self._links.get(address)
        if link is None:
            host, _, port = address.rpartition(":")
            link = http.client.HTTPConnection(host.strip("[]"), int(port), timeout=self.timeout)
            try:
                link.connect()
            except OSError:
                return -1, {}
            self._links[address] = link
        try:
            link.request(method, path, None if body is None else json.dumps(body), headers or {})
            answer = link.getresponse()
            text = answer.read()
            if answer.will_close:
                self._drop(address)
        except (OSError, http.client.HTTPException):
            self._drop(address)
            return 0, {}
        try:
            return answer.status, json.loads(text) if text else {}
        except ValueError:
            return answer.status, {}

    def _drop(self, address):
        link = self._links.pop(address, None)
        if link is not None:
            link.close()

    def _leads(self):
        """The address of the node that takes commits, as far as that is known. None: no node says so."""
        for address in ([self._leader] if self._leader else []) + self.addresses:
            # (a connection that was kept may have ended: it is tried once more on a new one)
            for _ in range(2):
                status, _said = self._ask(address, "GET", "/primary")
                if status != 0:
                    break
            if status == 200:
                self._leader = address
                return address
        self._leader = None
        return None

    def _ask_leader(self, method, path, body, may_repeat):
        """Asks the node that leads, again and again while nothing was written, or where it may be asked twice."""
        headers = {"Authorization": f"Bearer {self.token}"} if self.token else {}
        until, lost, pause = time.monotonic() + self.patience, False, 0.02
        while True:
            address = self._leads()
            if address is not None:
                status, said = self._ask(address, method, path, body, headers)
                if status in (0, 504) and not may_repeat:
                    return status, said
                if status not in (-1, 0, 408, 503, 504, 405) or (status == 503 and said.get("refused") == 45):
                    return status, said
                lost = lost or status in (0, 504)
            if time.monotonic() > until:
                raise Unavailable("no node answered in time" + ("; it may have been written" if lost else ""))
            time.sleep(pause)
            pause = min(2 * pause, 0.5)

    def _read(self, path, at):
        headers = {"Als-At-Least": str(self._lsn)} if self._lsn else {}
        until, pause = time.monotonic() + self.patience, 0.02
        while True:
            for address in [at] if at else self.addresses:
                status, said = self._ask(address, "GET", path, None, headers)
                if status not in (-1, 0, 503):
                    return status, said
            if time.monotonic() > until:
                raise Unavailable(f"no node answered as of LSN {self._lsn} in time")
            time.sleep(pause)
            pause = min(2 * pause, 0.5)
