"""What the agents ask of etcd, over its gateway for HTTP."""
import base64
import http.client
import json
import time

from rules import Leader, Reign, Said, View

# Keys that are put once more with what they have, so that they have a new revision.
SAME = object()


class Etcd:
    """The gateway of an etcd: whichever of its members answers. A lease is renewed each third of its time."""

    def __init__(self, members, ttl):
        self.members, self.ttl, self.renewed = members, ttl, 0

    def ask(self, path, body):
        """The answer's object. None: no member answers; what was asked may have been done."""
        for member in list(self.members):
            try:
                line = http.client.HTTPConnection(member, timeout=1)
                line.request("POST", f"/v3/{path}", json.dumps(body))
                answer = line.getresponse()
                said = json.loads(answer.read())
                line.close()
                if answer.status == 200:
                    return said
            except (OSError, ValueError, http.client.HTTPException):
                pass
            self.members.append(self.members.pop(0))
        return None

    def grant(self):
        """A new lease. None: no member answers."""
        began = time.monotonic()
        lease = (self.ask("lease/grant", {"TTL": self.ttl}) or {}).get("ID")
        self.renewed = began if lease else self.renewed
        return lease

    def keep(self, lease):
        """Whether a lease holds, by this machine's clock. None: no member answers, for less than half of its time."""
        now = time.monotonic()
        if now - self.renewed < self.ttl / 3:
            return True
        said = self.ask("lease/keepalive", {"ID": lease})
        if said is None:
            return None if time.monotonic() - self.renewed < self.ttl / 2 else False
        if int(said.get("result", {}).get("TTL", 0)) > 0:
            self.renewed = now
            return True
        return False

    def revoke(self, lease):
        """Ends a lease, and each key that has it."""
        self.ask("lease/revoke", {"ID": lease})

    def all(self, front):
        """The keys that begin so, at one moment: each with its value, and what etcd says of it. None: no member answers."""
        said = self.ask("kv/range", {"key": coded(front), "range_end": coded(front[:-1] + chr(ord(front[-1]) + 1))})
        return None if said is None else {decoded(it["key"]): (value_of(it), it) for it in said.get("kvs", [])}

    def view(self):
        """All that the agents decide by. None: no member answers."""
        found = self.all("als/")
        if found is None:
            return None
        base = found["als/base"][0] if "als/base" in found else None
        said = [Said(key[10:], int(it["mod_revision"]), **value) for key, (value, it) in found.items() if key.startswith("als/holds/")]
        leader = None
        if "als/leader" in found:
            value, it = found["als/leader"]
            claim = (base or 0) + int(it["create_revision"])
            leader = Leader(**{**value, "claims": pairs(value["claims"])}, claim=claim, revision=int(it["mod_revision"]), lease=it.get("lease", "0"))
        return View(leader, tuple(said), base, "als/pause" in found, str(found["als/move"][0]) if "als/move" in found else None)

    def reigns(self):
        """What the logs of the last leaders had. None: no member answers."""
        found = self.all("als-reigns/")
        return None if found is None else [Reign(int(key[11:]), it["name"], it["seals"], pairs(it["claims"])) for key, (it, _) in found.items()]

    def drop(self, key):
        self.ask("kv/deleterange", {"key": coded(key)})

    def put(self, wanted, puts, lease, dropped=()):
        """Whether this was put, with the lease where it has one, while each wanted key had its revision (0: is not there). None: no member answers."""
        compare = [{"key": coded(key), "target": "MOD", "result": "EQUAL", "mod_revision": str(revision)} for key, revision in wanted.items()]
        done = [{"request_delete_range": {"key": coded(first), "range_end": coded(last)}} for first, last in dropped]
        for key, value in puts.items():
            if value is SAME:
                done.append({"request_put": {"key": coded(key), "ignore_value": True, "ignore_lease": True}})
            else:
                held = {} if key.startswith("als-reigns/") or key == "als/base" else {"lease": lease}
                done.append({"request_put": {"key": coded(key), "value": coded(json.dumps(value)), **held}})
        said = self.ask("kv/txn", {"compare": compare, "success": done})
        return None if said is None else said.get("succeeded", False)


def coded(text):
    return base64.b64encode(text.encode()).decode()


def decoded(text):
    return base64.b64decode(text).decode()


def value_of(it):
    """What a key has; a word that is no JSON is itself, so that an operator may put it."""
    text = decoded(it.get("value", ""))
    try:
        return json.loads(text)
    except ValueError:
        return text


def pairs(claims):
    return tuple(map(tuple, claims))
