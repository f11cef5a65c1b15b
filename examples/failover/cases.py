"""Faults of `run` by their names, each at the moment where it is worst. Each takes three nodes that are whole, and leaves three that are."""
import http.client
import http.server
import json
import os
import shutil
import signal
import socketserver
import subprocess
import threading
import time

from etcd import decoded


class Gate:
    """An etcd of its own for one agent, which stops that agent where it asks to record that its node runs, and holds the request until it is let go."""

    def __init__(self, host, to):
        self.to, self.is_armed, self.is_held, self.free, self.agent = to, False, threading.Event(), threading.Event(), None
        gate = self

        class Handler(http.server.BaseHTTPRequestHandler):
            protocol_version = "HTTP/1.1"

            def do_POST(self):
                body = self.rfile.read(int(self.headers["Content-Length"]))
                held = gate.is_armed and self.path.endswith("/txn") and joins(body)
                if held:
                    gate.hold()
                line = http.client.HTTPConnection(gate.to, timeout=5)
                line.request("POST", self.path, body)
                answer = line.getresponse()
                text = answer.read()
                self.send_response(answer.status)
                self.send_header("Content-Length", str(len(text)))
                self.end_headers()
                self.wfile.write(text)
                self.wfile.flush()
                if held:
                    gate.agent.send_signal(signal.SIGCONT)

            def log_message(self, *_):
                pass

        class Server(socketserver.ThreadingMixIn, http.server.HTTPServer):
            daemon_threads = True

        self.server = Server((host, 0), Handler)
        self.address = f"{host}:{self.server.server_port}"
        threading.Thread(target=self.server.serve_forever, daemon=True).start()

    def hold(self):
        self.is_armed = False
        self.agent.send_signal(signal.SIGSTOP)
        self.is_held.set()
        self.free.wait(60)


def joins(body):
    """Whether a request records that a node runs, which is not elected by it."""
    puts = {decoded(it["request_put"]["key"]): decoded(it["request_put"].get("value", "")) for it in json.loads(body)["success"] if "request_put" in it}
    return "als/leader" not in puts and any(key.startswith("als/holds/") and '"end"' not in value for key, value in puts.items())


def wait(what, call, seconds=60):
    """Waits until this is so."""
    until = time.monotonic() + seconds
    while not call():
        if time.monotonic() > until:
            raise SystemExit(f"failover: in {seconds} seconds: {what}")
        time.sleep(0.02)


def goes_on(trio, but=None):
    """Waits until a leader, another one than that node, answers a commit."""
    trio.wait_for_next(time.monotonic(), but)


def comes_back(trio):
    goes_on(trio)
    trio.wait_for_all()


def elected_again(trio, leader):
    """The leader's agent stands still until its lease is gone, and it leads again; the other's agent that goes on has less."""
    key = trio.key("als/leader")
    # Of two that hold as much it is this one.
    trio.watch.etcd.put({}, {"als/move": leader.name}, "0")
    leader.agent.send_signal(signal.SIGSTOP)
    wait("the leader's lease runs out", lambda: trio.key("als/leader") is None)
    leader.agent.send_signal(signal.SIGCONT)
    wait("a leader is elected", lambda: (trio.key("als/leader") or {}).get("seals") not in (None, (key or {}).get("seals")))


def reign_unseen(trio, is_awake):
    """A standby's agent stands still while the leader is elected again, and its `als` goes on into that reign, and alone has its commits."""
    leader, still, other = trio.leader_first()
    still.agent.send_signal(signal.SIGSTOP)
    elected_again(trio, leader)
    if trio.leader() is not leader:
        raise SystemExit("failover: another node was elected: once more")
    goes_on(trio)
    end = trio.status(leader).get("end", 0)
    wait("both follow", lambda: all(trio.status(it).get("acknowledged", 0) > end for it in (still, other)))
    if is_awake:
        still.agent.send_signal(signal.SIGCONT)
        time.sleep(3)
        goes_on(trio)
    other.signal(signal.SIGSTOP)
    time.sleep(3)
    leader.kill()
    other.signal(signal.SIGCONT)
    still.agent.send_signal(signal.SIGCONT)
    goes_on(trio, leader)
    leader.attend(trio.nodes)
    comes_back(trio)


def frozen_agent(trio):
    """It wakes once the leader is lost."""
    reign_unseen(trio, False)


def elected_again_unseen(trio):
    """It wakes in that reign."""
    reign_unseen(trio, True)


def late_join(trio):
    """A node records late that it follows a leader, which is none any more, and stands still behind that."""
    leader = trio.leader()
    slow, other = sorted((it for it in trio.nodes if it is not leader), key=lambda it: it.name)
    gate = Gate(trio.network.host, slow.client)
    for node in trio.nodes:
        node.kill()
        node.attend(trio.nodes, ttl=20, members=gate.address if node is slow else None)
    gate.agent, gate.is_armed = slow.agent, True
    trio.revoke()
    wait("a node follows", gate.is_held.is_set)
    goes_on(trio)
    leader = trio.leader()
    if leader is slow:
        raise SystemExit("failover: the slow node was elected: once more")
    other = next(it for it in trio.nodes if it not in (leader, slow))
    leader.agent.send_signal(signal.SIGSTOP)
    trio.watch.pinned = leader
    trio.revoke()
    try:
        wait("another node leads", lambda: (trio.key("als/leader") or {}).get("name") == other.name, 12)
    except SystemExit as why:
        print(f"late_join: {why}", flush=True)
    gate.free.set()
    until = time.monotonic() + 5
    while time.monotonic() < until and not trio.als_of(slow):
        time.sleep(0.005)
    # What it started goes on, and its agent does not see what comes.
    slow.agent.send_signal(signal.SIGSTOP)
    time.sleep(4)
    trio.watch.pinned = None
    for node in (slow, leader):
        node.agent.send_signal(signal.SIGCONT)
    comes_back(trio)
    for node in trio.nodes:
        node.kill()
        node.attend(trio.nodes)
    comes_back(trio)


def new_disk(trio):
    """A standby has a new disk, and the leader is lost before it has all again. The other one lacks what the leader and the old disk had."""
    leader, fresh, other = trio.leader_first()
    # More than the frames on the way have.
    for client in trio.clients:
        client.since = time.monotonic() - 60
    wait("the log grows", lambda: trio.status(leader).get("end", 0) > 700_000, 100)
    for client in trio.clients:
        client.since = None
    trio.wait_for_all()
    other.signal(signal.SIGSTOP)
    time.sleep(4)
    fresh.kill()
    fresh.lose_disk()
    trio.network.slow(fresh.number, "64kbit")
    fresh.attend(trio.nodes)
    wait("it begins to follow", lambda: trio.als_of(fresh) and os.path.exists(f"{fresh.folder}/control.blk"))
    time.sleep(1)
    leader.kill()
    other.signal(signal.SIGCONT)
    trio.network.slow(fresh.number, None)
    began = time.monotonic()
    while time.monotonic() < began + 12:
        if (trio.key("als/leader") or {}).get("name") not in (None, leader.name):
            print("new_disk: another node leads, though none may have all", flush=True)
            break
        time.sleep(0.1)
    leader.attend(trio.nodes)
    comes_back(trio)


def new_etcd(trio):
    """Etcd is set up anew: a log of before is not newer than one of a reign of today."""
    # Claims of before are great.
    for _ in range(300):
        trio.watch.etcd.put({}, {"other": 1}, "0")
    leader = trio.leader()
    elected_again(trio, leader)
    comes_back(trio)
    leader, second, third = trio.leader_first()
    third.signal(signal.SIGSTOP)
    trio.new_etcd()
    until = time.monotonic() + 20
    while time.monotonic() < until and trio.key("als/leader") is None:
        time.sleep(0.1)
    if trio.key("als/leader") is None:
        third.signal(signal.SIGCONT)
        goes_on(trio)
        leader, second, third = trio.leader_first()
        third.signal(signal.SIGSTOP)
    else:
        goes_on(trio)
        leader, *both = trio.leader_first()
        second = next(it for it in both if it is not third)
    time.sleep(3)
    leader.kill()
    third.signal(signal.SIGCONT)
    goes_on(trio, leader)
    leader.attend(trio.nodes)
    comes_back(trio)


def failing_disk(trio):
    """The leader's disk can't be written any more."""
    leader = trio.leader()
    began = time.monotonic()
    leader.fail("disk fails")
    trio.pauses.append(trio.wait_for_next(began, leader))
    leader.mend("disk fails", trio.nodes)
    comes_back(trio)


def frozen_als(trio):
    """The leader's `als` stands still; its agent goes on."""
    leader = trio.leader()
    began = time.monotonic()
    leader.fail("stands still")
    trio.pauses.append(trio.wait_for_next(began, leader))
    leader.mend("stands still", trio.nodes)
    comes_back(trio)


def killed_layout(trio):
    """A node is killed while it lays its database out."""
    node = trio.leader_first()[1]
    for _ in range(9):
        node.kill()
        node.lose_disk()
        node.attend(trio.nodes)
        wait("it lays a database out", lambda: os.path.exists(f"{node.folder}/control.new") or os.path.exists(f"{node.folder}/control.blk"))
        node.kill()
        if not os.path.exists(f"{node.folder}/control.blk"):
            break
    else:
        raise SystemExit("failover: it was never killed within a layout")
    node.attend(trio.nodes)
    comes_back(trio)


def empty_leader(trio):
    """The leader is killed and has a new disk, and its agent is there again before its lease ran out."""
    leader = trio.leader()
    began = time.monotonic()
    leader.kill()
    leader.lose_disk()
    leader.attend(trio.nodes)
    trio.pauses.append(trio.wait_for_next(began, leader))
    comes_back(trio)


def moved(trio):
    """An operator lets another node lead."""
    leader, to, _ = trio.leader_first()
    began = time.monotonic()
    trio.watch.etcd.put({}, {"als/move": to.name}, "0")
    trio.pauses.append(trio.wait_for_next(began, leader))
    trio.wait_for_all()
    if trio.key("als/move") is not None:
        raise SystemExit("failover: als/move is there still")


def paused(trio):
    """While an operator has paused the agents, a leader that is killed is not replaced."""
    leader = trio.leader()
    trio.watch.etcd.put({}, {"als/pause": 1}, "0")
    time.sleep(1)
    leader.kill()
    until = time.monotonic() + 10
    while time.monotonic() < until:
        if (trio.key("als/leader") or {}).get("name") not in (None, leader.name):
            raise SystemExit("failover: another node leads, though the agents are paused")
        time.sleep(0.2)
    trio.watch.etcd.drop("als/pause")
    trio.pauses.append(trio.wait_for_next(time.monotonic(), leader))
    leader.attend(trio.nodes)
    comes_back(trio)


CASES = {
    it.__name__.replace("_", "-"): it
    for it in (frozen_agent, elected_again_unseen, late_join, new_disk, new_etcd, failing_disk, frozen_als, killed_layout, empty_leader, moved, paused)
}
