#!/usr/bin/env python3
"""Tests of als.py against live nodes: what each answer becomes, and counters that are kept right while the primary is killed.

Usage: clients/python/test_als.py [--kills N] PROGRAM
"""
import argparse
import contextlib
import os
import random
import shutil
import socket
import subprocess
import sys
import tempfile
import threading
import time

HERE = os.path.dirname(os.path.abspath(__file__))
sys.dont_write_bytecode = True
sys.path.insert(0, HERE)
import als
from als import Client, Is, Key, Unchanged

TOKEN = "a-token-of-these-tests"
SILENT = {"stdout": subprocess.DEVNULL, "stderr": subprocess.DEVNULL}


def free_address():
    with socket.create_server(("127.0.0.1", 0)) as listener:
        return f"127.0.0.1:{listener.getsockname()[1]}"


class Node:
    """A folder, and the `als` that has it."""

    def __init__(self, program, folder):
        self.program, self.folder, self.run = program, folder, None
        self.serve, self.listen = free_address(), free_address()
        os.mkdir(folder)

    def start(self, *words):
        self.run = subprocess.Popen([self.program, *words, "--dir", self.folder, "--serve", self.serve], **SILENT)

    def lay_out(self):
        subprocess.run([self.program, "new", self.folder, "--pages", "16", "--log-blocks", "65536"], check=True, **SILENT)

    def lead(self, token_file, *more):
        self.start("primary", "--listen", self.listen, "--token-file", token_file, "--commit-timeout", "5", *more)

    def follow(self, other):
        self.start("standby", "--keep", "--from", other.listen, "--pages", "16", "--log-blocks", "65536")

    def take_over(self):
        subprocess.run([self.program, "takeover", "--dir", self.folder], check=True, **SILENT)

    def kill(self):
        if self.run:
            self.run.kill()
            self.run.wait()


class Cutter(threading.Thread):
    """A port that leads to another one, and cuts each connection by chance before its answer is through."""

    def __init__(self, to, chance, seed):
        super().__init__(daemon=True)
        self.to, self.chance, self.rng = to, chance, random.Random(seed)
        self.listener = socket.create_server(("127.0.0.1", 0))
        self.address = f"127.0.0.1:{self.listener.getsockname()[1]}"
        self.cuts = 0
        self.start()

    def run(self):
        while True:
            client, _ = self.listener.accept()
            threading.Thread(target=self.carry, args=(client,), daemon=True).start()

    def carry(self, client):
        with client:
            try:
                server = socket.create_connection(self.to.rsplit(":", 1), timeout=10)
            except OSError:
                return
            with server, contextlib.suppress(OSError):
                while asked := client.recv(65536):
                    server.sendall(asked)
                    answer = server.recv(65536)
                    if b"POST" in asked[:4] and self.rng.random() < self.chance:
                        self.cuts += 1
                        return
                    client.sendall(answer)


def raises(what, call, *given):
    try:
        call(*given)
    except what as why:
        return why
    raise AssertionError(f"{what.__name__} was not raised")


def answers(program, room, token_file):
    """What each answer of one node becomes."""
    node = Node(program, f"{room}/one")
    node.lay_out()
    node.lead(token_file)
    key, other = Key(1, 3), Key(2, 4)
    try:
        with Client([free_address(), node.serve], TOKEN) as db:
            assert db.get(key).value is None
            first = db.commit({key: b"\x01", other: b"\x02"}, [Is(key, None)])
            assert db.get(key) == als.Value(b"\x01", first.lsn)
            found = raises(als.NotAsAsked, db.commit, {key: b"\x03"}, [Is(key, None), Unchanged(other, first.lsn)]).found
            assert found == {key: b"\x01"}, found
            db.commit({key: None}, [Is(key, b"\x01")])
            assert db.get(key).value is None
            prepared = db.prepare({key: b"\x05"})
            assert [one.trans for one in db.in_doubt()] == [prepared.trans]
            assert raises(als.Held, db.commit, {key: b"\x06"}).trans == prepared.trans
            assert db.decide(prepared.trans, True) and not db.decide(prepared.trans, True)
            assert db.get(key).value == b"\x05" and db.in_doubt() == []
            assert raises(als.Refused, db.commit, {Key(99, 0): b"\x01"}).status == 400
            assert raises(als.Refused, db.commit, {key: 32 * b"\x01"}).status == 400
        with Client([node.serve], "a-token-of-nobody") as db:
            assert raises(als.Refused, db.commit, {key: b"\x06"}).status == 403
        with Client([free_address()], TOKEN, patience=0.3) as db:
            raises(als.Unavailable, db.commit, {key: b"\x06"})
            raises(als.Unavailable, db.get, key)
        with Client([node.serve], TOKEN, mark=Key(3, 0)) as one, Client([node.serve], TOKEN, mark=Key(3, 0)) as two:
            one.commit({key: b"\x07"})
            two.commit({key: b"\x08"})
            raises(als.Error, one.commit, {key: b"\x09"})
            assert two.get(key).value == b"\x08"
    finally:
        node.kill()
    print("answers: all as they should be")


def counts(addresses, number, stop, counted):
    """A client that counts at a key of its own, by comparisons, and notes what it was told."""
    key, value = Key(4 + number, 0), 0
    with Client(addresses, TOKEN, mark=Key(4 + number, 1), patience=120) as db:
        while not stop.is_set():
            old = None if value == 0 else value.to_bytes(8, "big")
            try:
                db.commit({key: (value + 1).to_bytes(8, "big")}, [Is(key, old)])
            except als.Unavailable:
                found = db.get(key).value
                value = 0 if found is None else int.from_bytes(found, "big")
                continue
            value += 1
            counted[number] = value


def goes_on(counted, until):
    """Waits until so much is counted."""
    late = time.monotonic() + 120
    while sum(counted.values()) < until:
        assert time.monotonic() < late, f"nothing is counted for two minutes: {counted}"
        time.sleep(0.02)


def failover(program, room, token_file, kills):
    """Counters of four clients, of which each answer may be cut off, while the primary is killed, restarted, or taken over. A kill takes some ten seconds: the
    standby asks again after that."""
    nodes = [Node(program, f"{room}/{name}") for name in "ab"]
    first, second = nodes
    first.lay_out()
    first.lead(token_file, "--sync", "1")
    second.follow(first)
    cutters = [Cutter(node.serve, 0.05, at) for at, node in enumerate(nodes)]
    stop, counted, rng = threading.Event(), {}, random.Random(1)
    threads = [threading.Thread(target=counts, args=([it.address for it in cutters], at, stop, counted)) for at in range(4)]
    for thread in threads:
        thread.start()
    for number in range(kills):
        print(f"kill {number}: {sum(counted.values())} counted", file=sys.stderr, flush=True)
        goes_on(counted, sum(counted.values()) + 20)
        time.sleep(rng.uniform(0, 0.5))
        first.kill()
        if number % 3 == 2:
            second.kill()
            second.take_over()
            second.lead(token_file, "--sync", "1")
            first.follow(second)
            first, second = second, first
        else:
            first.lead(token_file, "--sync", "1")
    goes_on(counted, sum(counted.values()) + 20)
    stop.set()
    for thread in threads:
        thread.join()
    try:
        with Client([node.serve for node in nodes], TOKEN) as db:
            found = {at: int.from_bytes(db.get(Key(4 + at, 0), first.serve).value, "big") for at in counted}
    finally:
        for node in nodes:
            node.kill()
    cuts = sum(it.cuts for it in cutters)
    print(f"failover: kills={kills} cut_answers={cuts} counted={sum(counted.values())}")
    assert found == counted, (found, counted)
    assert len(counted) == 4 and min(counted.values()) > 10 and cuts > 10, (counted, cuts)


def main():
    words = argparse.ArgumentParser()
    words.add_argument("--kills", type=int, default=6)
    words.add_argument("program")
    args = words.parse_args()
    program, room = os.path.abspath(args.program), tempfile.mkdtemp()
    token_file = f"{room}/token"
    with open(os.open(token_file, os.O_CREAT | os.O_WRONLY, 0o600), "w", encoding="ascii") as file:
        file.write(TOKEN)
    try:
        answers(program, room, token_file)
        failover(program, room, token_file, args.kills)
    finally:
        shutil.rmtree(room, ignore_errors=True)


if __name__ == "__main__":
    main()
