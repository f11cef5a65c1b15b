"""What the trials share: ports, other trials as modules, and the least that a trial has to have done.

A trial that finds nothing wrong has shown nothing where it did nothing: over a program that answers 503 to all, no answer is wrong. So each one counts what it
did (answers, kills of a process that ran, cases) and fails below a least of it. trials/mutants runs them over programs that do nothing, or the wrong thing.
"""
import importlib.machinery
import importlib.util
import os
import socket
import sys

HERE = os.path.dirname(os.path.abspath(__file__))
# The status of a trial that this machine has not what it needs for. trials/all counts it apart.
SKIPPED = 77


def free_port():
    """A port of the loopback that nobody has."""
    with socket.create_server(("127.0.0.1", 0)) as listener:
        return listener.getsockname()[1]


def free_address():
    """An address of the loopback at which nobody serves."""
    return f"127.0.0.1:{free_port()}"


def load(name):
    """Another trial as a module."""
    sys.dont_write_bytecode = True
    loader = importlib.machinery.SourceFileLoader(name, os.path.join(HERE, name))
    module = importlib.util.module_from_spec(importlib.util.spec_from_loader(name, loader))
    loader.exec_module(module)
    return module


def skipped(what):
    """Says that a part of a trial was not run. trials/all counts these lines."""
    print(f"skipped: {what}", flush=True)


class Did:
    """What a trial has done, and how often that was too little."""

    def __init__(self):
        self.too_little = 0

    def at_least(self, what, found, least):
        """Fails the trial where there is less of it."""
        if found < least:
            self.too_little += 1
            print(f"too little: {what}={found}, of at least {least:.4g}", file=sys.stderr, flush=True)
