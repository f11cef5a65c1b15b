"""The rules of the agents: what follows from what one of them has read. Nothing here reads, writes or looks at a clock."""
from typing import NamedTuple, Optional


class Holding(NamedTuple):
    """What a folder holds: the claims below the log's end (a claim and where it starts; None: unknown), the end, the seals, and whether it counts."""

    claims: Optional[tuple]
    end: int
    seals: str
    is_whole: bool
    behind: str

    @property
    def claim(self):
        return self.claims[-1][0] if self.claims else 0


class Note(NamedTuple):
    """What is written down of a folder before its `als` starts: its claims and its seals (None: any, it takes over itself), and those of its leader."""

    claims: Optional[tuple] = ()
    seals: Optional[str] = None
    leader: str = ""
    leader_claims: tuple = ()
    leader_seals: Optional[str] = None


class Found(NamedTuple):
    """What a stopped folder has: the end and the seals of its log, the note of it, and the end from which on it counts."""

    end: int
    seals: str
    note: Optional[Note]
    wanted: int


class Leader(NamedTuple):
    """The node that was elected. Its log has seals and claims once it has taken over; `held` and `end` are what it held when it was elected."""

    name: str
    serve: str
    listen: str
    held: int
    end: int
    claim: int
    revision: int
    lease: str
    seals: Optional[str] = None
    claims: tuple = ()


class Said(NamedTuple):
    """What a node says of itself. With an end: it is stopped, and holds that. Without one: it runs. `behind`: it knows not which reign its log is of, but
    that this node's log has all of it."""

    name: str
    revision: int
    claim: int = 0
    end: Optional[int] = None
    is_whole: bool = False
    behind: str = ""


class Reign(NamedTuple):
    """What the log of a leader had once it had taken over."""

    claim: int
    name: str
    seals: str
    claims: tuple


class View(NamedTuple):
    """What etcd has, at one moment. `base` is None until a leader was elected there."""

    leader: Optional[Leader]
    said: tuple
    base: Optional[int]
    is_paused: bool
    move: Optional[str]

    def of(self, name):
        """What a node says; revision 0: nothing."""
        return next((it for it in self.said if it.name == name), Said(name, 0))


def decide(name, view, runs, has_failed, rests):
    """What the agent of this node does next. `runs` is the role and the claim for which its `als` runs, None: it does not."""
    leader = view.leader
    if view.is_paused:
        return "wait"
    if leader is None:
        return "campaign"
    if leader.name == name:
        if rests:
            return "wait"
        if leader.seals is None:
            return "take_over"
        if has_failed or view.move not in (None, name):
            return "resign"
        return "wait" if runs == ("primary", leader.claim) else "lead"
    if leader.seals is None:
        return "wait"
    if runs != ("standby", leader.claim):
        return "join"
    return "wait" if view.of(name).revision else "say_again"


def electors(name, view, nodes, sync):
    """Those on whose being stopped a claim of this node counts; none: it may not claim. Where all nodes are stopped nothing is anywhere else."""
    whole = [it for it in view.said if it.is_whole]
    stopped = [it for it in view.said if it.end is not None and it.behind in ("", *(more.name for more in whole))]
    group = stopped if len(stopped) == nodes else whole if view.base is not None and len(whole) >= nodes - sync else []
    first = max(group, key=lambda it: (it.claim, it.end, it.name == view.move, it.name), default=None)
    return group if first is not None and first.name == name else []


def holding(found, reigns):
    """What a folder holds. A reign that its `als` went on into while its agent stood still is looked up."""
    note = found.note or Note()
    if found.end == 0:
        known = ()
    elif note.leader_seals == found.seals:
        known = note.leader_claims
    elif note.seals in (None, found.seals):
        known = note.claims
    else:
        known = next((it.claims for it in reigns if it.name == note.leader and it.seals == found.seals), None)
    claims = None if known is None else tuple(it for it in known if it[1] < found.end)
    is_whole = found.note is not None and claims is not None and found.end >= max(found.wanted, 1)
    return Holding(claims, found.end, found.seals, is_whole, (note.leader or "nobody") if claims is None else "")


def is_as_elected(mine, leader):
    """Whether the folder still is the one by which its node was elected; it may have taken over since."""
    return leader.claim > leader.held and mine.claims is not None and mine.claim in (leader.held, leader.claim) and mine.end >= leader.end


def has_parted(mine, leader):
    """Whether the log went past the place where the leader's went on under a claim that is none of its own."""
    same = tuple(it for it in mine.claims or () if it in leader.claims)
    return bool(mine.claims) and (same != mine.claims or any(start < mine.end for _, start in leader.claims[len(same) :]))


def begins_anew(mine, leader, refused, forgets):
    """Whether a folder is put aside, for an empty one, before it follows."""
    return mine.end > 0 and (has_parted(mine, leader) or refused in (42, 50) or refused == 48 and forgets)
