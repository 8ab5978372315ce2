"""The replies that a drawing of routes shows, checked against the roads, and against the script that they answer."""

from __future__ import annotations

import re
from collections import Counter
from collections.abc import Sequence
from dataclasses import dataclass, field
from typing import NoReturn

from catchup import replies
from catchup.draw.tables import Roads
from catchup.draw.words import plural
from catchup.errors import Failure
from catchup.replies import Damage, Day, Departure, Done, Drive, Reach, RefusedReply, Table

MOST_REPLIES = 10_000

_QUERY = re.compile(r"([qvl]),([0-9]{1,18}),([0-9]{1,18}),([0-9]{1,18})", re.ASCII)
_ENTRY = re.compile(r"-|[0-9]{1,12}", re.ASCII)
# A walk takes at most seven days for each of its nodes, so an arrival has no more digits.
_PAST_ARRIVALS = 10**12


@dataclass(frozen=True, slots=True)
class Route:
    """A route of a reply. Seconds are counted from the midnight before leaving; `leaves` is None where nothing says it.

    `entered` and `left` are when each road is reached and when it is driven, where the reply says that. `start` and `end`
    are None where it has no road and nothing says where it stays.
    """

    reply: int
    roads: tuple[int, ...]
    start: int | None
    end: int | None
    leaves: int | None
    arrives: int
    entered: tuple[int, ...] | None = None
    left: tuple[int, ...] | None = None

    @property
    def waits(self) -> list[tuple[int, int]]:
        """Before which of its roads, by their places in it, one waits how many seconds."""
        if self.entered is None or self.left is None:
            return []
        seconds = (left - entered for entered, left in zip(self.entered, self.left))
        return [(k, wait) for k, wait in enumerate(seconds) if wait > 0]


@dataclass(slots=True)
class Answers:
    """What the replies hold: a route or words of each, the routes with roads, and how many there are of each other kind."""

    entries: list[Route | str] = field(default_factory=list)
    kinds: Counter[str] = field(default_factory=Counter)

    @property
    def routes(self) -> list[Route]:
        """The routes with roads, in the order of the replies."""
        return [entry for entry in self.entries if isinstance(entry, Route) and entry.roads]

    @property
    def answered(self) -> list[Route]:
        """All routes, those without a road too."""
        return [entry for entry in self.entries if isinstance(entry, Route)]


def read_answers(lines: Sequence[str], roads: Roads, script: Sequence[str] | None) -> Answers:
    """Reads replies, a line each, to the lines of the script where there is one. Raises Failure where one is none, or is
    of another network or script."""
    if len(lines) > MOST_REPLIES:
        raise Failure(f"more than {MOST_REPLIES} replies can't be drawn: take some of them")
    answers = Answers()
    for number, line in enumerate(lines, start=1):
        try:
            reply = replies.parse(line)
        except replies.NotAReply:
            _refuse(number, f"this is no reply: {printable(line)}")
        if isinstance(reply, (Drive, Departure)):
            asked = None if script is None else script[number - 1] if number <= len(script) else ""
            answers.entries.append(_route(number, reply, roads, asked))
        else:
            answers.entries.append(_words(reply))
            answers.kinds[_kind(reply)] += 1
    return answers


def printable(text: str) -> str:
    """What may be shown of input that is refused."""
    return re.sub("[^ -~]", "?", text[:60])


def _refuse(number: int, why: str) -> NoReturn:
    raise Failure(f"line {number} of the replies: {why}")


def _words(reply: replies.Reply) -> str:
    if isinstance(reply, Day):
        return f"a day of {plural(len(reply.pieces), 'piece')}"
    if isinstance(reply, Reach):
        return f"reach, entries: {len(reply.arrivals)}"
    if isinstance(reply, Table):
        return f"table, entries: {len(reply.arrivals)}" + (f", then {reply.damaged}" if reply.damaged else "")
    return str(reply)


def _kind(reply: replies.Reply) -> str:
    """The kind that a legend of many replies counts it to: those with other numbers are one."""
    names = {Day: "whole day", Reach: "reach", Table: "table", Damage: "damaged", Done: "done"}
    if isinstance(reply, RefusedReply):
        return f"refused: {reply.word.split()[0]}"
    return names.get(type(reply), str(reply))


def _route(number: int, reply: Drive | Departure, roads: Roads, asked: str | None) -> Route:
    _check_roads(number, reply.roads, roads)
    start = roads.tail[reply.roads[0]] if reply.roads else None
    end = roads.head[reply.roads[-1]] if reply.roads else None
    leaves = reply.depart if isinstance(reply, Departure) else None
    entered = left = None
    if isinstance(reply, Drive):
        entered, left = reply.entered, reply.left
        leaves = entered[0] if entered else None
        _check_seconds(number, reply)
    if asked is not None:
        at, to, leaves = _asked(number, reply, asked, leaves)
        if start is None and at == to:
            start = end = at
        if (start, end) != (at, to):
            _refuse(number, "its line of the script asks for other nodes")
    return Route(number, reply.roads, start, end, leaves, reply.arrive, entered, left)


def _check_roads(number: int, route: tuple[int, ...], roads: Roads) -> None:
    """That the roads are those of the table, and lead one to the next."""
    for k, road in enumerate(route):
        if road >= len(roads):
            _refuse(number, f"road {road} isn't in the table")
        if k and roads.tail[road] != roads.head[route[k - 1]]:
            _refuse(number, f"road {road} doesn't begin where road {route[k - 1]} ends")


def _check_seconds(number: int, reply: Drive) -> None:
    """That no road is left before it is reached, nor reached before the one ahead of it is left."""
    if not reply.entered:
        return
    left = reply.left or reply.entered
    seconds = [second for pair in zip(reply.entered, left) for second in pair] + [reply.arrive]
    if any(later < earlier for earlier, later in zip(seconds, seconds[1:])):
        _refuse(number, "its seconds must not fall from road to road")


def _asked(number: int, reply: Drive | Departure, line: str, leaves: int | None) -> tuple[int, int, int]:
    """FROM, TO and the departure of the line of the script that has this reply.

    A reply that says its departure is one to a line that asks for the latest, and one with seconds to a `v` line.
    """
    query = _QUERY.fullmatch(line)
    timed = isinstance(reply, Drive) and reply.entered is not None
    word = "l" if isinstance(reply, Departure) else "v" if timed else "q"
    if not query or query[1] != word:
        _refuse(number, "its line of the script is no query" + (" of this kind" if query else ""))
    second = int(query[4])
    if isinstance(reply, Departure):
        if reply.arrive > second:
            _refuse(number, "its line of the script asks for an earlier arrival")
        return int(query[2]), int(query[3]), reply.depart
    if reply.arrive < second or leaves is not None and leaves < second:
        _refuse(number, "its line of the script leaves later")
    if leaves is not None and leaves > second:
        _refuse(number, "its line of the script leaves earlier")
    return int(query[2]), int(query[3]), second


def read_reach(lines: Sequence[str]) -> tuple[int | None, ...]:
    """The arrival at each node by the one reply to an `r` line. Raises Failure where it is none."""
    if not lines:
        raise Failure("the reply is missing: there is no line")
    if len(lines) > 1:
        raise Failure("the reply must be one line, and there are more")
    words = lines[0].split(" ")
    if words == ["reach"]:
        return ()
    try:
        reply = replies.parse(lines[0])
    except replies.NotAReply:
        reply = None
    if isinstance(reply, Reach) and all(arrival is None or arrival < _PAST_ARRIVALS for arrival in reply.arrivals):
        return reply.arrivals
    if words[0] == "reach":
        for node, word in enumerate(words[1:]):
            if not _ENTRY.fullmatch(word):
                raise Failure(f"the reply's entry for node {node} must be an arrival or -: {printable(word)}")
    raise Failure(f"this is no reply to an r line: {printable(lines[0])}")
