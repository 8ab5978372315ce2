"""What an import tells at its end: what was taken, what was left out, and why."""
from __future__ import annotations

from dataclasses import dataclass

from catchup.maps.counts import Counts
from catchup.maps.parts import MAIN, Lost

WIDTH = 118
NAMES = 6


@dataclass(frozen=True)
class Sizes:
    """How large what was made is."""
    nodes: int
    copies: int
    roads: int
    profiles: int
    names: int
    several_names: int
    spare: int


def listed(counts: dict[str, int], most: int = NAMES) -> str:
    """`bollard 18, block 2, ..`, the most first."""
    shown = [f"{what} {count:,}" for what, count in list(counts.items())[:most]]
    return ", ".join(shown + [".."] * (len(counts) > most))


def warnings(counts: Counts, lost: Lost) -> list[str]:
    """What whoever uses the network should know."""
    found = []
    if lost.share > 0.05:
        found.append(f"{100 * lost.share:.1f} % of the kilometres are lost, since they aren't joined with the "
                     "largest part")
    main = {kind: ways for kind, ways in lost.ways.items() if kind.removesuffix("_link") in MAIN}
    if main:
        found.append(f"main roads are among what is lost: {listed(main)}")
    for start, text in (("restrictions: at times that aren't understood",
                         "restrictions at times that aren't understood are left out"),
                        ("conditions not used: ", "conditions by the hour or else aren't used"),
                        ("opening hours not understood", "opening hours aren't understood, and taken as all day"),
                        ("durations not understood", "durations of ferries aren't understood"),
                        ("intervals not understood", "intervals of ferries aren't understood, and taken as none"),
                        ("maxspeed not understood", "limits aren't understood"),
                        ("oneway not understood", "directions aren't understood, and taken as both ways"),
                        ("ways cut", "ways are cut where their nodes aren't there, as at the map's edge")):
        number = sum(counts.under(start).values())
        if number:
            found.append(f"{number:,} {text}")
    behind = counts.amount("metres behind roads for destinations alone")
    if behind > 1000:
        found.append(f"{behind / 1000:.1f} km of open roads are joined with the others by roads for destinations "
                     "alone, so one can't drive through there")
    return found


def summary(source: str, sizes: Sizes, counts: Counts, lost: Lost) -> list[str]:
    """The lines of the report that are printed."""
    left = counts.under("left out: ")
    classes = {what.removeprefix("class: "): n for what, n in left.items() if what.startswith("class: ")}
    barred = {what.removeprefix("barred: "): n for what, n in left.items() if what.startswith("barred: ")}
    others = {what: n for what, n in left.items() if not what.startswith(("class: ", "barred: "))}
    opened = counts.under("opened: ")
    lines = [f"{source}: {sizes.nodes:,} junctions ({sizes.copies:,} of them copies), {sizes.roads:,} roads, "
             f"{sizes.profiles:,} profiles, {sizes.names:,} names; {lost.taken / 1000:,.0f} km"]
    lines.append(_row("taken", [
        f"{counts['ways taken']:,} of {counts['ways']:,} ways",
        f"{counts['for destinations alone']:,} for destinations alone",
        f"{sum(opened.values()):,} opened by a tag ({listed(opened)})" if opened else "",
        f"{counts['loops cut in two']:,} loops cut in two", _some(counts, "open at some hours alone"),
        _some(counts, "ferries with departures")]))
    lines.append(_row("left out", [
        f"{sum(classes.values()):,} of other classes ({listed(classes)})" if classes else "",
        f"{sum(barred.values()):,} barred ({listed(barred)})" if barred else "", listed(others)]))
    lost_ways = {kind.upper() if kind.removesuffix("_link") in MAIN else kind: n for kind, n in lost.ways.items()}
    lines.append(_row("lost", [
        f"{lost.lost / 1000:,.0f} km ({100 * lost.share:.1f} %) in {lost.junctions:,} junctions not joined with the "
        "largest part",
        f"{sum(lost_ways.values()):,} whole ways ({listed(lost_ways)})" if lost_ways else ""]))
    blocked, passed = counts.under("barriers: "), counts.under("passed: ")
    lines.append(_row("barriers", [
        f"{sum(blocked.values()):,} block ({listed(blocked)})" if blocked else "none blocks",
        _numbered(counts, "barriers at a junction"), f"{sum(passed.values()):,} passed",
        f"{sum(counts.under('gates ').values()):,} gates for destinations alone or at some hours"]))
    made, unmade = counts.under("restrictions made: "), counts.under("restrictions: ")
    lines.append(_row("turns", [
        f"{sum(made.values()) + sum(unmade.values()):,} restrictions", f"made {listed(made)}" if made else "",
        f"not made: {listed(unmade)}" if unmade else ""]))
    lines.append(_row("speeds", [
        f"{counts['limits by zone or type of maxspeed']:,} ways by zone",
        f"{counts['slowed by surface, tracktype or smoothness']:,} slowed by surface",
        _some(counts, "limits at some hours")]))
    lines.append(_row("names", [f"{sizes.several_names:,} roads with more than one name"]))
    found = warnings(counts, lost)
    lines.append(_row("warnings", found or ["none"]))
    return lines


def full(lines: list[str], counts: Counts, lost: Lost) -> str:
    """The text of report.txt: the summary, and each counter with numbers of OpenStreetMap to look at."""
    rows = list(lines) + ["", "kilometres lost by class"]
    rows += [f"  {kind}: {metres / 1000:.1f}" for kind, metres in lost.metres.items()] or ["  none"]
    rows += ["", "all that was counted, with numbers of OpenStreetMap to look at"]
    for what in counts.names():
        examples = ", ".join(map(str, counts.examples(what)))
        rows.append(f"  {what}: {counts[what]:,}" + (f" ({examples})" if examples else ""))
    return "\n".join(rows) + "\n"


def _some(counts: Counts, what: str) -> str:
    return f"{counts[what]:,} {what}" if counts[what] else ""


def _numbered(counts: Counts, what: str) -> str:
    return f"{counts[what]:,} {what}: {', '.join(map(str, counts.examples(what)))}" if counts[what] else ""


def _row(word: str, parts: list[str]) -> str:
    return f"{word:<10}" + "; ".join(part for part in parts if part)
