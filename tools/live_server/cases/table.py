"""All cases."""

from __future__ import annotations

import contextlib
import os
from collections.abc import Iterable, Sequence

from ..checks import Checks
from ..errors import Unusable
from ..follower import check_rules
from ..options import Options
from ..place import Place, Shared
from . import (
    adding,
    altering,
    answering,
    basing,
    breaking,
    confining,
    copying,
    describing,
    feeding,
    first_hour,
    first_words,
    healing,
    indexes,
    kafka,
    keys,
    kinds,
    messages,
    missing,
    names,
    operating,
    past,
    privacy,
    proving,
    publications,
    reaching,
    repairing,
    resting,
    rules,
    setting_back,
    shapes,
    sideroads,
    silence,
    sink_clusters,
    sink_ends,
    sink_keys,
    sinking,
    sizes,
    slots,
    spooling,
    standbys,
    starts,
    stops,
    tabling,
    timelines,
    trusting,
    twice,
    undoing,
    undoing_related,
    unlogged,
    values,
    verifying,
    versions,
    waiting,
)
from .case import Case
from .exports import CASES as EXPORTS

THEMES: dict[str, Sequence[Case]] = {
    "starts": (*starts.CASES, *shapes.CASES),
    "names": names.CASES,
    "publications": (*publications.CASES, *unlogged.CASES),
    "values": (*values.CASES, *kinds.CASES),
    "missing": missing.CASES,
    "exports": EXPORTS,
    "feeds": (
        *feeding.CASES,
        *basing.CASES,
        *tabling.CASES,
        *past.CASES,
        *undoing.CASES,
        *undoing_related.CASES,
        *twice.CASES,
        *keys.CASES,
        *describing.CASES,
        *indexes.CASES,
        *answering.CASES,
        *resting.CASES,
        *messages.CASES,
    ),
    "sinks": (
        *sinking.CASES,
        *sink_ends.CASES,
        *sink_keys.CASES,
        *sink_clusters.CASES,
        *kafka.CASES,
    ),
    "verifying": (*verifying.CASES, *proving.CASES),
    "adding": adding.CASES,
    "repairing": repairing.CASES,
    "timelines": (*timelines.CASES, *setting_back.CASES),
    "slots": slots.CASES,
    "copying": copying.CASES,
    "stops": stops.CASES,
    "silence": silence.CASES,
    "standbys": standbys.CASES,
    "reaching": (*reaching.CASES, *trusting.CASES),
    "versions": (*versions.CASES, *rules.CASES, *breaking.CASES),
    "sideroads": sideroads.CASES,
    "privacy": privacy.CASES,
    "operating": (*operating.CASES, *confining.CASES),
    "waiting": waiting.CASES,
    "sizes": (*sizes.CASES, *spooling.CASES),
    "altering": (*altering.CASES, *healing.CASES),
    "first-hour": (*first_hour.CASES, *first_words.CASES),
}


def chosen(names: Sequence[str]) -> list[Case]:
    """The cases with these names, or of these themes; all where none is named."""
    everything = [(theme, case) for theme, cases in THEMES.items() for case in cases]
    known = {*THEMES, *(case.name for _, case in everything)}
    if unknown := [name for name in names if name not in known]:
        raise Unusable(f"there is no case {unknown[0]}: --list has their names")
    return [case for theme, case in everything if not names or theme in names or case.name in names]


def tell() -> None:
    """Prints the names, the servers on which each case runs, and what is expected."""
    for theme, cases in THEMES.items():
        print(f"{theme}:")
        for case in cases:
            print(f"  {case.name} ({case.needs()}): {case.about()}")


def run_case(case: Case, options: Options, shared: Shared) -> None:
    with contextlib.closing(Place(options, shared.fresh())) as place:
        case.run(place)
        if not case.breaks_rules:
            check_rules(place.log)


def run(cases: Iterable[Case], options: Options, checks: Checks) -> None:
    """Runs cases one after the other. What a server hasn't got is passed over."""
    shared = Shared(options)
    try:
        for case in cases:
            if case.can_run(options.installed.version, os.getuid() == 0):
                checks.run(case.name, lambda case=case: run_case(case, options, shared))  # type: ignore[misc]
            else:
                print(f"passed over {case.name}: it needs {case.needs()}", flush=True)
    finally:
        shared.close()
