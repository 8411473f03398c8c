"""What an operator's service manager and monitoring ask of a follower."""

from __future__ import annotations

import dataclasses
import subprocess
from pathlib import Path

from ..errors import Failed
from ..feeds import compare_tables
from ..follower import wait_until
from ..place import Place
from .case import Case
from .common import now_in_tables, rows_file

CONFINED = Path(__file__).resolve().parents[2] / "confined"


def confined(place: Place) -> None:
    """Copies, follows, exports, adds a table and ends, by the system calls of its unit alone."""
    place.options = dataclasses.replace(place.options, connect=CONFINED)
    place.stock()
    child = place.start("--create", "--tables", str(rows_file(place)))
    place.catch_up(child)
    place.change()
    now_in_tables(place)
    compare_tables(place.cluster, rows_file(place), "pgsub", database=place.database)
    place.subcommand(
        "export", "--store", str(place.store), "--into", str(place.folder / "export.db")
    )
    place.subcommand("add", "--dsn", place.dsn(), "--store", str(place.store), "--table", "stock")
    place.subcommand("verify", "--dsn", place.dsn(), "--store", str(place.store))
    place.change()
    place.catch_up(child)
    child.stop()
    place.equal()


def measured(place: Place) -> None:
    """Its metrics are as promtool wants them, also with a reader of the feed."""
    place.stock()
    metrics = place.folder / "metrics"
    child = place.start(
        "--create", "--tables", str(rows_file(place)), "--metrics-file", str(metrics)
    )
    place.catch_up(child)
    wait_until(
        lambda: metrics.exists() and "pgsub_reader_lag_bytes{" in metrics.read_text(),
        "telling of readers",
        60,
        child.check,
    )
    ran = subprocess.run(
        ["promtool", "check", "metrics"],
        input=metrics.read_text(),
        capture_output=True,
        text=True,
        check=False,
    )
    if ran.returncode or ran.stderr:
        raise Failed(f"promtool: status {ran.returncode}: {ran.stdout}{ran.stderr}")
    child.stop()


CASES = (Case("system-calls-of-the-unit", confined), Case("metrics-of-prometheus", measured))
