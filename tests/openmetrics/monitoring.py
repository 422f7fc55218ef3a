"""Checks the metrics with promtool, and with a Prometheus that loads them, if these programs are
installed.
"""
from __future__ import annotations

import contextlib
import json
import os
import shutil
import socket
import subprocess
import tempfile
import time
import urllib.error
import urllib.parse
import urllib.request
from decimal import Decimal
from typing import Any, Iterator

from harness import must, must_be
from shared.outputs import run, story

from .exposition import Exposition
from .values import ODD, ODD_TRACE, OPENMETRICS, START

PACKAGE = "Debian's package prometheus"
PATIENCE = 60


def is_there(program: str, what: str) -> bool:
    """Returns whether a program is installed. If not, prints that the check is skipped."""
    if shutil.which(program):
        return True
    print(f"{program} isn't installed ({PACKAGE}): {what} is skipped")
    return False


def check_promtool_finds_nothing(program: str) -> None:
    """`promtool check metrics` reports nothing. It parses only the older text format."""
    if not is_there("promtool", "its view of the metrics"):
        return
    text = run(
        [OPENMETRICS, "--start", START, "--format=prometheus", "--rules=examples/runaway.json"],
        story(program),
    )
    done = subprocess.run(["promtool", "check", "metrics"], input=text, capture_output=True)
    must_be("what promtool says", (done.returncode, done.stdout + done.stderr), (0, b""))


def free_port() -> int:
    with socket.socket() as any_port:
        any_port.bind(("127.0.0.1", 0))
        return int(any_port.getsockname()[1])


def answer_of(url: str) -> Any:
    """Returns a server's answer, or None if the server doesn't answer yet."""
    try:
        with urllib.request.urlopen(url, timeout=PATIENCE) as answer:
            return json.load(answer) if "/api/" in url else answer.read()
    except (urllib.error.URLError, ConnectionError):
        return None


@contextlib.contextmanager
def prometheus(data: str) -> Iterator[str]:
    """Yields the address of a Prometheus server that uses this data folder and scrapes nothing."""
    with open(f"{data}/empty.yml", "wb"):
        pass
    address = f"127.0.0.1:{free_port()}"
    words = [
        f"--storage.tsdb.path={data}", "--storage.tsdb.retention.time=100y",
        f"--config.file={data}/empty.yml",
    ]
    with open(f"{data}/log", "wb") as log:
        server = subprocess.Popen(
            ["prometheus", f"--web.listen-address={address}", *words], stdout=log, stderr=log
        )
    try:
        until = time.monotonic() + PATIENCE
        while answer_of(f"http://{address}/-/ready") is None:
            must(server.poll() is None and time.monotonic() < until,
                 f"a Prometheus is ready: {tail_of(data)}")
            time.sleep(0.1)
        yield f"http://{address}"
    finally:
        server.terminate()
        server.wait()


def tail_of(data: str) -> str:
    with open(f"{data}/log", encoding="utf-8") as log:
        return log.read()[-300:]


def asked(address: str, query: str, time_s: Decimal) -> Any:
    """Returns the result of a query at `time_s` (s since 1970)."""
    words = urllib.parse.urlencode({"query": query, "time": str(time_s)})
    answer = answer_of(f"{address}/api/v1/query?{words}")
    must(bool(answer) and answer["status"] == "success", f"{query} is answered: {answer}")
    return answer["data"]["result"]


def compare(address: str, name: str, wanted: Exposition, end: Decimal) -> None:
    """Raises unless Prometheus returns exactly the points that the family `name` has in `wanted`.
    `end` is the time (s since 1970) of the last point. Times may differ by at most 1 ms.
    """
    metrics = wanted.families[name].metrics
    found = asked(address, f"{name}_total[1h]", end + 1)
    must_be(f"metrics of {name}", len(found), len(metrics))
    for series in found:
        labels = {label: value for label, value in series["metric"].items() if label != "__name__"}
        points = metrics[frozenset(labels.items())]
        must_be(f"points of {labels}, how many", len(series["values"]), len(points))
        for (at, value), (time_s, number) in zip(series["values"], points):
            is_near = (
                abs(Decimal(str(at)) - time_s) <= Decimal("0.001") and Decimal(value) == number
            )
            must(is_near, f"{name} {labels} at {time_s}: {value} at {at}, not {number}")


def loaded(text: bytes, data: str) -> Exposition:
    """Imports the text into Prometheus's data folder, and returns the parsed text."""
    with open(f"{data}/text", "wb") as file:
        file.write(text)
    os.mkdir(f"{data}/blocks")
    run(["promtool", "tsdb", "create-blocks-from", "openmetrics", f"{data}/text", f"{data}/blocks"])
    return Exposition(text.decode())


def check_prometheus_has_each_point(program: str) -> None:
    if not (
        is_there("promtool", "import into a Prometheus")
        and is_there("prometheus", "import into a Prometheus")
    ):
        return
    words = [
        OPENMETRICS, "--start", START, "--rules=examples/runaway.json",
        "--label=instance=web-7:9100",
    ]
    with tempfile.TemporaryDirectory() as data:
        wanted = loaded(run(words, story(program)), data)
        last = wanted.points(
            "node_pressure_memory_waiting_seconds_total", instance="web-7:9100"
        )[-1][0]
        with prometheus(f"{data}/blocks") as address:
            for name in wanted.families:
                compare(address, name, wanted, last)
            kill = asked(address, "sum by (id) (increase(psi_oomd_kills_total[10m])) > 0", last)
            must_be("whose kills a graph shows", [it["metric"] for it in kill],
                    [{"id": "/batch/import"}])
            share = asked(address,
                          'rate(container_pressure_memory_waiting_seconds_total{id="/batch"}[1m])',
                          last - 100)
            must(len(share) == 1 and 0.5 < float(share[0]["value"][1]) < 1,
                 f"{share} is the share of a minute at 200 s")


def check_prometheus_takes_odd_paths(program: str) -> None:
    if not (
        is_there("promtool", "odd paths in a Prometheus")
        and is_there("prometheus", "odd paths in a Prometheus")
    ):
        return
    printed = run([program, "replay", "-", "--report-s", "1"], ODD_TRACE.encode())
    with tempfile.TemporaryDirectory() as data:
        wanted = loaded(run([OPENMETRICS, "--start", START, r'--label=a="\n'], printed), data)
        points = wanted.points("container_pressure_io_waiting_seconds_total", id=ODD, a=r'"\n')
        with prometheus(f"{data}/blocks") as address:
            for name in wanted.families:
                compare(address, name, wanted, points[-1][0])
