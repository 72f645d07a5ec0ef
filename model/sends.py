"""Sends: the load of a chain that is gathered into clusters and loaded again where it has too many segments."""

from __future__ import annotations

from dataclasses import replace

from .answers import Answer, Refused, end_with
from .lending import cpu_read_report, cpu_write_report, read_bytes, write_bytes
from .loads import begin_load, find_entries, load
from .scenario import PAGE, Load, LoadedRun, VirtualRun
from .state import Driver, Machine


def send(machine: Machine, driver: Driver, asked: Load) -> Answer:
    """Loads the chain; where it has too many segments and the clusters are enough, a resend is due."""
    answer = load(machine, driver, asked)
    if isinstance(answer, Refused) and answer.errno == "EFBIG" and PAGE * len(asked.clusters) >= asked.length():
        driver.resend = replace(asked, word="resend")
    return answer


def cluster_runs(asked: Load) -> tuple[LoadedRun, ...]:
    """Returns the bytes of the clusters: as many as the entries have."""
    runs: list[LoadedRun] = []
    left = asked.length()
    for cluster in asked.clusters:
        if left > 0:
            runs.append(VirtualRun(cluster, min(left, PAGE)))
            left -= min(left, PAGE)
    return tuple(runs)


def resend(machine: Machine, driver: Driver, asked: Load) -> Answer:
    """Copies the chain to the clusters, and loads these; the load never waits."""
    driver.resend = None
    map_ = driver.maps[asked.map]
    clusters = find_entries(driver, map_, cluster_runs(asked))
    chain = find_entries(driver, map_, asked.runs)
    chain_extents = [extent for entry in chain for extent in entry.extents]
    cluster_extents = [extent for entry in clusters for extent in entry.extents]
    end_with(cpu_read_report(driver, chain_extents) or cpu_write_report(driver, cluster_extents))
    write_bytes(machine, driver, cluster_extents, read_bytes(machine, chain_extents))
    return begin_load(machine, driver, map_, asked, clusters, may_wait=False)
