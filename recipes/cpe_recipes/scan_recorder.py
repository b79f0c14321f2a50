"""Records a scan from a store for the next one (earlier_scans.py), with the changes since the one before."""
from __future__ import annotations

from collections.abc import Iterator, Mapping, Sequence
from dataclasses import dataclass, replace
from pathlib import Path

from . import changes, names, verdicts
from .cases import FeedData
from .console import Messages, NoMessages
from .difference import key_of_lead, leads_of_machine, parts_of
from .earlier_scans import (
    MOST_CHANGES,
    EarlierMachine,
    EarlierScan,
    EarlierScans,
    EarlierVerdict,
    Key,
    ScanBasis,
    current_time,
)
from .item_names import ItemName
from .leads import Leads
from .name_finder import NameFinder
from .near_products import Product
from .outcome import MachineOutcome, OutcomeReasons, deciding_items
from .verdicts import Verdicts


@dataclass(frozen=True)
class ScanState:
    """The state of a scan after its decisions: where names lead, which names the items have, the outcomes of the
    machines, and the places of the plain advisories."""

    feed_data: FeedData
    leads: Leads
    name_finder: NameFinder
    successors: Mapping[Product, list[Product]]
    outcomes: Sequence[MachineOutcome]
    verdict_reasons: OutcomeReasons
    placed: Mapping[str, int]
    is_whole: bool


class ScanRecorder:
    """Records the result of a scan beside the store."""

    def __init__(self, folder: str, basis: ScanBasis, machines: Sequence[str]) -> None:
        self._fleets, self._basis = EarlierScans(folder), basis
        self._path: Path | None = None
        self.earlier: EarlierScan | None = None
        found = self._fleets.of(basis.checksum, machines)
        if found is not None:
            self._path, self.earlier = found

    def fleet(self, scan_state: ScanState, machines: Sequence[verdicts.Machine], after: Verdicts) -> EarlierScan:
        """The record of a scan, with the changes since the one before. The machines aren't settled yet."""
        fleet = EarlierScan(
            self._basis,
            current_time(),
            is_whole=scan_state.is_whole,
            advisories=list(scan_state.feed_data.ids.advisories),
        )
        asked = {name for one in scan_state.outcomes for name in one.machine.asked_names()}
        fleet.leads.refused = {name: why for name, why in scan_state.leads.refused.items() if name in asked}
        fleet.leads.found = {name: lead for name, lead in scan_state.leads.found.items() if name in asked}
        products = {names.product_of(lead.name) for lead in fleet.leads.found.values()}
        fleet.successors = {product: others for product, others in scan_state.successors.items() if product in products}
        for one, machine in zip(scan_state.outcomes, machines):
            fleet.machines[one.machine.name] = self._earlier_machine(one, machine, scan_state, fleet.item_names)
        fleet.changes = self._changes(fleet, after)
        return fleet

    def put(self, fleet: EarlierScan, messages: Messages) -> None:
        """Keeps the record. It replaces the one before if that has mostly the same machines."""
        self._fleets.put(fleet, self._path if self._is_same(fleet) else None, messages)

    def _is_same(self, fleet: EarlierScan) -> bool:
        before = self.earlier.machines if self.earlier is not None else {}
        return 2 * len(before.keys() & fleet.machines.keys()) > len(before)

    def _earlier_machine(
        self,
        one: MachineOutcome,
        machine: verdicts.Machine,
        scan_state: ScanState,
        item_names: dict[Key, tuple[ItemName, ...]],
    ) -> EarlierMachine:
        leads = leads_of_machine(scan_state.leads, one.machine)
        keys = list(map(key_of_lead, leads))
        item_names.update(
            (key, scan_state.name_finder.of(lead)) for key, lead in zip(keys, leads) if key not in item_names
        )
        rows = list(_rows(one, machine, scan_state)) if machine.has_items else []
        return EarlierMachine(
            keys, parts_of(it for key in dict.fromkeys(keys) for it in item_names[key]), rows, machine.has_items
        )

    def _changes(self, fleet: EarlierScan, after: Verdicts) -> list[Sequence[str]]:
        """The changes that were known of these machines, and those since the scan before."""
        earlier = self.earlier
        if earlier is None:
            return []
        is_same = self._is_same(fleet)
        found = [one for one in earlier.changes if is_same or one[1] in fleet.machines]
        asked = verdicts.Statements.of_advisories(earlier.advisories)
        olds = {
            name: _machine(name, earlier_machine, asked)
            for name, earlier_machine in earlier.machines.items()
            if is_same or name in fleet.machines
        }
        news = {machine.name or "": machine for machine in after.machines}
        for name in {**olds, **news}:
            before = Verdicts([olds[name]] if name in olds else [])
            now_there = replace(after, machines=[news[name]] if name in news else [])
            found += [(fleet.time, name, line) for line in changes.changes(before, now_there, NoMessages())]
        return found[-MOST_CHANGES:]


def _machine(name: str, earlier_machine: EarlierMachine, asked: verdicts.Statements) -> verdicts.Machine:
    shown = {row.id: row.truth for row in earlier_machine.rows if row.truth != "FALSE"}
    return verdicts.Machine(
        name, asked if earlier_machine.has_items else verdicts.Statements([]), shown, earlier_machine.has_items
    )


def _rows(one: MachineOutcome, machine: verdicts.Machine, scan_state: ScanState) -> Iterator[EarlierVerdict]:
    """The verdicts of a machine that aren't FALSE, and those that differ if an item lacks an attribute."""
    verdict_reasons, parts = scan_state.verdict_reasons, scan_state.feed_data.parts
    perhaps = verdict_reasons.perhaps(one, machine)
    for id in dict.fromkeys((*machine.shown, *perhaps, *sorted(machine.perhaps))):
        row = verdict_reasons.row(id, machine.name)
        if row is None:
            truth, place = machine.shown.get(id, "FALSE"), scan_state.placed.get(id, 0) if scan_state.is_whole else 0
            hangs = verdict_reasons.on(id, machine.name) if truth == "UNKNOWN" else ()
            remarks = verdict_reasons.remarks(id, machine.name) if truth == "TRUE" else ()
            items = deciding_items(one, id, truth, parts, verdict_reasons)
            row = EarlierVerdict(id, place, truth, id in machine.perhaps, hangs, remarks, perhaps.get(id, ()), items)
        yield row
