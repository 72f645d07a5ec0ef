"""What a report is due to: which map lends the byte, since when, and what is missing."""

from __future__ import annotations

from collections.abc import Callable

from model.answers import Entry, Report
from model.iommu import loads_of
from model.lending import part, read_bytes
from model.loads import find_run
from model.rings import DESCRIPTOR, Descriptor
from model.scenario import PAGE, CpuAccess, DevAccess, Load, MemoryRun, OnRing, Place, RawAccess, RingPost, Step, Sync, VirtualRun
from model.segments import Extent
from model.sends import cluster_runs
from model.state import Driver, LoadState, Map, MapState, Ring, find_extents

from .history import History, bytes_in_words, is_mixed, ops_in_words
from .words import count, listed, some

Facts = list[str]


def facts_of_report(history: History, driver: Driver, entry: Entry, report: Report) -> Facts:
    """Returns what a report is due to."""
    return JUDGES[report.name](history, driver, entry, report)


# Objects that are not there


def absent(history: History, driver: Driver, entry: Entry, report: Report) -> Facts:
    """Returns which object is not there, and why."""
    asked = history.asked(entry)
    facts: Facts = []
    for name in absent_names(driver, entry, asked):
        made = history.named.get((driver.number, name), [])
        ended = [each for each in made[1:] if each.answer.text() == "ok"]
        if ended:
            facts.append(f"{name} was ended by {history.since(ended[-1])}")
        elif made:
            facts.append(f"{name} does not exist, because its making was refused: {history.since(made[0])} answered "
                         f"{made[0].answer.text()}")
        else:
            facts.append(f"{name} was not made before this entry")
    return facts


def absent_names(driver: Driver, entry: Entry, asked: Step | None) -> list[str]:
    """Returns the names of an operation that name nothing now."""
    if isinstance(asked, (RingPost, OnRing)):
        if asked.ring not in driver.rings:
            return [asked.ring]
        memory = driver.rings[asked.ring].memory
        if memory not in driver.memories:
            return [memory]
    names: list[str] = []
    if isinstance(asked, Load):
        names = [run.mem for run in asked.runs if isinstance(run, MemoryRun) and run.mem not in driver.memories]
    if isinstance(asked, CpuAccess) and asked.place.mem is not None:
        names.append(asked.place.mem)
    names += [getattr(asked, key) for key in ("parent", "tag") if getattr(asked, key, None) and getattr(asked, key) not in driver.tags]
    names += [getattr(asked, "map")] if hasattr(asked, "map") and getattr(asked, "map") not in driver.maps else []
    names += [getattr(asked, "mem")] if hasattr(asked, "mem") and getattr(asked, "mem") not in driver.memories else []
    return list(dict.fromkeys(names))


def map_busy(history: History, driver: Driver, entry: Entry, report: Report) -> Facts:
    """Returns what a map is busy with."""
    return [doing(history, driver, getattr(history.asked(entry), "map"))]


def doing(history: History, driver: Driver, name: str) -> str:
    """Returns what a map is doing, since when, and what it did before."""
    map_ = driver.maps[name]
    story = history.story(driver, name)
    if map_.state is MapState.LOADED and story is not None:
        return f"map {name} is loaded since {history.since(story.callback or story.entry)}, and no unload has ended that"
    if map_.state is MapState.WAITING and story is not None:
        return f"the load of map {name} by {history.since(story.entry)} still waits for bounce pages"
    if map_.state is MapState.RETURNING:
        return f"map {name} gives its pages back since {history.since(history.returns[driver.number, name])}"
    tried = history.tried.get((driver.number, name))
    if tried is None:
        return f"map {name} has never been loaded"
    if story is not None and story.ended is not None and story.ended.number > tried.number:
        return f"map {name} was unloaded by {history.since(story.ended)}"
    return f"the last load of map {name} was refused: {history.since(tried)} answered {tried.answer.text()}"


def not_loaded(history: History, driver: Driver, entry: Entry, report: Report) -> Facts:
    """Returns why a map is not loaded."""
    asked = history.asked(entry)
    name = getattr(asked, "map", None)
    if name is None or entry.done.startswith("ring_step "):
        ring = driver.rings[entry.done.split(" ")[1]]
        return [f"the device reads the descriptors of ring {ring.name} through the load of its memory's map, {ring.memory}",
                doing(history, driver, ring.memory)]
    facts = [doing(history, driver, name)]
    map_ = driver.maps[name]
    if "was refused" in facts[0]:
        facts.append("this follows from that answer: mend the load first")
    if map_.state is MapState.WAITING and entry.actor[0] == "s":
        facts.append("put this sync into the `then` of the load, or `await` the map before it")
    if map_.state is MapState.IDLE and entry.actor[0] == "d" and "unloaded" in facts[0]:
        facts.append(f"this item was still queued then: `await` {name} before the unload")
    return facts


def not_deferred(history: History, driver: Driver, entry: Entry, report: Report) -> Facts:
    """Returns why no callback of a map can come."""
    name = getattr(history.asked(entry), "map")
    tried = history.tried.get((driver.number, name))
    if tried is None:
        return [f"no load of map {name} was made before this `await`"]
    return [f"its load was reported: {history.since(tried)} answered {tried.answer.text()}; mend that first"]


# Places


def place_of(driver: Driver, place: Place) -> int:
    """Returns the virtual address of a place."""
    if place.va is not None:
        return place.va
    return driver.memories[place.mem or ""].virtual_address() + place.off


def reach_in_words(driver: Driver) -> str:
    """Returns which virtual addresses a driver reaches."""
    runs = [f"{pages.va:#x} to {pages.va + PAGE * pages.count - 1:#x}" for pages in driver.plan.pages]
    runs += [f"memory {each.name} at {each.virtual_address():#x} ({count(each.length, 'byte')})" for each in driver.memories.values()]
    return f"driver {driver.number} reaches {some(runs, 6) or 'nothing'}"


def unmapped(history: History, driver: Driver, entry: Entry, report: Report) -> Facts:
    """Returns which byte is not reached."""
    asked = history.asked(entry)
    if isinstance(asked, CpuAccess):
        address = place_of(driver, asked.place) + report.offset
        return [f"byte {report.offset} of the access is at virtual address {address:#x}", reach_in_words(driver)]
    assert isinstance(asked, Load)
    runs = cluster_runs(asked) if entry.done.startswith("resend ") else asked.runs
    what = "clusters" if entry.done.startswith("resend ") else "load"
    position = 0
    for number, run in enumerate(runs):
        if position <= report.offset < position + run.len:
            part_said = f" (in entry {number}, from its byte {report.offset - position} on)" if len(runs) > 1 else ""
            if isinstance(run, VirtualRun):
                address = run.va + report.offset - position
                return [f"byte {report.offset} of the {what} is at virtual address {address:#x}{part_said}", reach_in_words(driver)]
            if isinstance(run, MemoryRun):
                memory = driver.memories[run.mem]
                return [f"the load has {count(run.len, 'byte')}, and memory {run.mem} has {count(memory.length, 'byte')}"]
            room = PAGE * len(run.frames) - run.off
            return [f"{count(len(run.frames), 'frame')} from byte {run.off} on {'has' if len(run.frames) == 1 else 'have'} {count(max(0, room), 'byte')}, and the bio "
                    f"names {run.len}"]
        position += run.len
    return [reach_in_words(driver)]


def load_extents(driver: Driver, entry: Entry, asked: Load) -> list[Extent]:
    """Returns the bytes that a load names, as far as they are reached."""
    extents: list[Extent] = []
    position = 0
    for run in cluster_runs(asked) if entry.done.startswith("resend ") else asked.runs:
        extents += find_run(driver, run, position)[0]
        position += run.len
    return extents


def foreign_memory(history: History, driver: Driver, entry: Entry, report: Report) -> Facts:
    """Returns whose memory a byte is, and by which map it is loaded."""
    asked = history.asked(entry)
    assert isinstance(asked, Load)
    map_ = driver.maps[asked.map]
    found = part(load_extents(driver, entry, asked), report.offset, 1)
    owner = driver.memory_of_frame.get(found[0].address // PAGE) if found else None
    whose = f"byte {report.offset} is in memory {owner}" if owner is not None else f"byte {report.offset} is in the driver's own pages"
    if map_.memory is None:
        return [whose, f"{map_.name} is a map that `map` made; memory {owner} is loaded by its own map, which is named {owner}"]
    return [whose, f"{map_.name} is the map of memory {map_.name}, so byte {report.offset} of its load must be byte "
                   f"{report.offset} of that memory"]


def past_end(history: History, driver: Driver, entry: Entry, report: Report) -> Facts:
    """Returns how long the load is, and what went past its end."""
    asked = history.asked(entry)
    if entry.done.startswith("ring_step "):
        ring = driver.rings[entry.done.split(" ")[1]]
        load = driver.maps[ring.memory].load
        size = load.length() if load is not None else 0
        return [f"the descriptor of slot {ring.head} has the bytes {DESCRIPTOR * ring.head} to {DESCRIPTOR * ring.head + 15} of "
                f"memory {ring.memory}, which is loaded for {count(size, 'byte')} only: load all {DESCRIPTOR * ring.slots}"]
    off, length, name = getattr(asked, "off", 0), getattr(asked, "len", 0), getattr(asked, "map")
    load = driver.maps[name].load
    story = history.story(driver, name)
    size = load.length() if load is not None else 0
    since = f", by {history.since(story.entry)}" if story is not None else ""
    return [f"the load of map {name} has {count(size, 'byte')}{since}; bytes {off} to {off + length - 1} were asked for"]


# Lending


def lent_by(history: History, driver: Driver, address: int, ways: tuple[str, ...]) -> Facts:
    """Returns which maps lend a byte, for what, and since when."""
    facts: Facts = []
    for map_ in driver.maps.values():
        load = map_.load
        if load is None or map_.state is not MapState.LOADED:
            continue
        for way in ways:
            lent = load.bytes_lent_to_read if way == "to read" else load.bytes_lent_to_write
            if lent.within(address, address + 1):
                first = history.first_loan_of_byte(load, address, way)
                post = "POSTWRITE" if way == "to read" else "POSTREAD"
                since = f", since {history.since(first)}" if first is not None else ""
                facts.append(f"map {map_.name} lends this byte to the device {way}{since}; a sync of {map_.name} with {post} ends that")
                queued = next((item for item in driver.transfers if isinstance(item, Sync) and item.map == map_.name
                               and post in ops_in_words(item)), None)
                if queued is not None:
                    facts.append(f"the {post} of {queued.path} ({history.source.where(queued.path)}) is still queued: `await` "
                                 f"{map_.name} before this entry")
    return facts


def access_extents(history: History, driver: Driver, entry: Entry) -> tuple[list[Extent], Map | None, LoadState | None]:
    """Returns the bytes of an access of a map's load or of the driver, from offset 0 on."""
    asked = history.asked(entry)
    if entry.done.startswith("ring_step "):
        return ring_access(history, driver, entry)
    if isinstance(asked, CpuAccess):
        return find_extents(driver, place_of(driver, asked.place), asked.len)[0], None, None
    if isinstance(asked, Load):
        return chain_extents(driver, asked), None, None
    if isinstance(asked, DevAccess):
        map_ = driver.maps[asked.map]
        load = map_.load
        assert load is not None
        return moved(part(load.extents, asked.off, asked.len), asked.off), map_, load
    return [], None, None


def chain_extents(driver: Driver, asked: Load) -> list[Extent]:
    """Returns the bytes of the chain of a send."""
    extents: list[Extent] = []
    position = 0
    for run in asked.runs:
        extents += find_run(driver, run, position)[0]
        position += run.len
    return extents


def moved(extents: list[Extent], off: int) -> list[Extent]:
    """Returns extents whose positions count from an offset on."""
    return [Extent(each.position - off, each.address, each.length) for each in extents]


def ring_access(history: History, driver: Driver, entry: Entry) -> tuple[list[Extent], Map | None, LoadState | None]:
    """Returns the bytes that the descriptor at the head of a ring names, by the first candidate."""
    ring = driver.rings[entry.done.split(" ")[1]]
    descriptor = read_head(history, driver, ring)
    address, length = descriptor.address, descriptor.length
    for map_ in driver.maps.values():
        load = map_.load
        if load is None or map_.state is not MapState.LOADED or map_.name == ring.memory or map_.tag.is_iommu:
            continue
        position = 0
        for segment in load.segments:
            if segment.address <= address and address + length <= segment.address + segment.length:
                off = position + address - segment.address
                return moved(part(load.extents, off, length), off), map_, load
            position += segment.length
    return [], None, None


def read_head(history: History, driver: Driver, ring: Ring) -> Descriptor:
    """Reads the descriptor at the head of a ring."""
    begin = driver.memories[ring.memory].address + DESCRIPTOR * ring.head
    extents = [Extent(0, begin, DESCRIPTOR)]
    return Descriptor.of(read_bytes(history.world.machine, extents))


def address_of(extents: list[Extent], offset: int) -> int | None:
    """Returns the address of the byte at an offset."""
    found = part(extents, offset, 1)
    return found[0].address if found else None


def cpu_lent(history: History, driver: Driver, entry: Entry, report: Report) -> Facts:
    """Returns who lends the byte that the driver reads or writes."""
    asked = history.asked(entry)
    if isinstance(asked, Load) and report.name == "CpuWriteLent":
        extents = load_extents(driver, entry, asked)
    else:
        extents = access_extents(history, driver, entry)[0]
    address = address_of(extents, report.offset)
    ways = ("to write",) if report.name == "CpuReadLent" else ("to read", "to write")
    if address is None:
        return []
    facts = lent_by(history, driver, address, ways)
    if isinstance(asked, CpuAccess) and report.name == "CpuWriteLent" and lent_by(history, driver, address, ("to read",)):
        facts.append("this transfer sends what was in the buffer before its PREWRITE: if it is to send these bytes, move this write "
                     "before that sync; if they are for a later transfer, move the POSTWRITE, or the `await` for it, before this write")
    return facts


def unlent(history: History, driver: Driver, entry: Entry, report: Report) -> Facts:
    """Returns why a byte is not lent to the device."""
    way, pre, post = ("to read", "PREWRITE", "POSTWRITE") if report.name == "DeviceReadUnlent" else ("to write", "PREREAD", "POSTREAD")
    asked = history.asked(entry)
    facts: Facts = []
    if isinstance(asked, RawAccess):
        return raw_unlent(history, driver, asked, report, way, pre)
    if entry.done.startswith("ring_step "):
        descriptor = read_head(history, driver, driver.rings[entry.done.split(" ")[1]])
        _, map_, load = access_extents(history, driver, entry)
        if map_ is None or load is None:
            return []
        position = report.offset + position_of(load, descriptor.address)
        facts = [f"the descriptor names {descriptor.address:#x}+{descriptor.length}, which is in the load of map {map_.name}"]
        return facts + why_unlent(history, driver, map_.name, load, position, way, pre, post)
    assert isinstance(asked, DevAccess)
    load = driver.maps[asked.map].load
    assert load is not None
    return why_unlent(history, driver, asked.map, load, asked.off + report.offset, way, pre, post)


def position_of(load: LoadState, address: int) -> int:
    """Returns the position of a bus address in a load."""
    position = 0
    for segment in load.segments:
        if segment.address <= address < segment.address + segment.length:
            return position + address - segment.address
        position += segment.length
    return 0


def why_unlent(
    history: History, driver: Driver, name: str, load: LoadState, position: int, way: str, pre: str, post: str
) -> Facts:
    """Returns why a position of a load is not lent in a way: the sync is missing, too late, or was ended too soon."""
    story = history.story(driver, name)
    facts: Facts = []
    for entry, sync in reversed(story.syncs if story is not None else []):
        length = sync.len if sync.len is not None else load.length()
        covers = sync.off <= position < sync.off + length
        ops = ops_in_words(sync)
        if covers and post in ops:
            facts.append(f"byte {position} of {name}'s load was lent {way}, until {history.since(entry)} ended that with {post}: "
                         "that sync came before the device was done")
            break
        if not covers and pre in ops:
            facts.append(f"{history.since(entry)} made {pre} for bytes {sync.off} to {sync.off + length - 1} only")
            break
    else:
        began = f", which began with {history.since(story.entry)}" if story is not None else ""
        facts.append(f"no {pre} was made for byte {position} of map {name}'s load{began}: make a sync of {name} with {pre} before the "
                     f"device is started, and one with {post} when it is done")
    other = load.lent_to_write if way == "to read" else load.lent_to_read
    if other.within(position, position + 1):
        opposite = "write (PREREAD)" if way == "to read" else "read (PREWRITE)"
        facts.append(f"the byte is lent to {opposite}: is it the wrong direction? READ and WRITE are meant from the processor, "
                     f"so a device that {'reads' if way == 'to read' else 'writes'} needs {pre}")
    later = next((item for item in driver.transfers if isinstance(item, Sync) and item.map == name
                  and pre in ops_in_words(item) and not is_mixed(item)), None)
    if later is not None:
        facts.append(f"the {pre} of {later.path} ({history.source.where(later.path)}) comes only after this: put it before")
    return facts


def raw_unlent(history: History, driver: Driver, asked: RawAccess, report: Report, way: str, pre: str) -> Facts:
    """Returns why a byte at a device address is not lent."""
    address = asked.addr + report.offset
    for map_, load, (first, size) in loads_of(driver, driver.tags[asked.tag]):
        if not first <= address // PAGE < first + size:
            continue
        if not any(each.address <= address < each.address + each.length for each in load.segments):
            shown = some([each.text() for each in load.segments])
            return [f"device address {address:#x} is in a page of map {map_.name}'s load, but beside its bytes, which are {shown}"]
        position = position_of(load, address)
        post = "POSTWRITE" if way == "to read" else "POSTREAD"
        return [f"device address {address:#x} is byte {position} of the load of map {map_.name}",
                *why_unlent(history, driver, map_.name, load, position, way, pre, post)]
    return []


def stale(history: History, driver: Driver, entry: Entry, report: Report) -> Facts:
    """Returns since when a byte is not known, and why."""
    asked = history.asked(entry)
    if entry.done.startswith("ring_step "):
        ring = driver.rings[entry.done.split(" ")[1]]
        memory = driver.memories[ring.memory]
        begin = memory.address + DESCRIPTOR * ring.head
        address: int | None = begin + report.offset
        if report.offset >= DESCRIPTOR or not driver.unknown.within(begin, begin + DESCRIPTOR):
            address = address_of(access_extents(history, driver, entry)[0], report.offset)
    elif isinstance(asked, RawAccess):
        address = raw_address(driver, asked, report.offset)
    else:
        address = address_of(access_extents(history, driver, entry)[0], report.offset)
    found = history.unknown_since(driver, address) if address is not None else None
    if found is None:
        return [f"byte {report.offset} of the access was never written"]
    facts = [f"byte {report.offset} of the access is not known since {history.since(found.entry)}: {found.why}"]
    if "PREREAD" in found.why:
        facts.append(what_was_written(history, driver, found.entry))
        facts.append("the device may have written fewer bytes than the driver reads, or none")
    if "unloaded" in found.why:
        facts.append("a sync with POSTREAD before that unload would have kept the bytes")
    return facts


def what_was_written(history: History, driver: Driver, lent: Entry) -> str:
    """Returns which bytes the device has written since an entry lent them."""
    name = lent.done.split(" ")[1]
    story = history.story(driver, name)
    if story is None or not story.written:
        return f"the device has written no byte by map {name} since its load"
    return f"the device has written {bytes_in_words(story.written)} of map {name}'s load"


def raw_address(driver: Driver, asked: RawAccess, offset: int) -> int | None:
    """Returns the physical address of a byte of a raw access."""
    for _, load, _ in loads_of(driver, driver.tags[asked.tag]):
        for segment in load.segments:
            if segment.address <= asked.addr + offset < segment.address + segment.length:
                return address_of(load.extents, position_of(load, asked.addr + offset))
    return None


def untranslated(history: History, driver: Driver, entry: Entry, report: Report) -> Facts:
    """Returns which addresses have a load now, and which load had this one."""
    asked = history.asked(entry)
    if entry.done.startswith("ring_step "):
        descriptor = read_head(history, driver, driver.rings[entry.done.split(" ")[1]])
        address, length = descriptor.address, descriptor.length
        facts = [f"the descriptor of slot {driver.rings[entry.done.split(' ')[1]].head} names {address:#x}+{length}"]
        now = [f"{each.name}: {some([segment.text() for segment in each.load.segments])}" for each in driver.maps.values()
               if each.load is not None and each.state is MapState.LOADED and not each.tag.is_iommu]
    else:
        assert isinstance(asked, RawAccess)
        address, length = asked.addr + report.offset, 1
        facts = [f"device address {address:#x} is in no load of tag {asked.tag} now"]
        now = [f"{map_.name}: {some([segment.text() for segment in load.segments])}"
               for map_, load, _ in loads_of(driver, driver.tags[asked.tag])]
    for key, stories in history.stories.items():
        for story in reversed(stories) if key[0] == driver.number else []:
            hit = any(each.address <= address < each.address + each.length for each in story.state.segments)
            if hit and story.ended is not None:
                facts.append(f"it was in the load of map {story.map}, which {history.since(story.ended)} ended: that came too early")
                return facts
    return [*facts, f"loaded now are {listed(now)}" if now else "nothing is loaded now"]


# Syncs


def sync_order(history: History, driver: Driver, entry: Entry, report: Report) -> Facts:
    """Returns which operation of a sync is out of order, and what went before."""
    asked = history.asked(entry)
    assert isinstance(asked, Sync)
    load = driver.maps[asked.map].load
    story = history.story(driver, asked.map)
    assert load is not None and story is not None
    if report.cause.get("op") == "PREWRITE":
        first = history.first_lent(load, report.offset, "to write")
        since = f" since {history.since(first)}" if first is not None else ""
        return [f"PREWRITE of byte {report.offset}, which map {asked.map} lends to write{since}: end that by POSTREAD first, "
                "or give PREREAD and PREWRITE in one call"]
    facts = [f"POSTREAD of byte {report.offset}, which map {asked.map} does not lend to write"]
    for before, sync in reversed(story.syncs):
        if "POSTREAD" in ops_in_words(sync):
            return [*facts, f"{history.since(before)} has made POSTREAD already"]
        if "PREREAD" in ops_in_words(sync):
            return [*facts, f"{history.since(before)} made PREREAD, but not of this byte"]
    facts.append(f"no PREREAD was made since the load, {history.since(story.entry)}")
    if load.lent_to_read.within(report.offset, report.offset + 1):
        facts.append("the byte is lent to read (PREWRITE): POSTWRITE ends that")
    return facts


def mixed_sync(history: History, driver: Driver, entry: Entry, report: Report) -> Facts:
    """Returns which operations are mixed."""
    asked = history.asked(entry)
    assert isinstance(asked, Sync)
    ops = ops_in_words(asked)
    pre, post = [op for op in ops if op.startswith("PRE")], [op for op in ops if op.startswith("POST")]
    return [f"{listed(pre)} and {listed(post)} are in one call: first end what was lent, with {listed(post)}, then lend anew, "
            f"with {listed(pre)}, each in a call of its own"]


def overlap(history: History, driver: Driver, entry: Entry, report: Report) -> Facts:
    """Returns which other map lends the byte."""
    asked = history.asked(entry)
    assert isinstance(asked, Sync)
    load = driver.maps[asked.map].load
    assert load is not None
    holder = report.cause.get("holder")
    if holder == asked.map:
        return [f"byte {report.offset} is at two positions of the load of map {asked.map}: its entries overlap"]
    address = address_of(load.extents, report.offset)
    facts = [f"{report.cause.get('op')} of byte {report.offset} of map {asked.map}'s load"]
    return facts + (lent_by(history, driver, address, ("to read", "to write")) if address is not None else [])


Judge = Callable[[History, Driver, Entry, Report], Facts]
JUDGES: dict[str, Judge] = {
    "Absent": absent,
    "Unmapped": unmapped,
    "MapBusy": map_busy,
    "NotLoaded": not_loaded,
    "PastEnd": past_end,
    "DeviceReadUnlent": unlent,
    "DeviceWriteUnlent": unlent,
    "CpuReadLent": cpu_lent,
    "CpuWriteLent": cpu_lent,
    "StaleByte": stale,
    "SyncOrder": sync_order,
    "MixedSync": mixed_sync,
    "Overlap": overlap,
    "NotDeferred": not_deferred,
    "ForeignMemory": foreign_memory,
    "Untranslated": untranslated,
}
