"""What an errno is due to: needs and free pages, who holds them, limits, and segments."""

from __future__ import annotations

from model.answers import Entry, InProgress, PagesAdded, Refused
from model.machine import Bank
from model.scenario import PAGE, Load, MakeMap, MakeRing, MakeTag, RingPost
from model.state import Driver, Machine
from model.tags import LEAST_BOUNDARY, Tag, is_power_of_two
from model.zones import Zone

from .history import History
from .mistakes import doing, read_head
from .words import count, listed, some

Facts = list[str]


def facts_of_refusal(history: History, driver: Driver, entry: Entry) -> Facts:
    """Returns what an errno is due to."""
    answer = entry.answer
    if isinstance(answer, PagesAdded):
        return too_few_frames(history, driver, entry, answer)
    if isinstance(answer, InProgress):
        return waiting(history, driver, entry, answer)
    assert isinstance(answer, Refused)
    judges = {"EINVAL": invalid, "ENOMEM": no_memory, "EFBIG": too_many_segments, "EBUSY": busy}
    return judges[answer.errno](history, driver, entry, answer)


# ENOMEM and EINPROGRESS


def zone_in_words(history: History, zone: Zone) -> str:
    """Returns the pages of a zone, and who holds them."""
    held = history.holders(zone)
    counts = f"zone {zone.number} has {count(zone.total(), 'page')}, of which {zone.free()} are free"
    return f"{counts}; {'; '.join(held[:6])}" if held else counts


def can_it_grow(history: History, zone: Zone, tag: Tag) -> str:
    """Returns whether another map would add pages to a zone, and why not."""
    machine = history.world.machine
    most = most_pages(machine, tag)
    frames = sum(frame <= zone.lowaddr // PAGE for frame in machine.bank.frames)
    if not frames:
        return f"the zone cannot grow: no free frame at or below {zone.lowaddr:#x} is left in the machine"
    if zone.total() >= most:
        limit = f"max_bpages is {machine.max_bpages}"
        if most < machine.max_bpages:
            limit = f"tag {tag.name} allows {most}, because only {most} frames of the machine are above its lowaddr"
        return f"the zone does not grow by more maps: it has {zone.total()} pages, and {limit}"
    return f"the zone can grow: another map of tag {tag.name} would add pages, up to {most} ({count(frames, 'frame')} would serve)"


def most_pages(machine: Machine, tag: Tag) -> int:
    """Returns how many pages maps of a tag may let a zone have."""
    if tag.alignment > 1:
        return machine.max_bpages
    return min(machine.max_bpages, max(0, machine.end_of_memory - tag.lowaddr // PAGE))


def why_it_bounces(tag: Tag) -> str:
    """Returns why loads of a tag need pages."""
    if tag.alignment > 1:
        return f"chunks above lowaddr {tag.lowaddr:#x}, or not aligned to {tag.alignment}, bounce"
    return f"the device does not reach addresses above lowaddr {tag.lowaddr:#x}, so each page of the load above it needs a bounce page"


def waiting(history: History, driver: Driver, entry: Entry, answer: InProgress) -> Facts:
    """Returns what a load waits for."""
    map_ = driver.maps[entry.done.split(" ")[1]]
    assert map_.zone is not None
    zone = history.world.machine.zones[map_.zone]
    facts = [f"the load needs {count(answer.need, 'page')} of zone {zone.number}: {why_it_bounces(map_.tag)}",
             zone_in_words(history, zone)]
    if answer.need > zone.total():
        facts.append(f"it needs more pages than the zone has ({answer.need} of {zone.total()}): it waits for ever")
        facts.append(can_it_grow(history, zone, map_.tag))
    else:
        facts.append(f"it waits until {count(answer.need - answer.have, 'page')} more {'is' if answer.need - answer.have == 1 else 'are'} "
                     "given back by unloads of these maps")
    return facts


def no_memory(history: History, driver: Driver, entry: Entry, answer: Refused) -> Facts:
    """Returns why there is no memory, no device pages, or no bounce pages."""
    cause = answer.cause
    machine = history.world.machine
    need = int(str(cause["need"]))
    if "zone" in cause:
        zone = machine.zones[int(str(cause["zone"]))]
        map_ = driver.maps[entry.done.split(" ")[1]]
        asked = history.asked(entry)
        may_not = "a resend" if entry.done.startswith("resend") else getattr(asked, "word", "a load")
        flag = " has NOWAIT and" if may_not in ("load", "load_vector", "load_bio") else ""
        facts = [f"the load needs {count(need, 'page')} of zone {zone.number}, which has {cause['free']} free, and `{may_not}`{flag} "
                 f"may not wait; {why_it_bounces(map_.tag)}", zone_in_words(history, zone)]
        return [*facts, can_it_grow(history, zone, map_.tag)]
    if entry.done.startswith("dmamem "):
        lowaddr, boundary = int(str(cause["lowaddr"])), int(str(cause["boundary"]))
        frames = [frame for frame in machine.bank.frames if frame <= lowaddr // PAGE]
        crossing = f" whose bytes cross no multiple of {boundary:#x}" if boundary else ""
        return [f"the memory needs {count(need, 'frame')} that follow one another, at or below {lowaddr:#x}{crossing}",
                f"{count(len(frames), 'frame')} at or below it {'is' if len(frames) == 1 else 'are'} free, the longest run has "
                f"{longest_run(frames)}", *frames_taken(history, machine.bank, lowaddr)]
    lowaddr = int(str(cause["lowaddr"]))
    return [f"the load needs {count(need, 'device page')} that follow one another, and the tag's lowaddr is {lowaddr:#x}: device pages "
            f"1 to {lowaddr // PAGE} (page 0 is never taken)", *device_pages(driver, entry)]


def frames_taken(history: History, bank: Bank, lowaddr: int) -> Facts:
    """Returns who has the frames at or below an address."""
    zones = [f"zone {zone.number} has {count(zone.total(), 'frame')}" for zone in history.world.machine.zones if zone.total()]
    memories = [f"memory {each.name} of driver {driver.number} has {count(each.frames, 'frame')}"
                for driver in history.world.drivers for each in driver.memories.values()]
    taken = [*zones, *memories]
    return [f"{some(taken, 6)}; frames of `pages` belong to their drivers for good"] if taken else []


def longest_run(frames: list[int]) -> int:
    """Returns how many frames the longest run has."""
    longest, length = 0, 0
    for place, frame in enumerate(frames):
        length = length + 1 if place and frames[place - 1] == frame - 1 else 1
        longest = max(longest, length)
    return longest


def device_pages(driver: Driver, entry: Entry) -> Facts:
    """Returns which maps of an IOMMU tag have device pages."""
    tag = driver.maps[entry.done.split(" ")[1]].tag
    taken = [
        f"map {each.name} has pages {each.load.device_pages[0]} to {sum(each.load.device_pages) - 1}"
        for each in driver.maps.values()
        if each.tag is tag and each.load is not None and each.load.device_pages is not None
    ]
    return [f"{some(taken, 6)}" if taken else "no other load has device pages of this tag"]


def too_few_frames(history: History, driver: Driver, entry: Entry, answer: PagesAdded) -> Facts:
    """Returns how many frames a first allocation wants, and how many there were."""
    asked = history.asked(entry)
    wanted = int(str(answer.cause["wanted"]))
    zone = history.world.machine.zones[answer.zone]
    tag = driver.tags.get(asked.tag) if isinstance(asked, MakeMap) else None
    facts = [f"it wants {count(wanted, 'page')} for zone {zone.number}, and there were only {count(answer.count, 'free frame')} at or "
             f"below {zone.lowaddr:#x}. These stay in the zone"]
    if tag is not None:
        facts.append(f"the first map of a tag wants the smallest of what max_bpages allows, nsegments ({tag.nsegments}) and "
                     f"maxsize / 4096 ({tag.maxsize // PAGE}): give tag {tag.name} a maxsize and nsegments that fit its loads")
    elif isinstance(asked, MakeTag):
        facts.append(f"ALLOCNOW wants maxsize / 4096 pages at once: maxsize is {asked.maxsize}")
    facts.append(f"another way is to add frames at or below {zone.lowaddr:#x} to `frames` that are in no driver's `pages`")
    return facts + frames_taken(history, history.world.machine.bank, zone.lowaddr)


# EFBIG


def too_many_segments(history: History, driver: Driver, entry: Entry, answer: Refused) -> Facts:
    """Returns how many segments a load would take, and why."""
    segments, most = answer.cause["segments"], answer.cause["nsegments"]
    map_ = driver.maps[entry.done.split(" ")[1]]
    tag = map_.tag
    asked = history.asked(entry)
    facts = [f"the load would take {segments} segments, and nsegments of tag {tag.name} is {most}"]
    limits = [f"maxsegsz {tag.maxsegsz}"] if tag.maxsegsz < 2**32 - 1 else []
    limits += [f"boundary {tag.boundary:#x}"] if tag.boundary else []
    also = f", and where {listed(limits)} {'cuts' if len(limits) == 1 else 'cut'} it" if limits else ""
    facts.append(f"a new segment begins where the next bytes do not follow in the device's addresses{also}")
    returned = sum(name == map_.name for name, _ in driver.returns)
    if returned:
        facts.append(f"it bounced through {count(returned, 'page')} of zone {map_.zone}: bounce pages that are not adjacent are segments "
                     "of their own")
    if isinstance(asked, Load) and len(asked.runs) > 1:
        facts.append(f"it has {len(asked.runs)} entries: those that do not follow one another are segments of their own")
    if isinstance(asked, Load) and asked.word == "send" and driver.resend is None and entry.done.startswith("send"):
        facts.append(f"no resend follows: {count(len(asked.clusters), 'cluster')} "
                     f"{'has' if len(asked.clusters) == 1 else 'have'} {PAGE * len(asked.clusters)} bytes, and the chain {asked.length()}")
    if driver.resend is not None and entry.done.startswith("send"):
        facts.append("a resend follows, which gathers the chain in the clusters")
    return facts


# EINVAL


def invalid(history: History, driver: Driver, entry: Entry, answer: Refused) -> Facts:
    """Returns which limit an operation is outside of."""
    asked = history.asked(entry)
    if entry.done.startswith("ring_step "):
        descriptor = read_head(history, driver, driver.rings[entry.done.split(" ")[1]])
        return [f"the descriptor has kind {descriptor.kind} (1 or 2 can be) and length {descriptor.length} (1 to 4096 can be)"]
    if isinstance(asked, MakeTag):
        return invalid_tag(asked)
    if isinstance(asked, MakeRing):
        return invalid_ring(driver, asked)
    if isinstance(asked, RingPost):
        return invalid_post(driver, asked)
    return [f"the load has {answer.cause.get('length')} bytes, and maxsize of tag {driver.maps[entry.done.split(' ')[1]].tag.name} is "
            f"{answer.cause.get('maxsize')}"]


def invalid_tag(asked: MakeTag) -> Facts:
    """Returns which limit no tag can have."""
    facts: Facts = []
    if not is_power_of_two(asked.alignment) or asked.alignment > PAGE:
        facts.append(f"alignment is {asked.alignment}: it must be a power of two from 1 to {PAGE}")
    if asked.boundary and (not is_power_of_two(asked.boundary) or asked.boundary < LEAST_BOUNDARY):
        facts.append(f"boundary is {asked.boundary}: it must be 0, or a power of two of at least {LEAST_BOUNDARY}")
    if asked.maxsegsz == 0:
        facts.append("maxsegsz is 0: a segment must have at least one byte")
    return facts


def invalid_ring(driver: Driver, asked: MakeRing) -> Facts:
    """Returns why no ring can be in a memory."""
    memory = driver.memories[asked.mem]
    facts: Facts = []
    if not memory.is_coherent:
        facts.append(f"memory {asked.mem} was made without COHERENT")
    if not 1 <= asked.slots <= 256:
        facts.append(f"slots is {asked.slots}: a ring has 1 to 256")
    elif 16 * asked.slots > memory.length:
        facts.append(f"{asked.slots} slots take {16 * asked.slots} bytes, and memory {asked.mem} has {memory.length} (maxsize of its tag)")
    return facts


def invalid_post(driver: Driver, asked: RingPost) -> Facts:
    """Returns why a range cannot be posted to a ring."""
    ring, map_ = driver.rings[asked.ring], driver.maps[asked.map]
    facts: Facts = []
    if asked.slot >= ring.slots:
        facts.append(f"slot is {asked.slot}: ring {ring.name} has slots 0 to {ring.slots - 1}")
    if not 1 <= asked.len <= PAGE:
        facts.append(f"len is {asked.len}: a descriptor names 1 to {PAGE} bytes")
    if asked.kind not in (1, 2):
        facts.append(f"kind is {asked.kind}: it is 1, the device reads, or 2, it writes")
    if map_.name == ring.memory:
        facts.append(f"map {map_.name} is that of the ring's own memory")
    if map_.tag.is_iommu:
        facts.append(f"map {map_.name} is one of an IOMMU tag: a ring cannot use it")
    if not facts and map_.load is not None:
        facts.append(f"bytes {asked.off} to {asked.off + asked.len - 1} are not all in one segment; map {map_.name} has "
                     f"{some([segment.text() for segment in map_.load.segments])}. A tag with nsegments 1 makes sure of it")
    return facts


# EBUSY


def busy(history: History, driver: Driver, entry: Entry, answer: Refused) -> Facts:
    """Returns who holds what should end."""
    holders = answer.cause.get("holders")
    if not isinstance(holders, list):
        return [doing(history, driver, entry.done.split(" ")[1])]
    facts: Facts = []
    maps = [name for name in holders if driver.maps[name].memory is None]
    memories = [name for name in holders if driver.maps[name].memory is not None]
    for names, what, ending in ((maps, "map", "map_destroy"), (memories, "memory", "dmamem_free")):
        if names:
            made = history.named[driver.number, names[0]][0]
            facts.append(f"{what} {some(names)} of this tag exist{'s' if len(names) == 1 else ''} still ({names[0]} was made by "
                         f"{history.since(made)}): `{ending}` comes first")
    return facts
