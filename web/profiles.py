"""Which ways of an OpenStreetMap map a car, a bicycle or a walker may use, and how fast, by the rules of OSRM's profiles car.lua, bicycle.lua and foot.lua.

A profile's `use(tags)` tells a way's use, its speeds forwards and backwards in km/h, or None for a way that is closed to it; `blocks(tags)` tells whether a node stops it. docs/WEB.md, "The
rules of the roads", tells which rules are OSRM's and which were left out.
"""
import re
from collections.abc import Iterable, Mapping
from dataclasses import dataclass, field

Tags = Mapping[str, str]

MILE, KNOT = 1.609, 1.852
AGAINST = "-1"
ALONG = frozenset({"yes", "1", "true"})
CIRCLES = frozenset({"roundabout", "circular"})
WORKS_NO_MATTER = frozenset({"no", "widening", "minor"})


@dataclass(frozen=True)
class Use:
    """How a way is used: km/h forwards and backwards, 0 where that is closed, and the seconds of the whole way where the map tells them, as of a ferry."""

    forward: float
    backward: float
    seconds: float | None = None


def first(tags: Tags, keys: Iterable[str]) -> str | None:
    """The value of the first key that is there."""
    return next((tags[key] for key in keys if key in tags), None)


def usual(tags: Tags, speeds: Mapping[str, Mapping[str, float]]) -> float:
    """The km/h that the first key with a value of the table has, 0 where there is none."""
    return next((values[tags[key]] for key, values in speeds.items() if tags.get(key) in values), 0.0)


def speed_limit(value: str | None, table: Mapping[str, float], usual: Mapping[str, float]) -> float:
    """The km/h that a value of `maxspeed` means, 0 where it means none."""
    if value is None:
        return 0
    number = re.match(r"\d+", value)
    if number:
        return int(number[0]) * (MILE if "mph" in value or "mp/h" in value else KNOT if "knots" in value else 1)
    kind = re.search(r"[a-z][a-z]:([a-z]+)", value.lower())
    return table.get(value.lower(), usual.get(kind[1], 0) if kind else 0)


def seconds_of(value: str | None) -> float | None:
    """The seconds of a value of `duration`: MM, HH:MM or HH:MM:SS."""
    if value is None or not re.fullmatch(r"\d{1,3}(:[0-5]?\d){0,2}", value):
        return None
    parts = [int(part) for part in value.split(":")]
    hours, minutes, seconds = ([0, *parts, 0] if len(parts) == 1 else [*parts, 0])[:3]
    return (hours * 60 + minutes) * 60 + seconds or None


@dataclass(frozen=True)
class Profile:
    """The rules of one kind of traveller. Names are those of OSRM's profiles."""

    name: str
    default_speed: float
    speeds: Mapping[str, Mapping[str, float]]
    access_hierarchy: tuple[str, ...]
    access_black: frozenset[str]
    # What may be driven to and not through: OSRM uses such ways at the ends of a route alone.
    restricted: frozenset[str] = frozenset()
    restricted_highways: frozenset[str] = frozenset()
    barriers_pass: frozenset[str] | None = None
    barriers_stop: frozenset[str] = frozenset()
    oneway_keys: tuple[str, ...] = ()
    implied_oneway: bool = False
    avoid: frozenset[str] = frozenset()
    # The speeds of what is a way whatever its class.
    special: Mapping[str, Mapping[str, float]] = field(default_factory=dict)
    limits: tuple[str, ...] = ()
    limit_share: float = 1.0
    limit_table: Mapping[str, float] = field(default_factory=dict)
    limit_usual: Mapping[str, float] = field(default_factory=dict)
    caps: Mapping[str, Mapping[str, float]] = field(default_factory=dict)
    # Speeds of ways on which a bicycle is pushed.
    pushed: Mapping[str, float] = field(default_factory=dict)
    walking_speed: float = 0

    def use(self, tags: Tags, restricted_too: bool = False) -> Use | None:
        """How the way with these tags is used, or None."""
        if self.avoided(tags):
            return None
        forward, backward = (self.access(tags, side) for side in ("forward", "backward"))
        shut = [self.shut(tags, access, restricted_too) for access in (forward, backward)]
        speeds = [self.speed(tags, access, side) for access, side in ((forward, "forward"), (backward, "backward"))]
        one_way = self.direction(tags)
        open_ways = [0 if closed or against == one_way else speed for closed, speed, against in zip(shut, speeds, ("backward", "forward"))]
        if self.walking_speed:
            open_ways = [0 if closed else speed for closed, speed in zip(shut, self.push(tags, open_ways))]
        return Use(*open_ways, seconds_of(tags.get("duration")) if usual(tags, self.special) else None) if any(open_ways) else None

    def avoided(self, tags: Tags) -> bool:
        """A way that no route takes, whoever may use it; a way that is no road is one."""
        if "highway" not in tags and not usual(tags, self.special) and not usual(tags, self.speeds):
            return True
        if "hov_lanes" in self.avoid and tags.get("hov") == "designated":
            return True
        if "area" in self.avoid and tags.get("area") == "yes" or "steps" in self.avoid and tags.get("highway") == "steps":
            return True
        if "construction" in self.avoid and ("construction" in (tags.get("highway"), tags.get("railway")) or tags.get("construction", "no") not in WORKS_NO_MATTER):
            return True
        if "reversible" in self.avoid and tags.get("oneway") == "reversible" or "emergency" in self.avoid and tags.get("service") == "emergency_access":
            return True
        return "proposed" in tags or tags.get("highway") == "proposed" or tags.get("impassable") == "yes" or tags.get("status") == "impassable"

    def access(self, tags: Tags, side: str) -> str | None:
        return first(tags, (name for key in self.access_hierarchy for name in (f"{key}:{side}", key)))

    def shut(self, tags: Tags, access: str | None, restricted_too: bool) -> bool:
        """Closed by its access; of what is restricted, unless the user asked for that too."""
        if access not in self.access_black:
            return False
        service = tags.get("highway") == "service" and access == "private"
        return not (restricted_too and access in self.restricted and tags.get("highway") in self.restricted_highways and not service)

    def speed(self, tags: Tags, access: str | None, side: str) -> float:
        """The km/h of an open way: by its class, then by its limit, and no more than its surface has."""
        speed = usual(tags, self.special) or usual(tags, self.speeds)
        if not speed and access is not None and access not in self.access_black:
            speed = self.default_speed
        if not speed:
            return 0
        limit = speed_limit(first(tags, (name for key in self.limits for name in (f"{key}:{side}", key))), self.limit_table, self.limit_usual)
        if limit:
            speed = limit * self.limit_share
        return min([speed, *(values[tags[key]] for key, values in self.caps.items() if tags.get(key) in values)])

    def direction(self, tags: Tags) -> str | None:
        """The one direction in which the way is open, or None for both."""
        one_way = first(tags, self.oneway_keys)
        if one_way == AGAINST:
            return "backward"
        implied = self.implied_oneway and (tags.get("highway") == "motorway" or tags.get("junction") in CIRCLES)
        if one_way not in ALONG and not (implied and one_way != "no"):
            return None
        if self.walking_speed and str(first(tags, ("cycleway", "cycleway:left"))).startswith("opposite"):
            return None
        return "forward"

    def push(self, tags: Tags, speeds: list[float]) -> list[float]:
        """What is closed to a bicycle that is ridden is open to one that is pushed, where one may walk."""
        if tags.get("foot") == "no":
            return speeds
        highway = tags.get("highway", "")
        walk = self.pushed.get(highway) or (self.walking_speed if tags.get("foot") == "yes" or highway in self.speeds["highway"] else 0)
        back = 0 if tags.get("junction") in CIRCLES else walk
        return [speeds[0] or walk, speeds[1] or back]

    def blocks(self, tags: Tags) -> bool:
        """Whether nobody passes this node, as a bollard or a wall."""
        access = first(tags, self.access_hierarchy)
        if access is not None:
            return access in self.access_black and access not in self.restricted
        barrier = tags.get("barrier")
        if barrier is None:
            return False
        if self.barriers_pass is None:
            return barrier in self.barriers_stop
        lowered = tags.get("bollard") == "rising" or tags.get("kerb") in ("lowered", "flush") or barrier == "kerb" and tags.get("highway") == "crossing"
        return barrier not in self.barriers_pass and not lowered


def alike(speed: float, names: str) -> dict[str, float]:
    return dict.fromkeys(names.split(), speed)


def words(names: str) -> frozenset[str]:
    return frozenset(names.split())


CAR_CLASSES = {"motorway": 90, "motorway_link": 45, "trunk": 85, "trunk_link": 40, "primary": 65, "primary_link": 30, "secondary": 55, "secondary_link": 25, "tertiary": 40,
               "tertiary_link": 20, "unclassified": 25, "residential": 25, "living_street": 10, "service": 15}

# The `maxspeed` values that are words. 0 is a country's road without a limit: its class tells the speed.
LIMIT_WORDS = {"at:rural": 100, "at:trunk": 100, "be:motorway": 120, "be-bru:rural": 70, "be-bru:urban": 30, "be-vlg:rural": 70, "bg:motorway": 140, "by:urban": 60, "by:motorway": 110,
               "ca-on:rural": 80, "ch:rural": 80, "ch:trunk": 100, "ch:motorway": 120, "cz:trunk": 0, "cz:motorway": 0, "de:living_street": 7, "de:rural": 100, "de:motorway": 0,
               "dk:rural": 80, "es:trunk": 90, "fr:rural": 80, "gb:nsl_single": 60 * MILE, "gb:nsl_dual": 70 * MILE, "gb:motorway": 70 * MILE, "nl:rural": 80, "nl:trunk": 100,
               "no:rural": 80, "no:motorway": 110, "ph:urban": 40, "ph:rural": 80, "ph:motorway": 100, "pl:rural": 100, "pl:expressway": 120, "pl:motorway": 140, "ro:trunk": 100,
               "ru:living_street": 20, "ru:urban": 60, "ru:motorway": 110, "uk:nsl_single": 60 * MILE, "uk:nsl_dual": 70 * MILE, "uk:motorway": 70 * MILE, "za:urban": 60,
               "za:rural": 100, "none": 140}

CAR_CAPS = {
    "surface": {**alike(80, "cement compacted fine_gravel"), **alike(60, "paving_stones metal bricks"),
                **alike(40, "grass wood sett grass_paver gravel unpaved ground dirt pebblestone tartan"), **alike(30, "cobblestone clay"), **alike(20, "earth stone rocky sand"), "mud": 10},
    "tracktype": {"grade1": 60, "grade2": 40, "grade3": 30, "grade4": 25, "grade5": 20},
    "smoothness": {"intermediate": 80, "bad": 40, "very_bad": 20, "horrible": 10, "very_horrible": 5, "impassable": 0},
}

CAR = Profile(
    name="car", default_speed=10, speeds={"highway": CAR_CLASSES}, access_hierarchy=("motorcar", "motor_vehicle", "vehicle", "access"),
    access_black=words("no agricultural forestry emergency psv customers private delivery destination"),
    restricted=words("private delivery destination customers"), restricted_highways=frozenset(CAR_CLASSES),
    barriers_pass=words("cattle_grid border_control toll_booth sally_port gate lift_gate no entrance height_restrictor arch"),
    oneway_keys=("oneway:motorcar", "oneway:motor_vehicle", "oneway:vehicle", "oneway"), implied_oneway=True, avoid=words("area reversible steps construction emergency hov_lanes"),
    special={"route": {"ferry": 5, "shuttle_train": 10}, "bridge": {"movable": 5}},
    limits=("maxspeed:advisory", "maxspeed", "source:maxspeed", "maxspeed:type"), limit_share=0.8, limit_table=LIMIT_WORDS,
    limit_usual={"urban": 50, "rural": 90, "trunk": 110, "motorway": 130}, caps=CAR_CAPS)

BIKE = Profile(
    name="bike", default_speed=15, access_hierarchy=("bicycle", "vehicle", "access"),
    access_black=words("no private agricultural forestry delivery use_sidepath"),
    speeds={"highway": {**alike(15, "cycleway primary primary_link secondary secondary_link tertiary tertiary_link residential unclassified living_street road service"), "track": 12, "path": 12},
            "railway": {"platform": 4}, "public_transport": {"platform": 4}, "amenity": alike(10, "parking parking_entrance"), "man_made": {"pier": 4}},
    special={"route": {"ferry": 5}, "bridge": {"movable": 5}}, barriers_stop=words("yes wall fence"), oneway_keys=("oneway:bicycle", "oneway"), implied_oneway=True, avoid=words("construction"),
    caps={"surface": {**alike(10, "cobblestone:flattened paving_stones compacted sett"), **alike(6, "cobblestone unpaved fine_gravel gravel pebblestone ground dirt earth grass"), **alike(3, "mud sand")}},
    pushed={"footway": 4, "pedestrian": 4, "steps": 2}, walking_speed=4)

WALK = 5
FOOT = Profile(
    name="foot", default_speed=WALK, access_hierarchy=("foot", "access"), access_black=words("no private agricultural forestry delivery"),
    speeds={"highway": alike(WALK, "primary primary_link secondary secondary_link tertiary tertiary_link unclassified residential road living_street service track path steps pedestrian platform "
                                   "footway pier"),
            "railway": {"platform": WALK}, "amenity": alike(WALK, "parking parking_entrance"), "man_made": {"pier": WALK}, "leisure": {"track": WALK}},
    special={"route": {"ferry": 5}}, barriers_stop=words("yes wall fence"), oneway_keys=("oneway:foot",), caps={"surface": {**alike(WALK * 0.75, "fine_gravel gravel pebblestone"), **alike(WALK * 0.5, "mud sand")}})

PROFILES = {profile.name: profile for profile in (CAR, BIKE, FOOT)}
