"""Plans for what is asked: by one survey wherever the landmarks would be the same, and by a new one where they would not."""

import dataclasses
from collections.abc import Collection, Sequence

from ..units import SECTOR, listed
from . import plans
from .commands import Runner, Words, refused
from .plans import Group, Plan

KINDS = "gpt,ntfs,xfs,btrfs,lvm,ext"
# Kinds of later programs: whose groups have many marks, also in journals, so that most may misfit at the true set.
FILE_RECORDS = "mft"
LATER_KINDS = ("extinode", "xfs5", "btrfstree", FILE_RECORDS)
# The status of words that are none of the program's.
REFUSED = 1
# As many offsets, or origins, as a plan has at most.
MAX_VALUES = 64
# As many marks as the two copies of a file record have on one image, with their mirrors.
MAX_COPIES = 4


@dataclasses.dataclass(frozen=True)
class Request:
    """What a plan is asked for: the operands of a survey by their names, and what is then taken out of it: groups, and file records of number 0."""

    operands: tuple[tuple[str, str], ...] = ()
    out: tuple[int, ...] = ()
    records: bool = False

    def having(self, **operands: str | int) -> "Request":
        """The request with other operands."""
        values = {**dict(self.operands), **{name: str(value) for name, value in operands.items()}}
        return dataclasses.replace(self, operands=tuple(sorted(values.items())))

    def get(self, name: str, default: str = "") -> str:
        """The value of an operand; another where it is not asked for."""
        return dict(self.operands).get(name, default)

    def number(self, name: str, default: int = 0) -> int:
        """The number of an operand; another where it is not asked for."""
        return int(self.get(name, str(default)))

    def numbers(self, name: str) -> list[int]:
        """The numbers of an operand."""
        return [int(number) for number in self.get(name).split(",")]

    @property
    def is_each(self) -> bool:
        """Each image has an offset of its own."""
        return self.get("mode") == "each"

    def words(self, images: Sequence[str]) -> list[str]:
        """The survey that prints this plan, before anything is taken out."""
        return ["reraid", "survey", *(f"{name}={value}" for name, value in self.operands), "--", *images]

    def filters(self, plan: Plan) -> list[Words]:
        """The commands that take out what is left out."""
        found: list[Words] = []
        if self.records:
            rules = sorted({f"/^mark record .* {rule}$/d" for rule in first_records(plan)})
            found += [["sed", ";".join(rules)]] if rules else []
        if self.out:
            test = "||".join(f"n=={place + 1}" for place in sorted(self.out))
            found.append(["awk", f"/^group/{{n++}} /^(group|mark)/&&({test}){{next}} 1"])
        return found


def first_records(plan: Plan) -> list[str]:
    """The rules of the first file record, which is number 0, in each group of NTFS; with more than its two copies on one image."""
    found = []
    for group in plan.groups:
        records = [mark for mark in group.marks if mark.kind == "record"]
        if records:
            least = min(mark.nearest for mark in records)
            rules = {mark.rule for mark in records if mark.nearest == least}
            found += [rule for rule in rules if sum(mark.rule == rule for mark in records) > MAX_COPIES]
    return found


def without_rules(group: Group, rules: Collection[str]) -> Group:
    """A group without the file records of some rules."""
    return dataclasses.replace(group, marks=tuple(mark for mark in group.marks if mark.kind != "record" or mark.rule not in rules))


@dataclasses.dataclass(frozen=True)
class Kept:
    """A survey that was made: from which offset to which end, of which kinds and blocks, and what it saw."""

    first: int
    end: int
    logical: str
    kinds: str
    plan: Plan

    def serves(self, asked: "Kept") -> bool:
        """It read at least what another one would, and saw no landmark that that would not."""
        alike = (self.logical, self.kinds) == (asked.logical, asked.kinds) and self.first <= asked.first and asked.end <= self.end
        return alike and all(asked.first <= mark.sector < asked.end for mark in self.plan.marks())


def known_kinds(commands: Runner, name: str) -> tuple[str, ...]:
    """Which of the later kinds the program knows, by whether it understands the word, over one sector of an image."""
    def knows(kind: str) -> bool:
        return commands.run(Request().having(kinds=kind, offsets=0, end=1).words([name])).status != REFUSED
    return tuple(kind for kind in LATER_KINDS if knows(kind))


class Surveys:
    """Surveys of some images, each made once."""

    def __init__(self, commands: Runner, names: Sequence[str]) -> None:
        self.commands, self.names = commands, tuple(names)
        self.kept: list[Kept] = []

    def seen(self, request: Request) -> Plan:
        """The plan of a survey that saw the landmarks of the request's."""
        first, end = request.numbers("offsets")[0], request.number("end")
        asked = Kept(first, end, request.get("logical", str(SECTOR)), request.get("kinds"), plans.Plan(plans.COMMON, (), end, {}, ()))
        for kept in self.kept:
            if kept.serves(asked):
                return kept.plan
        words = Request().having(offsets=first, origins=0, end=end, logical=asked.logical, kinds=asked.kinds).words(self.names)
        answer = self.commands.run(words)
        if not answer.good:
            raise refused(answer, "survey")
        self.kept.append(dataclasses.replace(asked, plan=plans.read_plan(answer.out)))
        return self.kept[-1].plan

    def plan(self, request: Request) -> Plan:
        """The plan of a request: a survey's, with nothing but what is asked for changed in its text."""
        plan = self.seen(request)
        asked: dict[str, str | int] = {name: value for name, value in request.operands if name in plans.FIELDS}
        origins = {int(it) for it in request.get("origins", "0").split(",")} | set(plan.numbers("origins"))
        asked["origins"] = listed(sorted(origins)[:MAX_VALUES])
        end = request.number("end")
        plan = dataclasses.replace(plan.having(window=max(end, 1)).having(**asked), end=end)
        if request.is_each:
            plan = dataclasses.replace(plan, version=plans.EACH)
        if request.records:
            rules = set(first_records(plan))
            plan = dataclasses.replace(plan, groups=tuple(without_rules(group, rules) for group in plan.groups))
        return plan.without(request.out)
