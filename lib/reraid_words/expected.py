"""Says of a refused word what was expected in its place.

Usage, in lib/: python3 -m reraid_words.expected COMMAND NUMBER WORD..
COMMAND is that of reraid, or nbd for reraid-nbd, NUMBER that of the refused word, counted from 1 in the words that follow. Prints lines; none
where it has nothing to say. It decides nothing: what is refused, and at which word, reraid says.
"""

import difflib
import sys
from collections.abc import Sequence

from reraid_words.values import BY_LEVEL, LAYOUTS, NAMES, NUMBERS, OPERANDS, OTHER_OPERANDS, OTHERS, SYNDROMES, sectors

SHAPE = "LEVEL:PATTERN:ORDER:CHUNK:OFFSET:SLOTS, such as 5:ls:none:128:2048:0,1,-"
MIRROR = f"LAYOUT:CHUNK:OFFSET:SLOTS, such as near2:128:2048:0,1,2,-, with one of {','.join(LAYOUTS)}"


def near(word: str, names: Sequence[str]) -> str:
    """Return the name that is meant, mostly: ours for another one, or the one that looks most like it; none where there is no such name."""
    ours = OTHERS.get(word.lower(), "")
    close = difflib.get_close_matches(word.lower(), names, 1, 0.75)
    return ours if ours in names else close[0] if close else ""


def meant(word: str, names: Sequence[str]) -> str:
    """Return a question whether that name is meant."""
    return f" (did you mean {near(word, names)}?)" if near(word, names) else ""


def number(name: str, text: str) -> list[str]:
    """Return what is wrong with a number; nothing where it is one."""
    if text.isascii() and text.isdigit():
        return [f"{text}: write it without leading zeros"] if text != str(int(text)) else []
    count = sectors(text)
    more = f", so {count} for {text}" if count is not None else ""
    return [f"{text or 'nothing'}: {name} is a decimal number, in sectors of 512 bytes{more}"]


def counted(name: str, item: str) -> list[str]:
    """Return what is wrong with an element of a list of numbers; those of members and of rows are no sectors."""
    if name == "delays" and not (item.isascii() and item.isdigit()):
        return [f"{item or 'nothing'}: give each of delays in rows, from 1 to 1024"]
    return number(f"each of {name}" if name != "members" else name, item)


def rotation(level: str, text: str) -> list[str]:
    """Return what is wrong with the pattern of a set word and the delay behind it."""
    pattern, star, delay = text.partition("*")
    if pattern not in BY_LEVEL[level]:
        return [f"{pattern}{meant(pattern, BY_LEVEL[level])}: the pattern at level {level} is one of {','.join(BY_LEVEL[level])}"]
    if star and not (delay.isascii() and delay.isdigit() and delay == str(int(delay)) and 2 <= int(delay) < 1 << 32):
        return [f"{text}: after * give the delay in rows, 2 or more; for a delay of 1 write only {pattern}"]
    return []


def rising(name: str, items: list[str], order: Sequence[str] | None) -> list[str]:
    """Return what is wrong with the order of a list whose elements are right."""
    ranked = sorted(set(items), key=list(order).index) if order else sorted(set(items), key=int)
    return [f"{name}: a list is in ascending order, each item once: {name}={','.join(ranked)}"] if ranked != items else []


def listed(name: str, value: str) -> list[str]:
    """Return what is wrong with a list of names or of numbers."""
    items = value.split(",")
    if name in NAMES:
        names = NAMES[name]
        wrong = [item for item in items if item not in names]
        if wrong and name == "levels" and OTHERS.get(wrong[0].lower(), wrong[0]) == "10":
            return ["levels are 0, 5 and 6; for RAID 10 use reraid mirrors and reraid mirrorwrite"]
        said = [f"{item or 'nothing'}{meant(item, names)}: {name} are {','.join(names)}, in this order" for item in wrong[:1]]
        return said or rising(name, items, names)
    said = [line for item in items for line in counted(name, item)][:1]
    if not said and name == "chunks" and any(int(item) & (int(item) - 1) or not 1 <= int(item) <= 32768 for item in items):
        return ["chunks are powers of two from 1 to 32768, in sectors of 512 bytes: 128 for 64 KiB, 1024 for 512 KiB"]
    if not said and name == "delays" and (len(items) > 16 or not all(1 <= int(item) <= 1024 for item in items)):
        return ["delays are at most 16 numbers of rows from 1 to 1024; 1 is usual, some controllers delay parity longer"]
    if not said and name == "members" and not all(2 <= int(item) <= 24 for item in items):
        return ["members are numbers of disks from 2 to 24, including missing ones"]
    return said or rising(name, items, None)


def is_mirror(value: str) -> bool:
    """A set word begins as that of a mirror does."""
    return value.startswith(("near", "far", "offset"))


def set_word(value: str, mirrors: bool) -> list[str]:
    """Return what is wrong with the first part of a set word that is."""
    parts = value.split(":")
    if is_mirror(value):
        chunk, offset, slots = ([*parts[1:], "", "", ""])[:3]
        if len(parts) != 4 or parts[0] not in LAYOUTS:
            return [f"the layout of a mirror is {MIRROR}"]
    elif len(parts) != 6 or parts[0] not in BY_LEVEL:
        if len(parts) == 6 and near(parts[0], list(BY_LEVEL)):
            return [f"{parts[0]}{meant(parts[0], list(BY_LEVEL))}: the level is 0, 5 or 6 (RAID 4 is 5:parity-last)"]
        return [f"a layout is {SHAPE}" + (f", or {MIRROR}" if mirrors else "")]
    else:
        level, pattern, order, chunk, offset, slots = parts
        if rotation(level, pattern):
            return rotation(level, pattern)
        orders = SYNDROMES[1:] if level == "6" else SYNDROMES[:1]
        if order not in orders:
            return [f"{order or 'nothing'}: the order of Q at level {level} is {' or '.join(orders)}"]
    said = number("the chunk", chunk) + [line for base in offset.split("+") for line in number("the offset", base)]
    wrong = [slot for slot in slots.split(",") if slot != "-" and not (slot.isdigit() and slot == str(int(slot)) and int(slot) < 24)]
    said += [f"{slot or 'nothing'}: slots are numbers of images, from 0 in the order of their names, or - for a missing disk" for slot in wrong]
    return said[:1]


def places(value: str) -> list[str]:
    """Return what is wrong with the offsets of relations, one for each image."""
    said = [line for item in value.split("+") for line in number("each of offsets", item)]
    return [f"{said[0]}; give one offset for each image, in their order, separated by +: 2048+0+2048"] if said else []


def operand(command: str, name: str, value: str) -> list[str]:
    """Return what is wrong with an operand of a command, as far as that can be said."""
    names = OPERANDS[command]
    if name not in names:
        ours = OTHER_OPERANDS.get(name.lstrip("-"), "")
        ours = ours if ours in names else near(name.lstrip("-"), names)
        return [f"{name}{f' (did you mean {ours}?)' if ours else ''}: the operands are {' '.join(f'{it}=' for it in names)}, followed by --"]
    if name == "set":
        return set_word(value, command in ("nbd", "mirrorwrite"))
    if (command, name) == ("relations", "offsets"):
        return places(value)
    if name in NAMES or name in NUMBERS:
        return listed(name, value)
    return [] if name in ("drop", "maps") else number(name, value)


def expected(command: str, words: Sequence[str], place: int) -> list[str]:
    """Return what is said of the refused word, which is at this place of the words, from 0; past the last one something is missing."""
    if command not in OPERANDS:
        return [f"{command}{meant(command, list(OPERANDS))}: the commands are {' '.join(name for name in OPERANDS if name != 'nbd')}"]
    if place == 0 and len(words) > 1 and words[0] in ("--help", "-h", "help", "--version"):
        return [f"{words[0]} takes no other argument"]
    if place >= len(words):
        named = {word.partition("=")[0] for word in words}
        return ["arguments are missing at the end" + ("" if "--" in words else ": -- and the images") +
                (": set=SET" if "set" in OPERANDS[command] and "set" not in named and "--" in words else "")]
    name, sign, value = words[place].partition("=")
    if words[place] == "--":
        return ["images follow --, and set=SET comes before it" if "set" in OPERANDS[command] else "an operand is missing before --"]
    if not sign:
        return [f"{words[place]}: an operand is NAME=VALUE; write -- before the images"]
    if name in [word.partition("=")[0] for word in words[:place]]:
        return [f"{name} is given twice"]
    return operand(command, name, value)


def main(words: list[str]) -> int:
    if len(words) < 2 or not words[1].isdigit():
        sys.exit(__doc__)
    for line in expected(words[0], words[2:], int(words[1]) - 1):
        print(line)
    return 0


if __name__ == "__main__":
    sys.exit(main(sys.argv[1:]))
