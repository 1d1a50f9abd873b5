#!/usr/bin/env python3
"""Prints what the definitions say: the comments that stand above them in crates/*/specs/*.antt.

    bench/pages/definitions.py             prints those of all crates, from the bottom to the top
    bench/pages/definitions.py CRATE..     prints those of these crates
    bench/pages/definitions.py --compare   prints which definitions that docs/DEFINITIONS.md and docs/PROMISES.md name are gone; status 1 if one is

A comment is the lines that begin with `-- ` just above a definition. A definition with no comment of its own is part of the one above it
where nothing stands between but such definitions, and then stands with it. Which definitions are printed is said at the top of that page.
"""

import pathlib
import re
import sys

TOP = pathlib.Path(__file__).resolve().parents[2]
PAGES = (TOP / "docs/DEFINITIONS.md", TOP / "docs/PROMISES.md")
# On a page a file of definitions as `crate/File`, and after a colon the names in it.
NAMED = re.compile(r"`(\w+)/(\w+)`: (`\w+`(?:, `\w+`)*)")
HEAD = re.compile(r"^(?:abbrev |unfoldable )?pub (?:record |data )?(?P<name>[^\s:({]+)|^(?:abbrev|unfoldable) pub (?:record |data )?(?P<other>[^\s:({]+)")
USE = re.compile(r"^(?:ghost )?use Rattle\.(\w+)\.specs\.([\w.]+)\.\{(.*?)\}", re.M | re.S)

# The crates that run nothing: what another crate takes of them counts as offered.
WORDS_ALONE = ("raid_terms", "search_terms", "plan_sets")
# Such a comment goes on from the one above it, which is then printed too.
GOES_ON = re.compile(r"(and|its|the same|so|of|for|as) |.* of it\b")
# The crates in which the promises of jobs and programs are put together from parts.
PROMISES = ("run_ends", "reraid_cli", "reraid_nbd_cli")


class Definition:
    """A name, the file in which it stands, and its comment; "" where it has none."""

    def __init__(self, name, file, comment):
        self.name, self.file, self.comment = name, file, comment


def definitions_of(path):
    """The public definitions of a file, in their order."""
    found, comment = [], []
    for line in path.read_text().splitlines():
        if line.startswith("-- "):
            comment.append(line[3:].strip())
            continue
        match = HEAD.match(line)
        if match and not line.startswith(("pub mod ", "pub use ")):
            found.append(Definition(match["name"] or match["other"], path.relative_to(TOP), " ".join(comment)))
        if line.strip():
            comment = []
        elif comment and not found:
            # The comment at the top of a file is the file's.
            comment = []
    return found


def crates():
    """The names of crates.txt in its order."""
    return [line.split(":")[0].split()[0] for line in (TOP / "crates.txt").read_text().splitlines() if re.match(r"\w", line)]


def rows_of(definitions):
    """Definitions in rows: the ones without a comment stand with the one above them in their file."""
    rows = []
    for it in definitions:
        if it.comment or not rows or rows[-1][0].file != it.file:
            rows.append([it])
        else:
            rows[-1].append(it)
    return rows


def offered_by(crate_source):
    """What `lib.rt` of a crate offers: for each of its modules the names, "*" for all."""
    text, offered = (crate_source / "lib.rt").read_text(), {"lib": {"*"}}
    for module, names in re.findall(r"^pub use (\w+)(?:::(\{[^}]*\}|[\w*]+))?;", text, re.M) + [(it, "*") for it in re.findall(r"^pub mod (\w+)", text, re.M)]:
        offered.setdefault(module, set()).update(re.findall(r"[\w*]+", names or "*"))
    return offered


def clauses_of(path, offered):
    """The words of a file's types, traits and headers of functions with their clauses, without bodies, comments and functions not offered."""
    words, body, header, private, inherent, depth = [], None, False, False, False, 0
    for line in path.read_text().splitlines():
        text, indent = line.strip(), len(line) - len(line.lstrip())
        if body is not None:
            if indent == body and text.startswith("}"):
                body = None
            continue
        if text.startswith(("//", "use ", "pub use ", "ghost use ")):
            continue
        if text.startswith(("impl", "trait", "pub trait")):
            inherent = text.startswith("impl") and " for " not in text
        if match := re.match(r"(pub(?:\(crate\))? )?(?:const )?fn (\w+)", text):
            outer = indent == 0 and not {match[2], "*"} & offered
            header, depth, private = True, 0, outer or match[1] != "pub " and (indent == 0 or inherent)
        if not private:
            words += re.findall(r"[\w']+", line)
        depth += line.count("{") - line.count("}")
        # A function's header ends where its body begins, or at a semicolon in a trait; a record in a clause is deeper.
        if header and (text.endswith("{") and depth == 1 or text.endswith(("{}", ";")) and depth == 0):
            body = indent if text.endswith("{") else None
            header = private = False
    return set(words)


def taken_by(path):
    """What a source or a file of definitions takes: its name here, its file and its name there."""
    for crate, module, names in USE.findall(path.read_text()):
        for name in names.split(","):
            name, _, here = name.strip().partition(" as ")
            yield here or name, f"crates/{crate}/specs/{module.replace('.', '/')}.antt", name


def offered_definitions():
    """The definitions, by file and name, that the promises of jobs and programs or a clause of an offered function, trait or type cites, or a record
    that stands for clauses."""
    found = {(str(it.file), it.name) for path in TOP.glob("crates/*/specs/*.antt") if path.parts[-3] in PROMISES for it in definitions_of(path)}
    for path in TOP.glob("crates/*/specs/*.antt"):
        found |= {(file, name) for _, file, name in taken_by(path) if file.split("/")[1] in WORDS_ALONE and file.split("/")[1] != path.parts[-3]}
    for path in TOP.glob("crates/*/src/*.rt"):
        offered = offered_by(path.parent).get(path.stem) if (path.parent / "lib.rt").exists() else None
        if not offered:
            continue
        clauses = clauses_of(path, offered)
        found |= {(file, name) for here, file, name in taken_by(path) if here in clauses}
    return found | {it for path in TOP.glob("crates/*/specs/*.antt") for record, cites in clause_records(path) if record in found for it in cites}


def clause_records(path):
    """The records of a file over the result of a call, which stand for its clauses, by file and name, and what each cites."""
    names = set(re.findall(r"^pub record (\S+) [({].*\bResult\b", path.read_text(), re.M))
    return [(record, cites) for record, cites in cited_in(path).items() if record[1] in names]


def cited_in(path):
    """Of each definition of a file, by file and name, the definitions that its text cites."""
    file, names = str(path.relative_to(TOP)), {it.name for it in definitions_of(path)}
    here = {name: (file, name) for name in names} | {here: (other, name) for here, other, name in taken_by(path)}
    cites, current = {}, None
    for line in path.read_text().splitlines():
        if match := HEAD.match(line):
            current = match["name"] or match["other"]
        elif not line.strip():
            current = None
        if current in names:
            cites.setdefault((file, current), set()).update(here[word] for word in re.findall(r"[\w']+", line) if word in here)
    return cites


def promised(named):
    """The definitions, by file and name, of which the promises of jobs and programs and those of these names are made."""
    cites = {}
    for path in TOP.glob("crates/*/specs/*.antt"):
        cites |= cited_in(path)
    waiting, found = [it for it in cites if it[0].split("/")[1] in PROMISES or it[1] in named], set()
    while waiting:
        it = waiting.pop()
        if it not in found:
            found.add(it)
            waiting += cites.get(it, ())
    return found


def printed():
    """The definitions, by file and name, that are printed."""
    named = set(re.findall(r"`([A-Z]\w+)`", (TOP / "docs/PROMISES.md").read_text()))
    made_of = promised(named)
    return made_of & offered_definitions() | {it for it in made_of if it[1] in named}


def sentence_on(crate):
    """What `src/lib.rt` of a crate says on it first, up to the first colon or the end of the sentence."""
    lines = (TOP / "crates" / crate / "src/lib.rt").read_text().splitlines()
    text = " ".join(line[3:].strip() for line in lines[: next(i for i, line in enumerate(lines) if line.strip() == "//!" or not line.startswith("//!"))])
    return re.sub(r"\[(`[^`]+`)\]", r"\1", re.match(r".*?(?=[.:]( |$))", text)[0]) + "."


def sections(asked):
    """For each of these crates the comments of what is printed, in the order of crates.txt."""
    parts, wanted = [], printed()
    for crate in crates():
        if crate not in asked:
            continue
        lines = []
        for path in sorted((TOP / "crates" / crate / "specs").glob("*.antt")):
            rows, below = [], False
            for row in reversed(rows_of(definitions_of(path))):
                names = [it.name for it in row if (str(it.file), it.name) in wanted]
                if names or below:
                    names = names if row[0].name in names else [row[0].name, *names]
                    rows.insert(0, "- " + ", ".join(f"`{name}`" for name in names) + (f": {row[0].comment}" if row[0].comment else ""))
                    below = GOES_ON.match(row[0].comment)
            if rows:
                lines += ["", f"`{path.stem}`", *rows]
        if lines:
            parts.append("\n".join([f"\n## [{crate}](../crates/{crate}/specs)\n\n{sentence_on(crate)}", *lines]) + "\n")
    return "".join(parts)


def gone():
    """Return the definitions that a page names and that are not in the file that it names."""
    found = []
    for page in PAGES:
        for crate, file, names in NAMED.findall(re.sub(r"\s+", " ", page.read_text())):
            path = TOP / "crates" / crate / "specs" / f"{file}.antt"
            there = {it.name for it in definitions_of(path)} if path.exists() else set()
            found += [f"{page.name} names what is gone: {crate}/{file}: {name}" for name in re.findall(r"\w+", names) if name not in there]
    return found


def asked_for(words):
    """The crates of these words, all of them if there are none."""
    known = [crate for crate in crates() if not crate.endswith("_rows")]
    if unknown := set(words) - set(known):
        sys.exit("\n".join([f"no crate with definitions: {name}" for name in sorted(unknown)] + [__doc__]))
    return words or known


if __name__ == "__main__":
    if sys.argv[1:] == ["--compare"]:
        missing = gone()
        print("\n".join(missing) or "DEFINITIONS.md and PROMISES.md name definitions that are there")
        sys.exit(1 if missing else 0)
    print(sections(asked_for(sys.argv[1:])).lstrip("\n"), end="")
