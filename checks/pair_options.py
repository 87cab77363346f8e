"""The options of `index`, and rows of them in which each pair of words comes: what `try_pairs` runs trees with. Run as
a program, it prints those that change what is indexed of a folder, a case on each line, as a shell reads words.

Needs python3 alone.
"""

import itertools
import shlex

# Each option with what may follow it. A new option is a line here.
OPTIONS = {
    "--real": ((),),
    "--accept": (("proto3",), ("all",)),
    "--custom-options": (("skip",),),
    "--options": (("skip",), ("link",)),
    "--faulty": (("refuse",), ("skip",)),
    "--duplicates": (("refuse",), ("keep",)),
    "--well-known": ((),),
    "--include": (("inc",), ("inc", "--include", "more")),
    "--include-package": (("git", "shop/more", "1", "more"),),
    "--details": ((),),
    "--doc": (("trailing",), ("both",), ("nothing",)),
    "--comments": (("clean",),),
    "--positions": (("utf16",),),
    "--at": (("root",), ("x/é",)),
    "--project-root": (("file:///here",),),
    "--manager": (("git", "--package", "shop", "--release", "1 2"),),
    "--only": (("p",), ("",)),
    "--exclude": (("gen",), ("*_x.proto", "--exclude", "/c/**")),
    "--links": (("follow",),),
    "--sources": (("all.list",), ("some.list",)),
    "--report": (("../report",), ("../report", "--report-format", "sarif")),
    "--workers": (("1",), ("3",), ("16",)),
    "--explain": ((),),
    "--no-explain": ((),),
    "--quiet": ((),),
    "--sync": ((),),
    "--max-skipped": (("0",), ("1",)),
    "--min-sources": (("1",), ("4",)),
}
LIMITS = ("--max-skipped", "--min-sources")
# Nothing of these is in an index.
SILENT = ("--report", "--workers", "--explain", "--no-explain", "--quiet", "--sync")
# What --real stands for.
REAL = {"--accept": ("all",), "--options": ("link",), "--faulty": ("skip",), "--duplicates": ("keep",),
        "--well-known": (), "--doc": ("both",), "--comments": ("clean",), "--details": ()}


def is_possible(row):
    """Whether the command line may be taken: names in options are linked only where all sources are read. Of an option
    that isn't in a row nothing is known yet; one that isn't given has None."""
    accepts = row.get("--accept", ("all",)) or (("all",) if row.get("--real", ()) is not None else ("proto3",))
    return row.get("--options") != ("link",) or accepts == ("all",)


def pairs_in(row):
    return set(itertools.combinations(sorted(row.items()), 2))


def rows_by_chance(chance):
    """Rows without end; in each round of them each two options come with each of their words, and without."""
    choices = {name: (None, *given) for name, given in OPTIONS.items()}
    while True:
        wanted = {pair for first, second in itertools.combinations(sorted(OPTIONS), 2)
                  for pair in itertools.product([(first, given) for given in choices[first]],
                                                [(second, given) for given in choices[second]])
                  if is_possible(dict(pair))}
        while wanted:
            row = dict(chance.choice(sorted(wanted, key=str)))
            for name in chance.sample(sorted(OPTIONS), len(OPTIONS)):
                may_be = [given for given in choices[name] if is_possible({**row, name: given})]
                chance.shuffle(may_be)
                row.setdefault(name, max(may_be, key=lambda given: gain(row, name, given, wanted)))
            wanted -= pairs_in(row)
            yield {name: given for name, given in row.items() if given is not None}


def gain(row, name, given, wanted):
    """How many more pairs a row has with this option."""
    return sum(tuple(sorted(((name, given), other))) in wanted for other in row.items() if other[0] != name)


def rows_of_bytes():
    """Rows with the options that change what is indexed of a folder: none, each by itself, and what goes together."""
    others = ("--faulty", "--include", "--include-package", "--links", "--sources", *LIMITS, *SILENT)
    rows = [{}, {"--accept": ("all",), "--options": ("link",), "--well-known": ()}]
    rows += [{name: given} for name, all_given in OPTIONS.items() for given in all_given if name not in others]
    is_taken = [is_possible({"--real": None, "--accept": None, **row}) for row in rows]
    return [row if is_good else {**row, "--accept": ("all",)} for row, is_good in zip(rows, is_taken)]


def words_of(row):
    return [word for name in OPTIONS if name in row for word in (name, *row[name])]


def but(row, *names, **changed):
    """A row without these options, and with others: `faulty="skip"`, `details=()`."""
    found = {name: given for name, given in row.items() if name not in names}
    for name, given in changed.items():
        found["--" + name.replace("_", "-")] = (given,) if isinstance(given, str) else given
    return found


def plain(row, *names, **changed):
    """A row without limits and without what is for people, too."""
    return but(row, *LIMITS, *SILENT, *names, **{"workers": "1", **changed})


def spelled(row):
    """A row in which --real is written out."""
    if "--real" not in row:
        return row
    found = {**REAL, **but(row, "--real")}
    if found["--accept"] != ("all",):
        found["--options"] = ("skip",)
    return found


def has(row, name, word):
    return spelled(row).get(name) == (word,)


if __name__ == "__main__":
    for case in rows_of_bytes():
        print(shlex.join(words_of(case)))
