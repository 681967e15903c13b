"""What bench/traces and bench/filters share: programs that are served here and by the crate tracing-subscriber as Debian packages it, and
the rows of docs/differences.md by which they differ."""
import glob
import itertools
import os
import shutil
import subprocess
import sys
from concurrent.futures import ThreadPoolExecutor

REGISTRY = "/usr/share/cargo/registry"
CRATES = ["tracing", "tracing-core", "tracing-subscriber"]
PAGE = "docs/differences.md"


def to_top():
    """Goes to the repository's top."""
    os.chdir(os.path.join(os.path.dirname(os.path.realpath(__file__)), ".."))


def stop(why):
    sys.exit(f"bench/{os.path.basename(sys.argv[0])}: {why}")


def printed_by(command, **more):
    """What a command prints, which is not to fail."""
    done = subprocess.run(command, stdout=subprocess.PIPE, text=True, **more)
    if done.returncode != 0:
        stop(f"{command[0]} failed")
    return done.stdout


def quoted(line):
    return f"`{line}`" if line else "nothing"


def at_once(function, items):
    """What the function answers of each item, several at a time."""
    with ThreadPoolExecutor(4) as pool:
        return list(pool.map(function, items))


def missing(commands, crates):
    """What isn't there of what is needed."""
    lacking = [f"the command {name}" for name in commands if not shutil.which(name)]
    return lacking + [f"{REGISTRY}/{name}-* (Debian's package librust-{name}-dev)" for name in crates if not version(name)]


def version(crate):
    """The version of a crate, if Debian's package of it is there."""
    found = glob.glob(f"{REGISTRY}/{crate}-[0-9]*")
    return found[0].rsplit("-", 1)[1] if found else None


def built_with_crate(program, *features):
    """A program of bench/rust, which calls the crate."""
    words = "cargo build --quiet --profile unset --offline --target-dir out --bin".split()
    printed_by([*words, program, *features], cwd="bench/rust")
    return f"bench/rust/out/unset/{program}"


def rows_of_page(begun_by):
    """The first two cells of each row, as the page has them, by the words that these first words of rows have."""
    with open(PAGE) as page:
        lines = page.read().splitlines()
    rows = {}
    for word, begun in begun_by.items():
        found = [line for line in lines if line.startswith(f"| {begun}")]
        if len(found) != 1:
            stop(f"{PAGE} has not one row that begins with: {begun}")
        rows[word] = " | ".join(found[0].split(" | ")[:2]) + " |"
    return rows


class Pair:
    """What is printed of items here (`here`) and by the crate, called as rows say (`by_crate`). An item that `example` picks is shown."""

    def differing(self, items, rows=()):
        """The items of which the crate, called as these rows say, prints something else than is printed here."""
        return [item for item, text in zip(items, self.by_crate(items, rows)) if text != self.here(item)]

    def differs(self, item, rows=()):
        """Whether the item is right, and one of those."""
        return self.here(item) is not None and bool(self.differing([item], rows))

    def show(self, item, rows=()):
        """Prints an item that differs, and the first line that does."""
        printed = self.here(item), self.by_crate([item], rows)[0]
        pairs = enumerate(itertools.zip_longest(*(text.splitlines() for text in printed)), 1)
        place, (ours, theirs) = next((place, pair) for place, pair in pairs if pair[0] != pair[1])
        called = "by the crate" + (", called as all rows say" if rows else "")
        said = f"(line {place} of what is printed: {quoted(ours)} here, {quoted(theirs)} {called})\n"
        print(*(f"    {line}" for line in (item + said).splitlines()), sep="\n")

    def compare(self, items, rows):
        """Prints how many of the items differ, and by which rows. Answers how many differ by none."""
        differing = self.differing(items)
        print(f"{len(items) - len(differing)} {self.noun} print the same by the crate")
        unlike = self.differing(differing, rows)
        alike = [item for item in differing if item not in unlike]
        by_row = at_once(lambda word: self.differing(alike, but(word, rows)), rows)
        for word, found in zip(rows, by_row):
            print(f"\n{len(found)} differ by `{word}`: {rows[word]}")
            if found:
                # (one that differs by this row alone, if there is one)
                self.show(self.example(
                    found,
                    lambda item: self.differs(item) and not self.differs(item, [word]),
                    lambda item: self.differs(item) and self.differs(item, but(word, rows)),
                ))
        several = [item for item in alike if all(item not in found for found in by_row)]
        print(f"\n{len(several)} differ by several rows, with any one of which they would")
        print(f"\n{len(unlike)} differ by no row")
        if unlike:
            self.show(self.example(unlike, lambda item: self.differs(item) and self.differs(item, rows)), rows)
        return len(unlike)


def but(word, rows):
    """All rows but this one."""
    return [other for other in rows if other != word]
