"""Reads archives of KeYmaera X and writes a model of dlk for each entry.

    dlkt import ARCHIVE.kyx [-d FOLDER] [--entry NAME] [--print] [--check] [--prove] [--seconds N] [--dlk PROGRAM]

For each entry a folder is made below FOLDER, with `model`, `README` (what was replaced by what), and `strategy` where a tactic could be carried
over, or `sketch` where a search takes over in it. An entry that isn't understood is refused with its line, its column and the reason, and nothing is
written for it; the others go on. No file is written over but one that is as this command has written it.

    --print   prints the models, and writes nothing
    --check   compares each definition that was put in with what `dlk subst` makes of it, where it takes the substitution
    --prove   proves each entry: by the sketches of its tactics, then by the search alone; what proves it is put into `strategy`

Lines that say something of a place begin with ARCHIVE:LINE:COLUMN. The exit status is 0 where all entries are read (and are the same, and proved),
1 where one isn't, and 2 where the words or the archive are refused. Nothing here is proved: the reader decides what the model says, so read it.
"""

import argparse
import sys
from pathlib import Path
from typing import TYPE_CHECKING

from dlkt.program import add_options, one_line, program_of

if TYPE_CHECKING:
    from dlkt.archive.folders import Carried
    from dlkt.archive.models import Model
    from dlkt.archive.opening import Opened

HELP = "reads archives of KeYmaera X to models"
EXAMPLE = "dlkt import examples/keymaerax/cruise/archive -d /tmp/cruise"
READ, NOT_READ = 0, 1
LEAF_SECONDS = 20


def add_words(parser: argparse.ArgumentParser) -> None:
    """The words of the command."""
    parser.add_argument("archive", metavar="ARCHIVE")
    parser.add_argument("-d", "--folder", default=".", metavar="FOLDER", help="where the entries' folders are made (here)")
    parser.add_argument("--entry", metavar="NAME", help="this entry alone")
    parser.add_argument("--print", action="store_true", help="print the models, and write nothing")
    parser.add_argument("--check", action="store_true", help="compare the definitions with what dlk subst makes of them")
    parser.add_argument("--prove", action="store_true", help="prove each entry, and write its strategy")
    add_options(parser, "--seconds", default=60, help="for each search (60)")
    add_options(parser, "--dlk")


class Importer:
    """Goes through the entries of an archive, and says what is met."""

    def __init__(self, options: argparse.Namespace) -> None:
        self.options, self.archive, self.status = options, str(options.archive), READ
        self.program = program_of(options.dlk) if options.check or options.prove else ""

    def entry(self, one: "Opened") -> None:
        """One entry."""
        from dlkt.archive.opening import line_at, lines_of_hints

        model, fault = one.read.model, one.read.fault
        if model is None:
            assert fault is not None
            print(line_at(self.archive, fault.place, f"{one.read.entry.name}: refused: {fault.reason}"))
            old = Path(self.options.folder) / one.stem / "model"
            if not self.options.print and old.exists():
                print(f"{one.read.entry.name}: {one_line(str(old))} was there before, and is not of this archive")
            self.status = NOT_READ
            return
        for line in lines_of_hints(self.archive, model) if not self.options.print else ():
            print(line)
        if self.options.check and not self.is_same(model):
            self.status = NOT_READ
            return
        self.write(one.stem, model)

    def is_same(self, model: "Model") -> bool:
        """Compares the definitions of an entry, and says how that went."""
        from dlkt.archive.agreement import compared
        from dlkt.archive.opening import line_at

        found, name = compared(model, self.program), model.entry.name
        for one in found:
            where = f"in {one.where}" if one.where else "in the problem"
            if one.same is None:
                print(f"{name}: check: {one.name} {where} isn't compared: {one_line(one.said)}")
            elif not one.same:
                print(line_at(self.archive, model.entry.place, f"{name}: refused: {one.name} {where} is another thing by dlk subst: {one.said}"))
        same = sum(one.same is True for one in found)
        print(f"{name}: check: {same} of {len(found)} definitions are put in as dlk subst does it" if found else f"{name}: check: no definitions")
        return all(one.same is not False for one in found)

    def write(self, stem: str, model: "Model") -> None:
        """Prints or writes what was made of an entry."""
        from dlkt.archive import folders
        from dlkt.archive.opening import lines_of_tactics

        shown = Path(self.archive).name
        files = {"model": folders.model_file(model, shown)}
        if self.options.print:
            print(files["model"], end="")
            return
        tactics = folders.carried(model)
        files |= folders.strategy_files(model, shown, tactics)
        files["README"] = folders.readme_file(model, shown, tactics)
        folder = Path(self.options.folder) / stem
        folders.put(folder, files, self.archive)
        print(f"{model.entry.name}: {one_line(str(folder))}: {', '.join(files)}")
        for line in lines_of_tactics(self.archive, model, tactics):
            print(line)
        if self.options.prove:
            self.prove(model, folder, files["model"], tactics)

    def prove(self, model: "Model", folder: Path, text: str, tactics: list["Carried"]) -> None:
        """Proves an entry, and puts what proves it into its folder."""
        from dlkt.archive import folders, proving
        from dlkt.archive.verifying import line_of

        limits = proving.Limits(self.program, self.options.seconds, LEAF_SECONDS)
        for attempt in proving.attempts(str(folder / "model"), text, tactics, limits):
            print(line_of(model.entry.name, attempt), flush=True)
            if attempt.is_verified:
                head = f"/* by {folders.comment(attempt.how)} */"
                said = folders.marked("/* ", f" of {folders.comment(Path(self.archive).name)} */", f"{head}\n{attempt.strategy}")
                folders.put(folder, {"strategy": said}, self.archive)
                return
        self.status = NOT_READ


def run(options: argparse.Namespace) -> int:
    """Reads an archive."""
    from dlkt.archive.opening import opened  # it needs the package lark

    importer = Importer(options)
    for one in opened(importer.archive, options.entry):
        importer.entry(one)
        sys.stdout.flush()
    return importer.status
