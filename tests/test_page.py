"""Tests of the page of a proof, of how formulas are set, and of the tree by words."""

import hashlib
import html
import importlib.util
import json
import re
import shutil
import subprocess
import unittest
from html.parser import HTMLParser
from pathlib import Path

from helping import BRAKE, CHOICE, CLOSES_BRAKE, CLOSES_CHOICE, CLOSES_INCREMENT, INCREMENT, PROGRAM, ROOT, Case, needs_program

from searching import SearchCase, needs_search

from dlkt import semantics
from dlkt.commands import page
from dlkt.commands import tree as prooftree
from dlkt.program import answer
from dlkt.terms import Nodes, readable
from dlkt.trees import sequent_text
from dlkt.verdict import Options, Source, verdict_on
from dlkt.words import made_by, runs_in

ONE_MEGABYTE = 1_000_000
# Has the scripts of a page run on a document that isn't there.
RUN = r"""
const html = require("fs").readFileSync(process.argv[1], "utf8");
const script = [...html.matchAll(/<script>([\s\S]*?)<\/script>/g)].map(found => found[1]).join("\n");
const elements = {};
const element = id => elements[id] = elements[id] || { style: {}, dataset: {}, classList: { add() {}, remove() {}, toggle() {} }, addEventListener() {} };
global.addEventListener = () => {};
elements.texts = { textContent: "{}" };
global.document = { getElementById: id => id === "fails" ? null : element(id), querySelectorAll: () => [], body: element("body") };
"""
# Prints the rows of the tree, and then the lines of the term.
RUN_SCRIPTS = RUN + r"""
eval(script + ";for (let k = 1; k < steps.length; k++) console.log(stepText(k));"
  + "console.log(nodes.map((node, n) => JSON.stringify(rowText(node[TEXT], n ? nodes[parent[n]][TEXT] : 0))).join('\\n'));"
  + "console.log(nodes.map(node => setSequent(node[TEXT]).replace(/<[^>]*>/g, '')).join('\\n').replace(/&lt;/g, '<').replace(/&gt;/g, '>').length)");
"""

VOID = {"meta", "input", "br", "wbr", "link", "img"}


class Tags(HTMLParser):
    """Looks whether each tag that opens is closed, in their order, and keeps the words of the page and what it would load."""

    def __init__(self):
        super().__init__()
        self.open, self.wrong, self.loads, self.said = [], [], [], []

    def handle_starttag(self, tag, attrs):
        self.loads += [value for name, value in attrs if name.endswith(("src", "href")) and not value.startswith("#")]
        if tag not in VOID:
            self.open.append(tag)

    def handle_endtag(self, tag):
        if not self.open or self.open.pop() != tag:
            self.wrong.append(tag)

    def handle_data(self, data):
        self.said.append(data)


def looked_at(text):
    """The tags of a page."""
    tags = Tags()
    tags.feed(text)
    tags.close()
    return tags


def data_of(text):
    """What the page's script is given."""
    return json.loads(re.search(r"^const data = (\{.*\});$", text, re.MULTILINE)[1])


def sequents_of(data):
    """The texts of the sequents of a page, numbered from 1; dots for a formula that isn't known."""
    nodes = Nodes()
    for line in [*data["term"].split("\n"), *data["more"]]:
        if line.startswith("node "):
            _, _, word, *rest = line.split(" ", 3)
            nodes.add(nodes.read(word, f" {rest[0]}" if rest else ""))
    found = [""]
    for sides in data["sequents"]:
        left, right = ([int(number) for number in side.split(",") if number] for side in sides.split("|"))
        known = all(left + right)
        found.append(sequent_text(*([nodes.formula(str(number)) for number in side] for side in (left, right))) if known else "\u2026")
    return found


def plain_but_signs(text):
    """What is copied of a page, with signs of HTML as they are."""
    return re.sub(r"<[^>]*>", "", text)


def plain(marked):
    """What is copied of a marked text."""
    return html.unescape(re.sub(r"<[^>]*>", "", marked))


class Looking:
    """How a page is looked at."""

    def well_made(self, text):
        """The tags of a page, which must be well made and load nothing."""
        tags = looked_at(text)
        self.assertEqual((tags.open, tags.wrong, tags.loads), ([], [], []))
        self.assertIsNone(re.search(r"@import|url\((?!#)|@[A-Z]+@", text))
        return tags


class Page(Looking, Case):
    """A page, made with a solver of the test."""

    def setUp(self):
        super().setUp()
        self.solver("z3", "unsat", version="4.5.6")

    def made(self, model, strategy, *words):
        """How the page of these texts ends."""
        return self.tool("page", self.file("car", model), self.file("strategy", strategy), *words)


@needs_program
class Pages(Page):
    def test_a_verified_proof(self):
        run = self.made(CHOICE, CLOSES_CHOICE)
        self.assertEqual((run.returncode, run.stderr), (0, ""))
        said = "".join(self.well_made(run.stdout).said)
        term = self.folder / "term"
        answer(PROGRAM, "prove", self.folder / "car", self.folder / "strategy", term)
        for text in ("car", "verified", "closed, guarded, 1 leaf valid", "z3 4.5.6", "guarded", "1 of 1 valid"):
            self.assertIn(text, said)
        for data in (CHOICE.encode(), CLOSES_CHOICE.encode(), term.read_bytes()):
            self.assertIn(hashlib.sha256(data).hexdigest(), said)
        self.assertIn(f"{term.stat().st_size:,}", said)
        self.assertEqual(data_of(run.stdout)["term"], term.read_text())
        self.assertLess(run.stdout.index('id="strategy"'), run.stdout.index('id="leaves"'))
        self.assertIn("<details><summary>1 leaf, <b>1 of 1 valid</b>", run.stdout)
        self.assertIn("[{?v+1 &lt;= M(); v := v+1; ++ v := 0;}] v &lt;= M()".replace("{", "").replace("}", ""), plain_but_signs(run.stdout))

    def test_the_strategy_with_its_goals(self):
        text = self.made(INCREMENT, CLOSES_INCREMENT).stdout
        data = data_of(text)
        sequents, told = sequents_of(data), data["visits"]
        self.assertEqual([word for word, *_ in told], ["implyR(1)", "step(1)", "leaf"])
        self.assertEqual(told[2][1:4], [1, 21, 1])
        self.assertEqual(sequents[told[1][4][0]], "x>=0 ==> [x:=x+1;]x>=1")
        self.assertEqual(text.count('class="atom"'), 3)

    def test_goals_of_words_are_those_of_the_program(self):
        for example in ("tutorial/car", "fresh", "recipes/ghost_start"):
            folder = ROOT / "examples" / example
            files = [Source(name, (folder / name).read_bytes()) for name in ("model", "strategy")]
            found = page.Found(verdict_on(*files, Options(PROGRAM, 1, 1)), PROGRAM, "it")
            with page.tempfile.TemporaryDirectory() as place:
                found.place = Path(place)
                found.model = folder / "model"
                wanted = found.goals_before(found.runs[:12])
            by_byte = {visit.byte: visit for visit in found.visits}
            for run, goal in wanted.items():
                at = [one for one in found.runs if one.byte == run.byte].index(run)
                if at < page.GOALS_SHOWN:
                    self.assertEqual(sequent_text(*by_byte[run.byte].goals[at]), sequent_text(*goal), run)

    def test_a_proof_that_is_not_verified(self):
        self.solver("z3", "sat", "(model (define-fun |v.x| () Real (- 2.0)))")
        false = "".join(self.well_made(self.made("x>=0 -> [x:=x-1;]x>=0\n", CLOSES_INCREMENT).stdout).said)
        for text in ("not verified", "leaf 1 is false", "at x=-2", "0 of 1 valid"):
            self.assertIn(text, false)
        left = "".join(self.well_made(self.made(INCREMENT, "implyR(1)\n").stdout).said)
        for text in ("not verified", "1 goal left", "open", "goal 1"):
            self.assertIn(text, left)
        self.assertIn("x>=0 ==> [x:=x+1;]x>=1", sequents_of(data_of(self.made(INCREMENT, "implyR(1)\n").stdout)))
        parameter = self.made(BRAKE.replace("M()", "M"), CLOSES_BRAKE).stdout
        unguarded = "".join(self.well_made(parameter).said)
        for text in ("not verified", "unguarded line 17: di-not-evolved M", "Made by dI(1), strategy, line 2, column 1"):
            self.assertIn(text, unguarded)

    def test_texts_with_signs_of_html(self):
        comment = "/* </script><b>&amp; @TREE@ \u00e4 */ "
        run = self.made(comment + INCREMENT, comment + CLOSES_INCREMENT, "--title", "<i>a & b")
        said = "".join(self.well_made(run.stdout.replace("@TREE@", "")).said)
        self.assertIn("</script><b>&amp;", said)
        self.assertIn("<i>a & b", said)
        texts = json.loads(re.search(r'id="texts">(.*?)</script>', run.stdout)[1])
        written = {name: (comment + text).encode().decode("latin-1") for name, text in (("model", INCREMENT), ("strategy", CLOSES_INCREMENT))}
        texts.pop("term", None)  # which is there where it is of version 2
        self.assertEqual(texts, written)

    def test_a_strategy_that_fails(self):
        run = self.made(INCREMENT, "implyR(1); /* a */\n (step(1); andR(1); leaf);\n close\n")
        self.assertEqual((run.returncode, run.stderr), (0, ""))
        said = "".join(self.well_made(run.stdout).said)
        for text in ("not verified", "the strategy fails", "strategy, line 2, column 12: WrongShape", "it fails on goal 1", "1 open goal"):
            self.assertIn(text, said)
        data = data_of(run.stdout)
        self.assertEqual([[word, *place] for word, *place, _, _ in data["visits"]], [["implyR(1)", 1, 1], ["step(1)", 2, 3]])
        self.assertIn('<mark id="fails" title="it fails here"><span class="text">andR</span></mark>', run.stdout)
        self.assertIn("x>=0 ==> x+1>=1", sequents_of(data))

    def test_a_branch_of_the_wrong_length(self):
        said = "".join(self.well_made(self.made(INCREMENT, "implyR(1); step(1); <(leaf, leaf)\n").stdout).said)
        for text in ("the strategy fails", "WrongCount: the branch has 2 parts, and there is 1 goal", "it meets goal 1"):
            self.assertIn(text, said)

    def test_a_term(self):
        model, strategy, term = self.file("car", INCREMENT), self.file("strategy", CLOSES_INCREMENT), str(self.folder / "term")
        answer(PROGRAM, "prove", model, strategy, term)
        for data in (Path(term).read_bytes(), readable(Path(term).read_bytes()).encode()):
            run = self.tool("page", model, self.file("proof", data))
            said = "".join(self.well_made(run.stdout).said)
            self.assertIn("verified", said)
            self.assertIn("The proof was given as a term", said)
            self.assertNotIn("linked", said.partition("strategy")[0])
            self.assertIn(hashlib.sha256(data).hexdigest(), said)
            self.assertEqual(data_of(run.stdout)["term"], Path(term).read_text())
            texts = json.loads(re.search(r'id="texts">(.*?)</script>', run.stdout)[1])
            self.assertEqual(texts.get("term", Path(term).read_text()), data.decode())

    def test_a_linked_proof(self):
        model = self.file("car", "(x>=0 -> x>=0)&(x>=0 -> x>=0)\n")
        outer = self.file("outer", "1 start ==> (x>=0 -> x>=0)&(x>=0 -> x>=0)\n2 apply 1 1 andR(1)\ndone\n")
        lemma = self.file("lemma", "1 start ==> x>=0 -> x>=0\n2 apply 1 1 implyR(1)\n3 apply 2 1 close(1,1)\ndone\n")
        linked = str(self.folder / "linked")
        self.assertEqual(answer(PROGRAM, "link", model, outer, lemma, linked).status, 0)
        said = "".join(self.well_made(self.tool("page", model, linked).stdout).said)
        self.assertIn("The proof is a linked one", said)
        self.assertIn("lines 3 to 5: 2 goals proved with ==>x>=0->x>=0", said.replace(" -> ", "->").replace("==> ", "==>"))

    def test_what_is_refused(self):
        target = self.folder / "page.html"
        run = self.made(INCREMENT, "implyR(1);\n andR(1\n", "-o", target)
        self.assertEqual((run.returncode, run.stdout, run.stderr.count("\n")), (2, "", 1))
        self.assertIn("strategy:3:1: refused: strategy at 19: syntax", run.stderr)
        self.assertFalse(target.exists())
        model = self.file("car", INCREMENT)
        for name in (model, f"{self.folder}/./car", self.folder / "link"):
            (self.folder / "link").unlink(missing_ok=True)
            (self.folder / "link").symlink_to(model)
            run = self.tool("page", model, self.file("strategy", CLOSES_INCREMENT), "-o", name)
            self.assertEqual((run.returncode, run.stderr.count("\n")), (2, 1))
            self.assertIn("is an input", run.stderr)
        self.assertEqual((self.folder / "car").read_text(), INCREMENT)
        self.assertEqual(self.tool("page", "/nowhere/model", model).returncode, 2)

    def test_nothing_but_a_page_is_written_over(self):
        other = self.file("other", "a text that took a day\n")
        term = self.file("term", "1 start ==> true\ndone\n")
        for run in (self.made(INCREMENT, CLOSES_INCREMENT, "-o", other), self.tool("tree", term, other)):
            self.assertEqual((run.returncode, run.stderr.count("\n")), (2, 1))
        self.assertEqual((self.folder / "other").read_text(), "a text that took a day\n")
        for _ in range(2):
            self.assertEqual(self.tool("tree", term).returncode, 0)

    def test_a_program_on_path(self):
        (self.solvers / "dlk").symlink_to(Path(PROGRAM).resolve())
        self.assertEqual(self.made(INCREMENT, CLOSES_INCREMENT, "--dlk", "dlk").returncode, 0)

    def test_output_and_title(self):
        target = self.folder / "page.html"
        run = self.made(INCREMENT, CLOSES_INCREMENT, "-o", target, "--title", "A step")
        self.assertEqual((run.returncode, run.stdout), (0, ""))
        self.assertIn("<title>A step: verified</title>", target.read_text())


@needs_search
@unittest.skipUnless(semantics.is_there(), semantics.NEEDED)
class OfSearch(Looking, SearchCase):
    """The pages of `dlkt verify` where no proof is named."""

    def shown(self, model, status, *wanted):
        """The text of the page of a model for which the verdict has this status, and what it says: all that is wanted."""
        run = self.tool("verify", model, "--page", self.folder / "page.html")
        self.assertEqual((run.returncode, run.stderr), (status, ""))
        text = (self.folder / "page.html").read_text()
        said = "".join(self.well_made(text).said)
        for one in (*wanted, *(hashlib.sha256(Path(file).read_bytes()).hexdigest() for file in (model, PROGRAM))):
            self.assertIn(one, said)
        self.assertEqual(json.loads(re.search(r'id="texts">(.*?)</script>', text)[1])["model"], Path(model).read_text())
        return text, said

    def test_a_run_that_breaks_the_model(self):
        model = ROOT / "examples" / "search" / "false_tank" / "model"
        text, _ = self.shown(model, 5, "false_tank: refuted", "a run breaks the model", "the loop's body breaks @invariant")
        rows = [[plain(cell) for cell in re.findall("<td>(.*?)</td>", row)] for row in re.findall("<tr>(.*?)</tr>", text)]
        self.assertEqual(rows[1:7], [
            ["at first", "", "", "l = 0, L() = 1, f() = 1, T() = 1, t = 0, q = 0"],
            ["round 1", "?l+f()*T()<=L();", "", "holds"],
            ["", "q:=2*f();", "", "q = 2"],
            ["", "t:=0;", "", "t = 0"],
            ["", "{l'=q,t'=1&t<=T()}", "for 1", "l = 2, t = 1"],
            ["fails", "l<=L()", "", "2 <= 1"],
        ])
        self.assertEqual(text.count("<svg"), int(importlib.util.find_spec("matplotlib") is not None))
        if shutil.which("node"):
            run = subprocess.run([shutil.which("node"), "-e", f"{RUN}\neval(script)", self.folder / "page.html"], capture_output=True, text=True, check=False)
            self.assertEqual((run.returncode, run.stderr), (0, ""))

    def test_a_run_by_numbers(self):
        _, said = self.shown(self.file("model", "x^2+y^2=r()^2 -> [{x'=y,y'=x}]x^2+y^2=r()^2\n"), 5, ": refuted", "It isn't exact: look at it.")
        told = re.findall(r"by numbers: simulated with steps of at most [0-9.]+, and false by [0-9.]+\. It isn't exact", said)
        self.assertEqual(len(told), 2)

    def test_no_proof(self):
        wanted = ("no way on: x>=0 ==> f(x)>=0", "no rule takes what stands on the right apart", "a run that breaks the model", "nothing found: ")
        self.shown(self.file("model", "x>=0 -> [x:=f(x);]x>=0\n"), 1, ": not verified", *wanted)

    def test_a_proof(self):
        self.shown(self.file("model", INCREMENT), 0, "verified", "closed, guarded, 1 leaf valid")

    def test_nothing_is_written_over(self):
        model = self.file("model", "x>0 -> [x:=x-1;]x>0\n")
        for target in (self.file("other", "a text that took a day\n"), model):
            before = Path(target).read_text()
            run = self.tool("verify", model, "--page", target)
            self.assertEqual((run.returncode, run.stdout, run.stderr.count("\n")), (4, "", 1))
            self.assertEqual(Path(target).read_text(), before)

    def test_of_a_sketch_that_does_not_do_there_is_none(self):
        target = self.folder / "page.html"
        run = self.tool("verify", self.file("model", "x>0 -> [x:=x-1;]x>0\n"), self.file("sketch", "implyR(1); auto\n"), "--page", target)
        self.assertEqual((run.returncode in (1, 5), target.exists()), (True, False))


class Parts(unittest.TestCase):
    def test_a_strategy_that_is_shortened(self):
        for source, word, wanted in (
            ("a(1); b; c", "b", "a(1); nil"),
            ("a; <(bcd; fgh, e_f(1), g_h) /* i */; j", "fgh", "a; <(bcd; nil, nil   , nil)"),
            ("(abc | bcd; def) ; ghi", "def", "(abc | bcd; nil)"),
            ("(abc; bcd) | def; ghi", "bcd", "(abc; nil)"),
            ("abc; (bcd; <(def, ghi))*3; jkl", "<(", "abc; (bcd; nil         )*3"),
        ):
            with self.subTest(source=source):
                byte = source.index(word)
                found = page.shortened(source.replace("b;", "bbb;") if word == "b" else source, byte)
                self.assertEqual(" ".join(found.split()), " ".join(wanted.split()))
        self.assertIsNone(page.shortened("a; (", 0))
        self.assertIsNone(page.shortened("abc", 1))


class Titles(unittest.TestCase):
    def test_of_the_folder_or_the_file(self):
        self.assertEqual(page.title_of("/proofs/car/model"), "car")
        self.assertEqual(page.title_of("/proofs/car.dlkmodel"), "car")


@unittest.skipUnless(shutil.which("node"), "node isn't installed")
class Typesetting(unittest.TestCase):
    """What the script of a page makes of texts."""

    def set(self, texts):
        """The texts as they are set."""
        asked = f"{prooftree.part('escaped.js', 'typeset.js')}\nconsole.log(JSON.stringify(JSON.parse(require('fs').readFileSync(0)).map(setFormula)));"
        run = subprocess.run([shutil.which("node"), "-e", asked], input=json.dumps(texts), capture_output=True, text=True, check=True)
        return json.loads(run.stdout)

    def test_what_is_copied_is_what_was_written(self):
        texts = [path.read_text() for name in ("model", "strategy") for path in sorted(ROOT.glob(f"examples/**/{name}"))]
        for text, marked in zip(texts, self.set(texts), strict=True):
            self.assertEqual(plain(marked), text)
            self.assertEqual(looked_at(marked).open, [], text)

    def test_signs(self):
        compared, star, product, note = self.set(["x<=1", "[{x:=*;}*]true", "x*y", "[{x:=1;}*@invariant(x>=0)]x>=0 /* x*y */"])
        self.assertIn('data-s="\u2264"', compared)
        self.assertNotIn('data-s="\u00b7"', star)
        self.assertIn('data-s="\u00b7"', product)
        self.assertNotIn('data-s="\u00b7"', note)
        self.assertIn('<span class="note">@invariant</span>', note)
        self.assertIn('<span class="comment">/* x*y */</span>', note)


def units(data):
    """How many nodes the tree by words has: those of a word that hang together are one. Nodes stand in order, each with the number of its kids."""
    above, waiting = {}, []
    for node, row in enumerate(data["nodes"]):
        while waiting and waiting[-1][1] == 0:
            waiting.pop()
        if waiting:
            above[node] = waiting[-1][0]
            waiting[-1][1] -= 1
        waiting.append([node, row[4]])
    words = [row[3] for row in data["nodes"]]
    return sum(node not in above or words[node] < 0 or words[above[node]] != words[node] for node in range(len(words)))


@needs_program
class Tree(Case):
    def test_the_longest_proof_of_the_gallery(self):
        folder = max(ROOT.glob("examples/gallery/*"), key=lambda it: int((it / "report").read_text().split()[-1]) if it.is_dir() else 0)
        strategy = (folder / "strategy").read_bytes()
        term, _ = made_by(PROGRAM, folder / "model", strategy.decode("latin-1"))
        told = prooftree.told_by(runs_in(PROGRAM, folder / "model", strategy.decode("latin-1"), term), strategy)
        drawing = prooftree.Drawing(term)
        data = data_of(prooftree.page(drawing, "term", 12, told))
        self.assertEqual(len(data["nodes"]), len(drawing.nodes))
        self.assertLess(10, units(data))
        self.assertLessEqual(units(data), 200)

    def test_a_long_proof_has_a_small_page(self):
        texts = [[re.sub(r"/\*.*?\*/", "", (ROOT / "examples/gallery" / name / file).read_text(), flags=re.DOTALL).strip()
                  for name in ("robot_safety", "train")] for file in ("model", "strategy")]
        model = self.file("model", "({}) & ({})\n".format(*texts[0]))
        strategy = self.file("strategy", "andR(1); <({}, {})\n".format(*texts[1]))
        self.solver("z3", "unsat")
        run = self.tool("page", model, strategy)
        self.assertEqual((run.returncode, run.stderr), (0, ""))
        self.assertGreater(run.stdout.count("\\n") + 1, 2_600)
        self.assertLess(len(run.stdout), ONE_MEGABYTE // 2)

    @unittest.skipUnless(shutil.which("node"), "node isn't installed")
    def test_the_scripts_of_a_page(self):
        model, strategy, term = self.file("model", CHOICE), self.file("strategy", CLOSES_CHOICE), str(self.folder / "term")
        answer(PROGRAM, "prove", model, strategy, term)
        self.solver("z3", "unsat")
        text = self.tool("page", model, strategy).stdout
        run = subprocess.run([shutil.which("node"), "-e", RUN_SCRIPTS, self.file("it.html", text)], capture_output=True, text=True, check=False)
        self.assertEqual(run.stderr, "")
        lines = run.stdout.split("\n")
        wanted = readable(Path(term).read_bytes()).split("\n")[:-2]
        self.assertEqual(lines[: len(wanted)], wanted)
        rows = [json.loads(line) for line in lines[len(wanted) : len(wanted) + len(data_of(text)["nodes"])]]
        self.assertEqual(rows[0], ["1: 0<=v&v<=M() -> [?v+1<=M();v:=v+1;++v:=0;]v<=M()", ""])
        self.assertEqual(rows[1][0], "-1: 0<=v&v<=M()   1: [?v+1<=M();v:=v+1;++v:=0;]v<=M()")
        self.assertEqual(sum(row == ["1: [v:=v+1;]v<=M()", "-1: 0<=v&v<=M()   -2: v+1<=M()"] for row in rows), 0)

    def test_the_script(self):
        model, strategy, term = self.file("model", INCREMENT), self.file("strategy", CLOSES_INCREMENT), str(self.folder / "term")
        answer(PROGRAM, "prove", model, strategy, term)
        run = self.tool("tree", term, "--model", model, "--strategy", strategy)
        self.assertEqual((run.returncode, run.stdout, run.stderr), (0, "", ""))
        text = (self.folder / "term.html").read_text()
        data = data_of(text)
        self.assertEqual([word for word, _ in data["words"]], ["implyR(1)", "step(1)", "leaf"])
        self.assertEqual(units(data), 3)
        tags = looked_at(text)
        self.assertEqual((tags.open, tags.wrong, tags.loads), ([], [], []))
        lines = self.tool("tree", term, "-").stdout
        self.assertEqual(data_of(lines)["words"], [])
        other = self.tool("tree", term, "-", "--model", model, "--strategy", self.file("other", "implyR(1)\n"))
        self.assertEqual((other.returncode, data_of(other.stdout)["words"], other.stderr.count("\n")), (0, [], 1))

    def test_what_is_refused(self):
        term = self.file("term", "1 start ==> true\ndone\n")
        for words in ((term, term), (term, "-", "--model", term), ("/nowhere/term",), (self.file("none", "x\n"), "-"),
                      (self.file("rule", "1 start ==> true&true\n2 apply 1 1 andR()\ndone\n"), "-"),
                      (self.file("place", "1 start ==> true\n2 apply 1 1 exchangeR(1,9)\ndone\n"), "-")):
            run = self.tool("tree", *words)
            self.assertEqual((run.returncode, run.stdout), (2, ""))
            self.assertNotEqual(run.stderr, "")


if __name__ == "__main__":
    unittest.main()
