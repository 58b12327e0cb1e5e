// The formulas: each is a node of the term, or one of those that are given beside it, and its text is made here.
const [LEVEL, FIRST, LATER, OPENING, BETWEEN, CLOSING, DETAIL, BRACKETS] = [0, 1, 2, 3, 4, 5, 6, 7];
const trees = [null], steps = [""], laid = new Map(Object.entries(data.laid).map(([n, text]) => [Number(n), text]));
function take(line) {
  const [, , word, ...rest] = line.split(" ");
  const detail = data.operators[word][DETAIL] ? rest.shift() : "";
  trees.push({ word, detail, kids: rest.map(Number), text: null });
}
data.term.split("\n").forEach(line => { if (line.startsWith("node ")) take(line); else if (/^[1-9]/.test(line)) steps.push(line); });
data.more.forEach(take);
function within(n, least) {
  const row = data.operators[trees[n].word];
  return row[LEVEL] >= least ? textOf(n) : row[BRACKETS][0] + textOf(n) + row[BRACKETS][1];
}
function systemText(tree) {
  let at = 0;
  const items = tree.detail.split(",").map(item => item.endsWith("'") ? `${item}=${textOf(tree.kids[at++])}` : item);
  const domain = tree.kids[at];
  return items.join(",") + (trees[domain].word === "true" ? "" : "&" + textOf(domain));
}
function textOf(n) {
  const tree = trees[n];
  if (tree.text === null) {
    const row = data.operators[tree.word], unit = tree.word === "ufun" || tree.word === "upred", [name, taboo] = tree.detail.split("|");
    const inside = tree.word === "system" ? systemText(tree) : tree.kids.map((kid, k) => within(kid, row[k ? LATER : FIRST])).join(row[BETWEEN]);
    const detail = !unit ? tree.detail : taboo ? `${name}(|${taboo}|)` : `${name}(||)`;
    tree.text = row[OPENING].replace("@", () => detail) + inside + row[CLOSING];
  }
  return tree.text;
}
// A sequent is two lists of numbers of formulas, 0 for one that the lines don't tell.
const UNKNOWN = "\u2026";
const sequentOf = s => (s ? data.sequents[s - 1] : "|").split("|").map(side => side ? side.split(",").map(Number) : []);
const shortOf = n => n ? textOf(n) : UNKNOWN;
const longOf = n => n && laid.has(n) ? laid.get(n) : shortOf(n);
const placed = sides => sides.map((side, right) => side.map((n, k) => [right ? k + 1 : -k - 1, n]));
function sequentLines(s) {
  const [left, right] = placed(sequentOf(s));
  const line = ([place, n]) => `${String(place).padStart(3)}: ` + longOf(n).split("\n").join("\n     ");
  return [...left.map(line), "     ==>", ...right.map(line)].join("\n");
}
// Whether the text of a node, which is a term, is that of a formula, too.
function isFormulaToo(n) {
  while (trees[n].word === "diff") n = trees[n].kids[0];
  return trees[n].word === "app" || trees[n].word === "ufun";
}
// The line of a step, with the texts of its formulas.
function stepText(number) {
  const line = steps[number], word = line.split(" ", 2)[1];
  if (word === "subst") {
    return line.replace(/([ ,])([^ ,~]+(?:\([^)]*\))?)~>(\d+)/g, (all, mark, symbol, n) => mark + (isFormulaToo(n) ? "term " : "") + `${symbol}~>${textOf(n)}`);
  }
  if (word === "apply") return line.replace(/#(\d+)\)$/, (all, n) => textOf(Number(n)) + ")");
  if (word !== "start" && word !== "leaf") return line;
  const [front, left, right] = /^(\d+ \w+) (.*?)==>(.*)$/.exec(line).slice(1);
  return `${front} ${sequentText([left, right].map(side => side.trim() ? side.trim().split(" ").map(Number) : []))}`;
}
const sequentText = ([left, right]) => [left.map(shortOf).join(", "), "==>", right.map(shortOf).join(", ")].filter(part => part).join(" ");
