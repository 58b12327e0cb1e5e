// The tree of a proof. A node is a line's goal; a unit is a word of the strategy: the nodes that it made, as far as they hang together.
const [KIND, LINE, TEXT, MADE, MERGES, KIDS, AGAIN, WORD] = [0, 1, 2, 3, 4, 5, 6, 7];
const KINDS = ["open", "rule", "axiom", "leaf", "subst", "rename", "again", "start"];
const ROW = 36, STEP = 22, LEFT = 14, WIDTH = 170, ENOUGH = { words: 200, lines: 400 };
// The nodes stand in the order of the tree, each with the number of its kids.
const nodes = data.nodes.map(([kind, line, sequent, word, , again = -1, ...merges]) => [KINDS[kind], line, sequent, 0, merges, [], again, word]);
const count = nodes.length, parent = new Int32Array(count).fill(-1), unit = new Int32Array(count), exits = new Map();
{
  const above = [];
  data.nodes.forEach((given, n) => {
    while (above.length && above[above.length - 1][1] === 0) above.pop();
    if (above.length) {
      const last = above[above.length - 1];
      parent[n] = last[0];
      nodes[last[0]][KIDS].push(n);
      nodes[n][MADE] = nodes[last[0]][LINE];
      last[1]--;
    }
    above.push([n, given[4]]);
  });
}
let byWords = data.words.length > 0, limit = data.depth, folded = new Map(), opened = new Set(), picked = "", rows = [], shownAt = 0;
nodes.forEach((node, n) => {
  const isWithin = n > 0 && node[WORD] >= 0 && nodes[parent[n]][WORD] === node[WORD];
  unit[n] = isWithin ? unit[parent[n]] : n;
});
nodes.forEach((node, n) => { if (unit[n] === n) exits.set(n, []); });
// In the order of the tree, so that the goals of a word stand in the order in which it left them.
(function collect() {
  const waiting = [0];
  while (waiting.length) {
    const n = waiting.pop();
    if (n > 0 && unit[n] === n) exits.get(unit[parent[n]]).push(n);
    for (let k = nodes[n][KIDS].length - 1; k >= 0; k--) waiting.push(nodes[n][KIDS][k]);
  }
})();
// A row is a node, drawn as its word ("w") or as its line ("n").
const isWord = n => byWords && unit[n] === n && nodes[n][WORD] >= 0;
const rowOf = n => (isWord(n) ? "w" : "n") + n;
const numberOf = row => Number(row.slice(1));
function below(row) {
  const n = numberOf(row);
  if (row[0] === "w") return opened.has(n) ? ["n" + n] : exits.get(n).map(rowOf);
  return nodes[n][KIDS].map(kid => (unit[kid] === kid ? rowOf(kid) : "n" + kid));
}
// How deep each row stands (the lines of an opened word as deep as the word), how many stand below it, and how many open goals.
let depth = new Map(), under = new Map(), goals = new Map();
function measure() {
  depth = new Map([[rowOf(0), 0]]); under = new Map(); goals = new Map();
  const order = [rowOf(0)];
  for (let k = 0; k < order.length; k++) {
    for (const kid of below(order[k])) {
      const isWithin = byWords && kid[0] === "n" && nodes[numberOf(kid)][WORD] >= 0;
      depth.set(kid, depth.get(order[k]) + (isWithin ? 0 : 1));
      order.push(kid);
    }
  }
  for (const row of order.reverse()) {
    const kids = below(row), sum = (map, one) => kids.reduce((total, kid) => total + map.get(kid) + one, 0);
    under.set(row, sum(under, 1));
    goals.set(row, sum(goals, 0) + (nodes[numberOf(row)][KIND] === "open" ? 1 : 0));
  }
}
const isFolded = row => below(row).length > 0 && (folded.has(row) ? folded.get(row) : depth.get(row) >= limit);
const cut = (text, width) => text.length > width ? text.slice(0, width - 1) + "\u2026" : text;
const several = (number, word) => `${number} ${word}${number === 1 ? "" : "s"}`;
// What a line does at a node.
function done(n) {
  const node = nodes[n], line = node[LINE] ? stepText(node[LINE]) : "";
  const parts = line.split(" ");
  if (node[KIND] === "open") return "open goal";
  if (node[KIND] === "again") return `the proof of line ${node[LINE]} again`;
  const skip = { apply: 4, subst: 3, rename: 3 }[parts[1]];
  const what = node[KIND] === "leaf" ? "leaf" : skip === undefined ? parts.slice(1).join(" ")
    : (parts[1] === "apply" ? "" : parts[1] + " ") + parts.slice(skip).join(" ");
  return `line ${node[LINE]}: ${what}`;
}
function made(n) {
  const node = nodes[n];
  return (node[MERGES].length ? ` \u00b7 merged by line ${node[MERGES].join(", ")}` : "")
    + (node[MADE] ? ` \u00b7 goal made by line ${node[MADE]}` : "");
}
// What a row shows of its goal: first what the row above doesn't have, with its places, then the others. Of a formula that stands in the place of one
// that begins alike only the part that changed is shown.
const pairsOf = s => { const [left, right] = placed(sequentOf(s)); return [...left, ...right]; };
function focus(fresh, old) {
  if (old.includes(fresh)) return fresh;
  let at = 0;
  while (at < fresh.length && fresh[at] === old[at]) at++;
  while (at > 0 && !/[&|>([{;,\s]/.test(fresh[at - 1])) at--;
  return at > 12 && at < fresh.length ? UNKNOWN + fresh.slice(at) : fresh;
}
function changes(s, before) {
  const here = pairsOf(s);
  if (!before) return [here, []];
  const sides = sequentOf(before), has = ([place, n]) => n > 0 && sides[place > 0 ? 1 : 0].includes(n);
  return [here.filter(pair => !has(pair)), here.filter(has)];
}
const plus = (place, text) => `${place}: ${text}`;
function rowText(s, before) {
  if (!s) return [UNKNOWN, ""];
  const [fresh, same] = changes(s, before), old = new Map(before ? pairsOf(before) : []);
  const now = new Set(pairsOf(s).map(([place, n]) => `${place > 0} ${n}`));
  const gone = [...old].filter(([place, n]) => n && !now.has(`${place > 0} ${n}`)).length;
  const first = fresh.map(([place, n]) => {
    const was = old.get(place);
    return plus(place, was && n ? focus(textOf(n), textOf(was)) : shortOf(n));
  }).join("   ");
  const rest = same.map(([place, n]) => plus(place, shortOf(n))).join("   ");
  const none = before && !fresh.length ? (gone ? `without ${gone} formula${gone > 1 ? "s" : ""}` : "the same") : "";
  return [first || none, rest];
}
const sizes = new Map();
nodes.forEach((node, n) => sizes.set(unit[n], (sizes.get(unit[n]) || 0) + 1));
// The word's text, and where it stands.
const said = n => data.words[nodes[n][WORD]];
const place = n => ` \u00b7 strategy ${said(n)[1]} \u00b7 ${several(sizes.get(n), "node")}`;
function layout() {
  measure();
  rows = [];
  const waiting = [[rowOf(0), 0]];
  while (waiting.length) {
    const [row, column] = waiting.pop();
    rows.push([row, column]);
    if (isFolded(row)) continue;
    const kids = below(row);
    for (let k = kids.length - 1; k >= 0; k--) waiting.push([kids[k], column + (kids.length > 1 || kids[0] === "n" + numberOf(row) ? 1 : 0)]);
  }
}
function mark(row, x, y, isHidden) {
  const big = isHidden ? 7 : 5;
  const shape = row[0] === "w" ? `<rect class="dot" data-fold="1" x="${x - big}" y="${y - big}" width="${2 * big}" height="${2 * big}" rx="2"/>`
    : `<circle class="dot" data-fold="1" cx="${x}" cy="${y}" r="${big}"/>`;
  return shape + (isHidden ? `<path class="cross" d="M${x - 4} ${y}h8M${x} ${y - 4}v8"/>` : "");
}
function upper(n, before) {
  const [fresh, same] = rowText(nodes[n][TEXT], before < 0 || before === n ? 0 : nodes[before][TEXT]), room = WIDTH - fresh.length - 5;
  const others = same && room > 8 ? `<tspan class="same">   |  ${escaped(cut(same, room))}</tspan>` : "";
  return escaped(cut(fresh, WIDTH)) + others;
}
function lower(row, hidden) {
  const n = numberOf(row);
  if (row[0] === "n") return escaped(cut(done(n), 110) + made(n) + hidden);
  return `<tspan class="said">${escaped(cut(said(n)[0], 110))}</tspan>${escaped(place(n) + hidden)}`;
}
function draw() {
  layout();
  const at = new Map(), edges = [], texts = [], above = new Map();
  rows.forEach(([row]) => below(row).forEach(kid => above.set(kid, row)));
  let wide = 0;
  rows.forEach(([row, column], r) => {
    const x = LEFT + column * STEP, y = r * ROW + 18, n = numberOf(row);
    at.set(row, [x, y]);
    wide = Math.max(wide, x);
    if (r > 0) {
      const [px, py] = at.get(above.get(row));
      edges.push(`<path class="edge${nodes[n][MERGES].length ? " merged" : ""}" d="M${px} ${py}V${y}H${x}"/>`);
    }
    const isHidden = isFolded(row);
    const hidden = isHidden ? ` [+${under.get(row)}${goals.get(row) ? `, ${goals.get(row)} open` : ""}]` : "";
    const kind = row[0] === "w" ? "unit" + (sizes.get(n) === 1 ? " " + nodes[n][KIND] : "") : nodes[n][KIND];
    texts.push(`<g class="row ${kind}${row === picked ? " picked" : ""}" data-row="${row}">`
      + `<rect x="${x + 9}" y="${y - 15}" width="1300" height="33" fill="none" pointer-events="all"/>${mark(row, x, y, isHidden)}`
      + `<text class="sequent" x="${x + 12}" y="${y - 2}">${upper(n, r ? numberOf(above.get(row)) : -1)}</text>`
      + `<text class="done" x="${x + 12}" y="${y + 12}">${lower(row, hidden)}</text></g>`);
  });
  document.getElementById("tree").innerHTML = `<svg xmlns="http://www.w3.org/2000/svg" width="${wide + 1330}" `
    + `height="${rows.length * ROW + 10}">${edges.join("")}${texts.join("")}</svg>`;
  document.getElementById("words").textContent = byWords ? "show lines" : "show words";
  document.getElementById("words").style.display = data.words.length ? "" : "none";
}
function tell(row) {
  picked = row;
  const n = numberOf(row), node = nodes[n], sequent = node[TEXT] ? sequentLines(node[TEXT]) : "the lines don't tell this sequent";
  const merges = node[MERGES].map(line => "\n" + stepText(line)).join("");
  const lines = (node[LINE] ? stepText(node[LINE]) : "no line works on this goal: it is open") + merges;
  document.getElementById("told").textContent = row[0] === "w"
    ? `${sequent}\n${said(n)[0]}${place(n)}; a click on the square ${opened.has(n) ? "closes" : "opens"} them`
    : `${sequent}${made(n)}\n${lines}`;
}
// Unfolds all that is above a node, and shows it.
function reveal(n) {
  measure();
  const up = new Map();
  depth.forEach((_, row) => below(row).forEach(kid => up.set(kid, row)));
  let row = rowOf(n);
  if (!depth.has(row)) { opened.add(unit[n]); reveal(n); return; }
  tell(row);
  for (row = up.get(row); row !== undefined; row = up.get(row)) folded.set(row, false);
  draw();
  document.querySelector(`[data-row="${rowOf(n)}"]`).scrollIntoView({ block: "center" });
}
function turn(row) {
  const n = numberOf(row);
  if (row[0] === "w" && isFolded(row)) folded.set(row, false);
  else if (row[0] === "w" && opened.has(n)) opened.delete(n);
  else if (row[0] === "w" && sizes.get(n) > 1) { opened.add(n); folded.set(row, false); measure(); openWhole(n); }
  else if (below(row).length) folded.set(row, !isFolded(row));
}
// The lines of an opened word are all shown, however deep they stand.
function openWhole(n) {
  const waiting = ["n" + n];
  while (waiting.length) {
    const row = waiting.pop();
    if (row[0] === "w") continue;
    folded.set(row, false);
    waiting.push(...below(row));
  }
}
document.getElementById("tree").addEventListener("click", event => {
  const found = event.target.closest("[data-row]");
  if (!found) return;
  const row = found.dataset.row, n = numberOf(row);
  if (event.target.dataset.fold && row[0] === "n" && nodes[n][AGAIN] >= 0) { reveal(nodes[n][AGAIN]); return; }
  if (event.target.dataset.fold) turn(row); else tell(row);
  draw();
});
const deepest = () => rows.reduce((most, [row]) => Math.max(most, depth.get(row)), 0);
const atDepth = to => { limit = Math.max(0, to); folded = new Map(); opened = new Set(); draw(); };
document.getElementById("less").onclick = () => atDepth(Math.min(limit, deepest()) - 1);
document.getElementById("more").onclick = () => atDepth(limit + 1);
document.getElementById("all").onclick = () => atDepth(1e9);
document.getElementById("words").onclick = () => { byWords = !byWords; atFirst(); };
document.getElementById("next").onclick = () => {
  const open = nodes.map((node, n) => n).filter(n => nodes[n][KIND] === "open");
  if (open.length) reveal(open[shownAt++ % open.length]);
};
// Words are shown as deep as there is room for, lines down to the depth that was asked for, and both higher where they are many.
function atFirst() {
  folded = new Map(); opened = new Set();
  limit = byWords ? 1e9 : data.depth;
  layout();
  if (byWords) limit = deepest();
  for (layout(); rows.length > ENOUGH[byWords ? "words" : "lines"] && limit > 1; layout()) limit--;
  draw();
}
atFirst();
