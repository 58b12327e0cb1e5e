// Sets formulas, models and strategies: what is copied is the text, in front of which a sign is drawn. Programs in boxes are shaded.
const SIGNS = { "<->": "\u2194", "->": "\u2192", "==>": "\u22a2", "<=": "\u2264", ">=": "\u2265", "!=": "\u2260", "&": "\u2227", "|": "\u2228", "!": "\u00ac",
  "\\forall": "\u2200", "\\exists": "\u2203", "*": "\u00b7", "-": "\u2212" };
const APART = ["<->", "->", "==>", "&", "|", "++"], COMPARED = ["<=", ">=", "!=", "<", ">", "="];
const TOKEN = new RegExp([/(?<comment>\/\*[\s\S]*?\*\/)/, /(?<note>@\w+)/, /(?<sign>\\forall|\\exists|<->|->|==>|<=|>=|!=|:=|\+\+|[-+*\/^&|!<>=])/,
  /(?<constant>[A-Za-z]\w*\(\))/, /[A-Za-z]\w*'?/, /\d+(?:\.\d+)?/, /(?<blank>\s+)/, /[\s\S]/].map(one => one.source).join("|"), "g");
function setSign(text, before, behind) {
  const isStar = text === "*" && (before === ":=" || before === "}" || behind === "]" || behind === ";" || behind[0] === "@");
  const drawn = isStar ? undefined : SIGNS[text];
  const kind = APART.includes(text) ? "apart" : COMPARED.includes(text) ? "compare" : "sign";
  const shown = drawn ? `<i data-s="${drawn}">${escaped(text)}</i>` : escaped(text);
  return `<span class="${kind}">${shown}</span>` + (kind === "apart" ? "<wbr>" : "");
}
function setFormula(text) {
  const found = [...text.matchAll(TOKEN)], solid = found.map((one, k) => one.groups.blank || one.groups.comment ? -1 : k).filter(k => k >= 0);
  const beside = new Map(solid.map((k, at) => [k, [found[solid[at - 1]] || [""], found[solid[at + 1]] || [""]]]));
  let opened = 0;
  const out = found.map((one, k) => {
    const token = one[0], kind = ["comment", "note", "constant"].find(kind => one.groups[kind]);
    if (one.groups.sign) return setSign(token, beside.get(k)[0][0], beside.get(k)[1][0]);
    if (kind) return `<span class="${kind}">${escaped(token)}</span>`;
    if (token === "[") { opened++; return '<span class="box">['; }
    if (token === "]" && opened) { opened--; return "]</span><wbr>"; }
    return escaped(token) + (token === "," || token === ";" ? "<wbr>" : "");
  });
  return out.join("") + "</span>".repeat(opened);
}
const setSide = pairs => pairs.map(([place, n]) => `<div class="formula"><b>${place}</b><code${laid.has(n) ? ' class="laid"' : ""}>${setFormula(longOf(n))}</code></div>`).join("");
function setSequent(s) {
  const [left, right] = placed(sequentOf(s));
  return `${setSide(left)}<div class="turnstile"><i data-s="\u22a2">==&gt;</i></div>${setSide(right)}`;
}
