// The goals of a page on a proof, whose term the script has already.
texts.term ??= data.term;
{
  // The sequents of goals and of leaves are set as soon as they can be seen.
  const set = one => { if (!one.innerHTML) one.innerHTML = setSequent(Number(one.dataset.sequent)); };
  document.querySelectorAll("[data-sequent]").forEach(one => {
    const fold = one.closest("details");
    if (fold && !fold.open) fold.addEventListener("toggle", () => set(one)); else set(one);
  });
  // The goals beside the strategy: those of one word at a time, with arrow keys from word to word.
  const said = [...document.querySelectorAll(".atom[data-word]")];
  function show(at) {
    document.querySelectorAll(".atom.now").forEach(one => one.classList.remove("now"));
    said[at].classList.add("now");
    const [word, line, column, count, goals] = data.visits[at];
    const ran = count === 1 ? "it ran on this goal" : `it ran on ${count} goals`;
    const rest = goals.length < count ? `, of which these are the first ${goals.length}` : "";
    document.getElementById("goals").innerHTML = `<h3>${escaped(word)}</h3><p>line ${line}, column ${column}: ${ran}${rest}</p>`
      + goals.map(s => `<div class="sequent">${setSequent(s)}</div>`).join("");
  }
  said.forEach((word, at) => {
    word.onclick = () => show(at);
    word.onkeydown = event => {
      const to = at + ({ ArrowDown: 1, ArrowRight: 1, ArrowUp: -1, ArrowLeft: -1 }[event.key] || 0);
      if (to !== at && said[to]) { event.preventDefault(); show(to); said[to].focus(); }
    };
  });
  if (said.length) show(document.getElementById("fails") ? said.length - 1 : 0);
}
