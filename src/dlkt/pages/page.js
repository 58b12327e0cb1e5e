// The files as they were: the texts have a character for each byte.
const texts = JSON.parse(document.getElementById("texts").textContent);
{
  document.body.classList.add("js");
  document.getElementById("signs").onchange = event => document.body.classList.toggle("signs", event.target.checked);
  document.querySelectorAll(".text").forEach(one => { one.innerHTML = setFormula(one.textContent); });
  addEventListener("beforeprint", () => document.querySelectorAll("details").forEach(one => { one.open = true; }));
  const bytesOf = name => Uint8Array.from(texts[name], letter => letter.charCodeAt(0));
  document.querySelectorAll("button[data-file]").forEach(button => {
    button.onclick = () => {
      const link = document.createElement("a");
      link.href = URL.createObjectURL(new Blob([bytesOf(button.dataset.file)]));
      link.download = button.dataset.file;
      link.click();
      URL.revokeObjectURL(link.href);
    };
  });
}
