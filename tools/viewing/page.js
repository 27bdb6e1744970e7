// Each slider shows the state after its step, marks the step in the diagram, and brings it into view.
for (const point of document.querySelectorAll(".point")) {
  const slider = point.querySelector("input[type=range]"), figure = point.querySelector("figure"), follow = point.querySelector("select");
  const show = () => {
    point.querySelector("output").textContent = slider.value;
    slider.setAttribute("aria-valuetext", slider.value === "0" ? "before the first step" : `after step ${slider.value}`);
    for (const it of point.querySelectorAll(".state")) it.hidden = it.dataset.step !== slider.value;
    for (const it of point.querySelectorAll(".column")) it.classList.toggle("now", it.dataset.column === slider.value);
    const now = point.querySelector(".column.now");
    if (!now) { figure.scrollLeft = 0; return; }
    // The names stand over what is at the left of the frame.
    const box = now.getBoundingClientRect(), { right } = figure.getBoundingClientRect(), left = figure.querySelector(".names").getBoundingClientRect().right;
    if (box.left < left || box.right > right) figure.scrollLeft += box.left - left - Math.max(0, (right - left - box.width) / 2);
  };
  // What is followed keeps its ink, all else is grey: `node n0`, `chunk 3`, `step 2` or nothing.
  const grey = () => {
    const [kind, name] = follow.value.split(" ");
    const has = said => {
      const [step, sender, receiver, ...chunks] = said.split(" ");
      return !kind || kind === "node" && (sender === name || receiver === name) || kind === "chunk" && chunks.includes(name) || kind === "step" && step === name;
    };
    for (const it of point.querySelectorAll("[data-send]")) it.classList.toggle("grey", !has(it.dataset.send));
  };
  const choose = value => { follow.value = follow.value === value ? "" : value; grey(); };
  figure.addEventListener("click", event => {
    const send = event.target.closest("[data-send]"), step = event.target.closest(".step");
    if (send) choose(`chunk ${send.dataset.send.split(" ")[3]}`);
    else if (event.target.matches(".name")) choose(`node ${event.target.textContent}`);
    else if (step) choose(`step ${step.parentNode.dataset.column}`);
  });
  point.addEventListener("keydown", event => { if (event.key === "Escape") { follow.value = ""; grey(); } });
  slider.addEventListener("input", show);
  follow.addEventListener("change", grey);
  show();
}
// What is closed on the screen is printed too.
let closed = [];
addEventListener("beforeprint", () => { closed = [...document.querySelectorAll("details:not([open])")]; for (const it of closed) it.open = true; });
addEventListener("afterprint", () => { for (const it of closed) it.open = false; });
