// Which point is fastest for which message, by the model: time = steps * alpha + rounds / chunks * bytes * beta.
const STEPS_OF_SIZE = ["B", "KiB", "MiB", "GiB", "TiB"];
const sizeOf = bytes => {
  const place = bytes < 1 ? 0 : Math.min(4, Math.floor(Math.log2(bytes) / 10));
  return `${Number((bytes / 1024 ** place).toPrecision(3))} ${STEPS_OF_SIZE[place]}`;
};
const timeOf = seconds => {
  const [scale, unit] = seconds >= 0.9995 ? [1, "s"] : seconds >= 0.9995e-3 ? [1e3, "ms"] : [1e6, "µs"];
  return `${Number((seconds * scale).toPrecision(3))} ${unit}`;
};
const time = (point, bytes) => point.start + point.perByte * bytes;

// The fastest points with the size from which each is fastest: of equal ones that with the least for each byte, then the first.
function ranges(points) {
  const found = [{ from: 0, point: points.reduce((best, it) => it.start < best.start || it.start === best.start && it.perByte < best.perByte ? it : best) }];
  for (;;) {
    const last = found[found.length - 1].point;
    const crossings = points.filter(it => it.perByte < last.perByte).map(it => ({ from: (it.start - last.start) / (last.perByte - it.perByte), point: it }));
    if (!crossings.length) return found;
    found.push(crossings.reduce((best, it) => it.from < best.from || it.from === best.from && it.point.perByte < best.point.perByte ? it : best));
  }
}

const LEAST = 2 ** 8, MOST = 2 ** 34, WIDE = 600, HIGH = 340, LEFT = 70, RIGHT = 30, TOP = 16, BOTTOM = 46, LETTER = 11;
const made = (name, attributes, said) => {
  const it = document.createElementNS(document.querySelector("svg").namespaceURI, name);
  for (const key in attributes) it.setAttribute(key, attributes[key]);
  if (said !== undefined) it.textContent = said;
  return it;
};

function chart(svg, points, found, bytes) {
  const times = points.flatMap(it => [time(it, LEAST), time(it, MOST)]).filter(it => it > 0);
  // Below the lowest curve there is room for its name.
  const low = Math.floor(Math.log10(Math.min(...times) * 0.4)), high = Math.ceil(Math.log10(Math.max(...times)) + 1e-9);
  const x = size => LEFT + (Math.log2(Math.min(MOST, Math.max(LEAST, size))) - 8) / 26 * (WIDE - LEFT - RIGHT);
  const y = seconds => HIGH - BOTTOM - (Math.log10(Math.max(seconds, 10 ** low)) - low) / Math.max(1, high - low) * (HIGH - TOP - BOTTOM);
  svg.replaceChildren(made("title", {}, svg.getAttribute("aria-label")));
  for (let power = 10; power <= 34; power += 4) {
    svg.append(made("line", { x1: x(2 ** power), x2: x(2 ** power), y1: TOP, y2: HIGH - BOTTOM, class: "grid" }));
    svg.append(made("text", { x: x(2 ** power), y: HIGH - BOTTOM + 18, "text-anchor": "middle" }, sizeOf(2 ** power)));
  }
  for (let power = low; power <= high; power++) {
    svg.append(made("line", { x1: LEFT, x2: WIDE - RIGHT, y1: y(10 ** power), y2: y(10 ** power), class: "grid" }));
    svg.append(made("text", { x: LEFT - 8, y: y(10 ** power) + 4, "text-anchor": "end" }, timeOf(10 ** power)));
  }
  svg.append(made("text", { x: (LEFT + WIDE) / 2, y: HIGH - 8, "text-anchor": "middle" }, "message size"));
  const along = (point, from, to) => Array.from({ length: 61 }, (_, it) => from * (to / from) ** (it / 60)).map((size, it) => `${it ? "L" : "M"}${x(size).toFixed(1)} ${y(time(point, size)).toFixed(1)}`).join("");
  for (const it of points) svg.append(made("path", { d: along(it, LEAST, MOST), class: "curve", "data-point": it.name }));
  if (bytes >= LEAST && bytes <= MOST) svg.append(made("line", { x1: x(bytes), x2: x(bytes), y1: TOP, y2: HIGH - BOTTOM, class: "chosen" }));
  const names = [];
  found.forEach((it, place) => {
    const from = Math.max(LEAST, it.from), to = Math.min(MOST, place + 1 < found.length ? found[place + 1].from : MOST);
    if (from >= to) return;
    const middle = Math.sqrt(from * to);
    svg.append(made("path", { d: along(it.point, from, to), class: "curve fastest", "data-point": it.point.name }));
    if (from > LEAST) svg.append(made("line", { x1: x(from), x2: x(from), y1: TOP, y2: HIGH - BOTTOM, class: "border" }));
    // The name stands below its curve, and below all others: of a curve that rises it is the left end that has to have room.
    const half = LETTER / 2 * it.point.name.length, left = 2 ** (26 * half / (WIDE - LEFT - RIGHT));
    if (x(to) - x(from) > 2 * half) names.push(made("text", { x: x(middle), y: y(time(it.point, middle / left)) + 20, "text-anchor": "middle", class: "named halo" }, it.point.name));
  });
  svg.append(...names);
}

for (const chooser of document.querySelectorAll(".chooser")) {
  const given = JSON.parse(chooser.dataset.points);
  const number = name => Math.max(0, Number(chooser.querySelector(`[name=${name}]`).value) || 0);
  const show = () => {
    const alpha = number("alpha") * 1e-6, bandwidth = number("bandwidth") * 1e9, bytes = number("size") * Number(chooser.querySelector("[name=unit]").value);
    const said = chooser.querySelector(".fastest-is"), body = chooser.querySelector(".ranges tbody");
    if (!bandwidth) { said.textContent = "Give a bandwidth above 0."; body.replaceChildren(); return; }
    const points = given.map(({ name, number, s, r, c }) => ({ name, number, start: s * alpha, perByte: r / c / bandwidth }));
    const found = ranges(points), last = found.filter(it => it.from <= bytes).pop().point;
    said.textContent = `For ${sizeOf(bytes)} point ${last.number}, ${last.name}, is the fastest: ${timeOf(time(last, bytes))}.`;
    body.replaceChildren(...found.map((it, place) => {
      const row = document.createElement("tr"), to = place + 1 < found.length ? sizeOf(found[place + 1].from) : "any size";
      for (const cell of [`point ${it.point.number}`, it.point.name, sizeOf(it.from), to]) row.append(Object.assign(document.createElement("td"), { textContent: cell }));
      return row;
    }));
    chart(chooser.querySelector("svg"), points, found, bytes);
  };
  chooser.addEventListener("input", show);
  show();
}
