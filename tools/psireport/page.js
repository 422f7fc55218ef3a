// Lets a reader pick groups and resources, zoom by a drag or by keys, and read the values at a moment. Without it pictures stand still.
"use strict";
const data = JSON.parse(document.getElementById("data").textContent);
const LEFT = 112, RIGHT = 936, WIDTH = 960, MOST = 10, whole = [data.start, data.end];
// Steps of the time's numbers, in ms.
const STEPS = [1, 2, 5, 10, 20, 50, 100, 200, 500, 1e3, 2e3, 5e3, 1e4, 2e4, 3e4, 6e4, 12e4, 3e5, 6e5, 12e5, 18e5, 36e5, 72e5, 144e5,
  432e5, 864e5];
const figures = [...document.querySelectorAll("figure[data-panel]")].map((element) => ({
  element, panel: data.panels[+element.dataset.panel], svg: element.querySelector("svg"), values: element.querySelector(".values"),
}));
let [from, to] = whole, at = null;
const x = (ms) => LEFT + (ms - from) * (RIGHT - LEFT) / (to - from);
const shown = (ms) => ms >= from && ms <= to;
const seconds = (ms) => `${+(ms / 1000).toFixed(3)} s`;
const clock = (ms) => data.wall === null ? "" : new Date(data.wall + ms).toISOString().slice(11, 23).replace(/\.000$/, "");
const told = (value, panel) => panel.step ? `${(value / 1048576).toFixed(1)} MiB` : `${(value / 100).toFixed(2)} %`;
function made(parent, tag, attributes, text) {
  const element = parent.appendChild(document.createElementNS("http://www.w3.org/2000/svg", tag));
  for (const name in attributes) element.setAttribute(name, attributes[name]);
  if (text !== undefined) element.textContent = text;
  return element;
}
// The lines of a series, broken where the group wasn't there, and cut at the sides of the picture.
function lines(panel, values) {
  const y = (value) => panel.bottom - value * (panel.bottom - panel.top) / panel.most;
  const found = [[]];
  panel.t.forEach((ms, place) => {
    const before = place ? panel.t[place - 1] : null, line = found[found.length - 1];
    if (ms === null) { found.push([]); return; }
    if (before !== null) {
      for (const side of [from, to]) {
        const part = panel.step ? 0 : (side - before) / (ms - before);
        if (before < side && side < ms) line.push([x(side), y(values[place - 1] + (values[place] - values[place - 1]) * part)]);
      }
      if (panel.step && shown(ms)) line.push([x(ms), y(values[place - 1])]);
    }
    if (shown(ms)) line.push([x(ms), y(values[place])]);
  });
  return found.filter((line) => line.length).map((line) => line.length > 1 ? line : [line[0], line[0]]);
}
function draw({ panel, svg }) {
  for (const look in panel.s) {
    const group = svg.querySelector(`g.series.${look.replace(" ", ".")}`);
    // An average that only climbs is thin, and stays so.
    group.thin ??= group.querySelector(".climbing") !== null;
    group.replaceChildren();
    for (const line of lines(panel, panel.s[look])) {
      const points = line.map((it) => it.map((part) => part.toFixed(2)).join(",")).join(" ");
      made(group, "polyline", group.thin ? { class: "climbing", points } : { points });
    }
  }
  for (const level in panel.e) {
    const ticks = panel.e[level].filter(shown).map((ms) => `M${x(ms).toFixed(2)} ${panel.bottom + (level === "some" ? 5 : 12)}v6`);
    svg.querySelector(`path.tick.${level}`)?.setAttribute("d", ticks.join("") || "M0 0");
  }
  const time = svg.querySelector("g.time"), step = STEPS.find((it) => it * MOST >= to - from) || (to - from) / MOST;
  const shift = data.wall === null ? 0 : data.wall % step;
  time.replaceChildren();
  for (let ms = Math.ceil((from + shift) / step) * step - shift; ms <= to; ms += step) {
    made(time, "line", { class: "grid", x1: x(ms), y1: panel.top, x2: x(ms), y2: panel.bottom });
    made(time, "text", { x: x(ms), y: panel.below + 16, "text-anchor": "middle" }, clock(ms) || `${+(ms / 1000).toFixed(3)}`);
  }
  [...svg.querySelectorAll("g.marks > g")].forEach((mark, place) => {
    const ms = panel.marks[place], was = LEFT + (ms - whole[0]) * (RIGHT - LEFT) / (whole[1] - whole[0]);
    mark.style.display = shown(ms) ? "" : "none";
    mark.setAttribute("transform", `translate(${(x(ms) - was).toFixed(2)} 0)`);
  });
}
// Shows a part of the time, of a second at least.
function zoom(a, b) {
  const least = Math.min(1000, whole[1] - whole[0]), scale = 1000 / (whole[1] - whole[0]);
  from = Math.max(whole[0], Math.min(a, b, whole[1] - least));
  to = Math.max(from + least, Math.min(whole[1], Math.max(a, b)));
  figures.forEach(draw);
  const view = `${(from - whole[0]) * scale} 0 ${(to - from) * scale} 12`;
  document.querySelectorAll("svg.strip").forEach((it) => it.setAttribute("viewBox", view));
  document.getElementById("time").textContent = `${seconds(from)} to ${seconds(to)}`;
  point(at);
}
// Shows the values at a moment: those of the last report up to it.
function point(ms) {
  at = ms === null ? null : Math.max(from, Math.min(to, ms));
  for (const { panel, svg, values } of figures) {
    svg.querySelector(".cursor")?.remove();
    values.textContent = "";
    if (at === null) continue;
    made(svg, "line", { class: "cursor", x1: x(at), y1: panel.top, x2: x(at), y2: panel.bottom });
    const place = panel.t.findLastIndex((it) => it !== null && it <= at), moment = panel.t[place];
    const all = Object.keys(panel.s).map((look) => `${look.replace("-use", "")} ${told(panel.s[look][place], panel)}`);
    const when = [seconds(moment), clock(moment)].filter(Boolean).join(", ");
    values.textContent = place < 0 ? `${seconds(at)}: no report yet` : `${when}: ${all.join(", ")}`;
  }
}
function pick() {
  const on = (name) => [...document.querySelectorAll(`input[name=${name}]:checked`)].map((it) => it.value);
  const groups = on("group"), resources = on("resource");
  for (const { element } of figures) {
    element.hidden = !groups.includes(element.dataset.group) || !resources.includes(element.dataset.resource);
  }
}
for (const { svg, panel } of figures) {
  let start = null, box = null;
  const moment = (event) => {
    const bounds = svg.getBoundingClientRect(), place = (event.clientX - bounds.left) * WIDTH / bounds.width;
    return from + (Math.max(LEFT, Math.min(RIGHT, place)) - LEFT) * (to - from) / (RIGHT - LEFT);
  };
  const ended = () => { box?.remove(); start = null; };
  svg.tabIndex = 0;
  svg.addEventListener("pointerdown", (event) => { if (event.button === 0) start = moment(event); });
  svg.addEventListener("pointermove", (event) => {
    point(moment(event));
    box?.remove();
    if (start === null) return;
    if (!svg.hasPointerCapture(event.pointerId)) svg.setPointerCapture(event.pointerId);
    const [a, b] = [x(start), x(at)].sort((one, other) => one - other);
    box = made(svg, "rect", { class: "picked", x: a, y: panel.top, width: b - a, height: panel.bottom - panel.top });
  });
  svg.addEventListener("pointerup", (event) => {
    if (start !== null && Math.abs(x(moment(event)) - x(start)) > 5) zoom(start, moment(event));
    ended();
  });
  svg.addEventListener("pointercancel", ended);
  svg.addEventListener("dblclick", () => zoom(...whole));
  svg.addEventListener("keydown", (event) => {
    const step = (to - from) / (event.shiftKey ? 20 : 150), middle = at ?? (from + to) / 2, half = (to - from) / 2;
    const keys = {
      ArrowLeft: () => point(middle - step), ArrowRight: () => point(middle + step), Home: () => point(from), End: () => point(to),
      "+": () => zoom(middle - half / 2, middle + half / 2), "-": () => zoom(middle - half * 2, middle + half * 2),
      Escape: () => zoom(...whole),
    };
    if (event.ctrlKey || event.metaKey || event.altKey || !keys[event.key]) return;
    keys[event.key]();
    event.preventDefault();
  });
}
document.querySelectorAll(".controls input").forEach((it) => it.addEventListener("change", pick));
document.getElementById("whole").addEventListener("click", () => zoom(...whole));
document.documentElement.classList.add("live");
pick();
zoom(...whole);
