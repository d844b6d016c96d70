"use strict";
// Shows one moment of the plan, a stage or a step, wherever the page speaks of the moment; and marks in the drawing what a name names.
const plan = JSON.parse(document.getElementById("plan").textContent);
const slider = document.getElementById("moment");
const last = Number(slider.max);
const place = (id) => document.getElementById(id);

const kept = { link: 0, table: 0 };
for (const kind in kept) {
  kept[kind] = plan[kind].map((row, number) => {
    const drawn = place(`${kind}-${number}`);
    const title = drawn.querySelector("title");
    return { row, drawn, title, name: title.textContent, now: place(`now-${kind}-${number}`), figure: place(`figure-${kind}-${number}`) };
  });
}
const tunnels = plan.tunnel.map((rates, number) => ({ rates, now: place(`now-tunnel-${number}`) }));
const columns = [...document.querySelectorAll("table")].map((table) => ({
  box: table.parentElement, heads: [...table.querySelectorAll("thead th")], cols: [...table.querySelectorAll("col")],
}));
const steps = [...document.querySelectorAll("[data-moment]")];

function level(element, found, changes) {
  element.classList.remove(...[...element.classList].filter((word) => word.startsWith("level-")));
  element.classList.add(`level-${found}`);
  element.classList.toggle("changes", changes);
}

function showLoads(moment) {
  for (const kind in kept) {
    for (const { row, drawn, now, title, name, figure } of kept[kind]) {
      const found = row.level[moment];
      const words = `${row.taken[moment]} of ${row.room}`;
      const percent = row.percent[moment];
      level(drawn, found, row.changes[moment]);
      drawn.style.setProperty("--share", percent / 100);
      title.textContent = `${name}: ${kind === "table" ? "entries " : ""}${words}, ${percent}%${row.changes[moment] ? ", changes" : ""}`;
      if (figure) {
        level(figure, found, false);
        figure.textContent = found < 5 ? "" : kind === "table" ? `table ${percent}%` : `${percent}%`;
      }
      now.textContent = words + (row.changes[moment] ? " ~" : "");
    }
  }
}

// Brings the column of the moment into view, right of the names that stand still.
function showColumn({ box, heads, cols }, moment) {
  heads.forEach((head, number) => {
    const here = number === moment + 1;
    head.toggleAttribute("data-here", here);
    cols[number].toggleAttribute("data-here", here);
    here ? head.setAttribute("aria-current", "step") : head.removeAttribute("aria-current");
  });
  const head = heads[moment + 1];
  const still = heads[0].offsetWidth;
  if (head.offsetLeft - still < box.scrollLeft || head.offsetLeft + head.offsetWidth > box.scrollLeft + box.clientWidth) {
    box.scrollLeft = head.offsetLeft - still - (box.clientWidth - still) / 2;
  }
}

function show(moment) {
  slider.value = moment;
  slider.setAttribute("aria-valuetext", plan.titles[moment]);
  place("said").replaceChildren(Object.assign(document.createElement("b"), { textContent: plan.titles[moment] }), `: ${plan.said[moment]}`);
  showLoads(moment);
  for (const { rates, now } of tunnels) now.textContent = rates[moment];
  for (const column of columns) showColumn(column, moment);
  for (const step of steps) {
    Number(step.dataset.moment) === moment ? step.setAttribute("aria-current", "step") : step.removeAttribute("aria-current");
  }
  place("back").disabled = moment === 0;
  place("on").disabled = moment === last;
}

function mark(button) {
  const pressed = button.getAttribute("aria-pressed") === "false";
  for (const other of document.querySelectorAll('[aria-pressed="true"]')) other.setAttribute("aria-pressed", "false");
  for (const marked of document.querySelectorAll(".marked")) marked.classList.remove("marked");
  button.setAttribute("aria-pressed", String(pressed));
  if (pressed) for (const id of button.dataset.marks.split(" ")) place(id).classList.add("marked");
}

// The page may be asked for a moment by `#stage-N` or `#step-N` behind its name.
function asked() {
  const [, kind, number] = /^#(stage|step)-(\d{1,4})$/.exec(location.hash) || [];
  if (kind) show(Math.min(last, 2 * number + (kind === "step" ? 1 : 0)));
}

slider.addEventListener("input", () => show(Number(slider.value)));
place("back").addEventListener("click", () => show(Math.max(0, Number(slider.value) - 1)));
place("on").addEventListener("click", () => show(Math.min(last, Number(slider.value) + 1)));
for (const step of steps) step.addEventListener("click", () => show(Number(step.dataset.moment)));
for (const button of document.querySelectorAll("[data-marks]")) button.addEventListener("click", () => mark(button));
addEventListener("hashchange", asked);
show(0);
asked();
