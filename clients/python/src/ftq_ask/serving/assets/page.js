"use strict";

// What a page does beside its links and forms: keys, the stop button, the theme. It writes texts and attributes, and no markup.

const root = document.documentElement;
const THEMES = { light: "Dark", dark: "Light" };

function theme() {
  return root.dataset.theme || (matchMedia("(prefers-color-scheme: dark)").matches ? "dark" : "light");
}

function keptTheme() {
  try {
    return localStorage.getItem("theme");
  } catch {
    return null;
  }
}

if (keptTheme() in THEMES) root.dataset.theme = keptTheme();

function startTheme() {
  const button = document.getElementById("theme");
  button.hidden = false;
  button.textContent = THEMES[theme()];
  button.addEventListener("click", () => {
    root.dataset.theme = theme() === "dark" ? "light" : "dark";
    button.textContent = THEMES[theme()];
    try {
      localStorage.setItem("theme", root.dataset.theme);
    } catch {
      // The page is as it should be; only the next one doesn't know.
    }
  });
}

function startField() {
  const field = document.getElementById("q");
  const fit = () => {
    field.style.height = "auto";
    field.style.height = `${field.scrollHeight + 2}px`;
  };
  fit();
  field.addEventListener("input", fit);
  field.addEventListener("keydown", (event) => {
    if (event.key === "Enter" && !event.shiftKey && !event.isComposing) {
      event.preventDefault();
      field.form.requestSubmit();
    } else if (event.key === "Escape") {
      field.blur();
    }
  });
}

function startStop() {
  const form = document.getElementById("stop");
  if (!form || document.getElementById("ended")) return;
  const begun = performance.now();
  const taken = document.getElementById("taken");
  const clock = setInterval(() => {
    taken.textContent = `${Math.round((performance.now() - begun) / 1000)} s`;
  }, 500);
  form.addEventListener("submit", (event) => {
    event.preventDefault();
    form.querySelector("button").disabled = true;
    fetch("/api/stop", {
      method: "POST",
      headers: { "content-type": "application/json" },
      body: JSON.stringify({ id: form.elements.id.value }),
    });
  });
  document.addEventListener("DOMContentLoaded", () => {
    clearInterval(clock);
    form.hidden = true;
  });
}

function places() {
  return [...document.querySelectorAll(document.body.classList.contains("document") ? "ol.listed a" : "li.hit")];
}

let here = -1;

function step(by) {
  const row = places();
  if (!row.length) return;
  if (here < 0) here = row.findIndex((it) => it.getAttribute("aria-current") === "true");
  here = here < 0 ? (by > 0 ? 0 : row.length - 1) : Math.min(Math.max(here + by, 0), row.length - 1);
  const place = row[here];
  if (place.matches("a")) {
    stepInDocument(row, place);
    return;
  }
  row.forEach((it) => it.classList.toggle("current", it === place));
  place.querySelector("a").focus({ preventScroll: true });
  place.scrollIntoView({ block: "nearest" });
}

function stepInDocument(row, place) {
  const found = document.getElementById(`hit-${place.dataset.hit}`);
  if (!found) {
    place.click();
    return;
  }
  row.forEach((it) => it.removeAttribute("aria-current"));
  place.setAttribute("aria-current", "true");
  place.scrollIntoView({ block: "nearest" });
  history.replaceState(null, "", place.href);
  found.focus({ preventScroll: true });
  found.scrollIntoView({ block: "center" });
  show(found);
}

function show(found) {
  document.querySelectorAll(".shown").forEach((it) => it.classList.remove("shown"));
  found.classList.add("shown");
}

function follow(id) {
  const link = document.getElementById(id);
  if (link) link.click();
}

const KEYS = {
  "/": () => document.getElementById("q").focus(),
  j: () => step(1),
  n: () => step(1),
  k: () => step(-1),
  p: () => step(-1),
  o: () => document.querySelector(".hit.current a, .hit:target a")?.click(),
  u: () => follow("up"),
  a: () => follow("repair"),
  "]": () => follow("on"),
  "[": () => follow("back"),
  "?": () => document.getElementById("keys")?.showModal(),
};

document.addEventListener("keydown", (event) => {
  const typing = event.target.closest("textarea, input, dialog");
  if (typing || event.ctrlKey || event.metaKey || event.altKey || !(event.key in KEYS)) return;
  event.preventDefault();
  KEYS[event.key]();
});

document.addEventListener("DOMContentLoaded", () => {
  for (const [id, by] of [["before", -1], ["after", 1]]) {
    const button = document.getElementById(id);
    if (!button) continue;
    button.hidden = false;
    button.addEventListener("click", () => step(by));
  }
});

// The field and the stop button are there before the answer is: they are looked for as the page comes in.
const waiting = new MutationObserver(() => {
  if (!document.querySelector("main")) return;
  waiting.disconnect();
  startTheme();
  startField();
  startStop();
});
waiting.observe(root, { childList: true, subtree: true });
