// Begins the page: what it is made of is fetched, and its controls are told what to do.
import { keep } from "./keep.js";
import { legend } from "./legend.js";
import { compiledModule, Unavailable } from "./module.js";
import { Page } from "./page.js";
import { Sectc } from "./sectc.js";
import { TITLES } from "./titles.js";
import { STEPS } from "./tour.js";
import { button, element, prose, update } from "./view.js";

const THEMES = { auto: "light", light: "dark", dark: "auto" };

function byId(id) {
  return document.getElementById(id);
}

async function json(url) {
  const answer = await fetch(url).catch(() => null);
  return answer?.ok ? answer.json() : null;
}

function fillExamples(examples) {
  const toured = STEPS.map(({ example }) => example);
  const option = (name) => element("option", { value: name }, TITLES[name] ?? name);
  const others = Object.keys(TITLES).filter((name) => !toured.includes(name) && examples[name]);
  byId("examples")
    .append(element("optgroup", { label: "The tour" }, toured.map(option)),
      element("optgroup", { label: "More programs" }, others.map(option)));
}

/** What the module is, as the build has left it. */
function tellAbout(about) {
  if (!about) return;
  const { proved, commit, kit, built, sha256, repository } = about;
  update(byId("about"),
    proved ? "Made from the proved program" : element("strong", {}, "Made from the program without its proofs"),
    `, commit ${commit.replace(/^(.{8})\S*/, "$1")}, ${kit}, ${built}, sha-256 `,
    element("code", { title: sha256 }, sha256.slice(0, 12)),
    ". The step that turns it into a module for the browser is proved by nothing, and neither is this page.");
  if (repository) byId("links").append(element("a", { href: repository }, "Repository"));
}

function setTheme(name) {
  document.documentElement.dataset.theme = name;
  byId("theme").textContent = { auto: "◐", light: "☀", dark: "☾" }[name];
  byId("theme").setAttribute("aria-label", `colours: ${name}`);
  byId("theme").title = `colours: ${name}`;
  keep.theme = name;
}

function connect(page) {
  byId("examples").addEventListener("change", ({ target }) => {
    const step = STEPS.findIndex(({ example }) => example === target.value);
    if (step >= 0 && page.tour.step !== null) page.tour.go(step);
    else page.tour.leave().openExample(target.value, null);
  });
  byId("own").addEventListener("click", () => page.tour.leave().openText(keep.own, null));
  byId("fields").addEventListener("change", () => page.changed());
  byId("stop").addEventListener("click", () => page.stop());
  byId("share").addEventListener("click", () => page.share());
  byId("start").addEventListener("click", () => page.tour.go(0));
  addEventListener("hashchange", () => page.follow());
  addEventListener("pagehide", () => page.keepDraft());
}

/** Says why there is no program, in place of the views. */
function unavailable(failure) {
  update(byId("panels"),
    element("div", { class: "empty unavailable", role: "alert" }, element("h2", {}, "The program can't run here"),
      element("p", {}, prose(failure.message)), button("try again", () => location.reload())));
  byId("state").textContent = "no program";
}

async function begin() {
  setTheme(keep.theme);
  byId("theme").addEventListener("click", () => setTheme(THEMES[keep.theme] ?? "light"));
  byId("legend").append(...legend());
  const about = json("about.json");
  try {
    const module = compiledModule("sectc.wasm");
    const sectc = new Sectc(module);
    const [examples] = await Promise.all([json("examples.json"), module]);
    fillExamples(examples);
    byId("starting").remove();
    const page = new Page(sectc, examples);
    connect(page);
    globalThis.page = page;
    await page.begin();
  } catch (failure) {
    if (!(failure instanceof Unavailable)) throw failure;
    unavailable(failure);
  }
  tellAbout(await about);
}

begin();
