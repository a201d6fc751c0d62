#!/usr/bin/env node
// Types keys into the body of examples/shop and prints the milliseconds from a key until the first page is made and put
// into its frame, until both pages are, and until the first is loaded there. Asserts nothing. Needs Debian's nodejs and
// chromium.
import { dirname } from "node:path";
import { fileURLToPath } from "node:url";
import { chromium } from "./chromium.mjs";

const KEYS = 100;
const here = dirname(fileURLToPath(import.meta.url));
const browser = await chromium();
const { ask, value } = await browser.open(`file://${here}/index.html#shop`);
await value(`new Promise((done) => {
  const look = () => (document.documentElement.dataset.turn ? done() : setTimeout(look, 20));
  look();
})`);
await value(`{
  window.first = [];
  window.made = [];
  window.loaded = [];
  let begun = 0, wait;
  document.addEventListener("keydown", (event) => (begun = event.timeStamp), true);
  pages[0].parts.frame.addEventListener("load", () => {
    loaded.push(performance.now() - begun);
    first.push(Number(document.documentElement.dataset.first));
    made.push(Number(document.documentElement.dataset.milliseconds));
    wait?.();
  });
  window.next = () => new Promise((done, fail) => {
    wait = done;
    setTimeout(fail, 10000, new Error("no page within ten seconds of a key"));
  });
  const area = boxes.sources.area, at = area.value.indexOf("<body>") + "<body>".length;
  area.focus();
  area.setSelectionRange(at, at);
}`);
for (let key = 0; key < KEYS; key++) {
  const next = value("next()");
  await ask("Input.dispatchKeyEvent", { type: "keyDown", text: "x", key: "x", code: "KeyX" });
  await ask("Input.dispatchKeyEvent", { type: "keyUp", key: "x", code: "KeyX" });
  await next;
}
for (const name of ["first", "made", "loaded"]) {
  const times = (await value(name)).sort((a, b) => a - b);
  const at = (part) => times[Math.min(times.length - 1, Math.floor(part * times.length))].toFixed(1);
  const said = `least ${at(0)} ms, half within ${at(0.5)}, 95 of 100 within ${at(0.95)}, most ${at(1)}`;
  console.log(`${name}: ${times.length} keys, ${said}`);
}
await browser.close();
