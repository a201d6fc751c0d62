#!/usr/bin/env node
// Draws the playground as Chromium shows it: accepted.png (the shop's page in two languages), source.png (the same, its
// source) and refused.png (a refusal, marked in the template). Needs Debian's nodejs, chromium and fonts-noto-core.
import { writeFileSync } from "node:fs";
import { dirname, join } from "node:path";
import { fileURLToPath } from "node:url";
import { chromium } from "./chromium.mjs";

const here = dirname(fileURLToPath(import.meta.url));
const hello = (text) => ({ sources: [{ name: "page.soy", text }] });
const pictures = {
  accepted: "shop",
  source: `shop:${JSON.stringify({ view: "source", shown: 1 })}`,
  refused: `hello:${JSON.stringify(hello("{namespace hello}\n{template page}\n\n{@param name: string}\n\n" +
    "<p title={$name}>Hello, <b>{$name}</b>!</p>\n{/template}\n"))}`,
};

const browser = await chromium();
for (const [name, hash] of Object.entries(pictures)) {
  const { ask, value } = await browser.open(`file://${here}/index.html#${encodeURIComponent(hash)}`, 1280, 760);
  await value(`new Promise((done) => {
    const look = () => (document.documentElement.dataset.turn ? setTimeout(done, 500) : setTimeout(look, 20));
    look();
  })`);
  await value("find('time').textContent = ''");
  const { data } = await ask("Page.captureScreenshot", { format: "png" });
  writeFileSync(join(here, `${name}.png`), Buffer.from(data, "base64"));
}
await browser.close();
