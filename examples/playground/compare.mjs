#!/usr/bin/env node
// Runs each line of ../commands.txt natively, in node and in headless Chromium, and compares what they write on both
// streams and their statuses. Prints each that differs and, last, how many were compared; ends with 1 where one does.
//
//     compare.mjs [PROGRAM [COMMANDS]]    PROGRAM is ../../soyc where it isn't given; COMMANDS is a file like
//                                         ../commands.txt, whose runs take place in its folder
//
// Needs Debian's nodejs (18 or later) and chromium.
import { spawnSync } from "node:child_process";
import { mkdtempSync, readFileSync, rmSync, statSync, writeFileSync } from "node:fs";
import { tmpdir } from "node:os";
import { dirname, join, resolve } from "node:path";
import { fileURLToPath } from "node:url";
import { chromium } from "./chromium.mjs";

const here = dirname(fileURLToPath(import.meta.url));
const program = resolve(process.argv[2] ?? join(here, "../../soyc"));
const commands = resolve(process.argv[3] ?? join(here, "../commands.txt"));
const folder = dirname(commands);
const wasm = readFileSync(join(here, "../../dist/soyc.wasm"));
const host = readFileSync(join(here, "index.html"), "utf8").match(/<script id="host">(.*?)<\/script>/s)[1];

// The runs, each with its words and the files that they name.
function cases() {
  const lines = readFileSync(commands, "utf8").split("\n").filter((it) => it && !it.startsWith("#"));
  return lines.map((line) => {
    const words = line.split(" "), files = {};
    for (const it of words) {
      if (statSync(join(folder, it), { throwIfNoEntry: false })?.isFile()) files[it] = readFileSync(join(folder, it));
    }
    return { line, words, files };
  });
}

function natively({ words }) {
  const it = spawnSync(program, words, { cwd: folder, stdio: ["ignore", "pipe", "pipe"], maxBuffer: 2 ** 30 });
  return { status: it.status, out: it.stdout.toString("base64"), err: it.stderr.toString("base64") };
}

const digits = (bytes) => Buffer.from(bytes).toString("base64");

function inNode(module, run, { words, files }) {
  try {
    const it = run(module, words, files);
    return { status: it.status, out: digits(it.out), err: digits(it.err) };
  } catch (error) {
    return { status: -1, out: "", err: Buffer.from(String(error)).toString("base64") };
  }
}

// In a page of the file system with nothing but the playground's own function.
async function inChromium(all) {
  const work = mkdtempSync(join(tmpdir(), "soyc-compare-"));
  const browser = await chromium();
  try {
    writeFileSync(join(work, "page.html"), `<!doctype html><meta charset="utf-8"><script>${host}${inPage}</script>`);
    const { value } = await browser.open(`file://${work}/page.html`);
    await value(`begin("${digits(wasm)}")`);
    const gave = [];
    for (const { words, files } of all) {
      const held = Object.fromEntries(Object.entries(files).map(([name, it]) => [name, digits(it)]));
      gave.push(await value(`one(${JSON.stringify(words)}, ${JSON.stringify(held)})`));
    }
    return gave;
  } finally {
    await browser.close();
    rmSync(work, { recursive: true, force: true });
  }
}

const inPage = `
  const bytes = (digits) => Uint8Array.from(atob(digits), (it) => it.charCodeAt(0));
  function digits(bytes) {
    let text = "";
    for (let at = 0; at < bytes.length; at += 8192) text += String.fromCharCode(...bytes.subarray(at, at + 8192));
    return btoa(text);
  }
  let module;
  const begin = async (digits) => void (module = await WebAssembly.compile(bytes(digits)));
  function one(words, files) {
    for (const name in files) files[name] = bytes(files[name]);
    try {
      const it = run(module, words, files);
      return { status: it.status, out: digits(it.out), err: digits(it.err) };
    } catch (error) {
      return { status: -1, out: "", err: btoa(unescape(encodeURIComponent(String(error)))) };
    }
  }
`;

// A status, or the begin of a text.
function shown(given) {
  return typeof given === "string" ? JSON.stringify(Buffer.from(given, "base64").toString().slice(0, 200)) : given;
}

const all = cases();
const run = new Function(`${host}; return run;`)();
const module = await WebAssembly.compile(wasm);
const browsers = await inChromium(all);
let differ = 0;
for (const [index, it] of all.entries()) {
  const wanted = natively(it);
  for (const [where, gave] of [["node", inNode(module, run, it)], ["Chromium", browsers[index]]]) {
    for (const what of ["status", "out", "err"]) {
      if (gave[what] === wanted[what]) continue;
      differ++;
      console.log(`${where}, ${it.line}: ${what} is ${shown(gave[what])}, and natively ${shown(wanted[what])}`);
    }
  }
}
console.log(`${all.length} runs compared, natively, in node and in Chromium; ${differ} answers differ`);
process.exitCode = differ === 0 ? 0 : 1;
