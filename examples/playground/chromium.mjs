// Headless Chromium, spoken to over a pipe by its own protocol, with no library.
import { spawn } from "node:child_process";
import { mkdtempSync, rmSync } from "node:fs";
import { tmpdir } from "node:os";
import { join } from "node:path";

// Starts it and gives `open(address, width, height)`, which opens a page and gives what can be asked of it, and
// `close`.
export async function chromium() {
  const profile = mkdtempSync(join(tmpdir(), "soyc-chromium-"));
  // (root alone needs --no-sandbox)
  const words = ["--headless", "--no-sandbox", "--disable-gpu", "--hide-scrollbars", "--remote-debugging-pipe"];
  words.push("--no-first-run", `--user-data-dir=${profile}`, "about:blank");
  const child = spawn("chromium", words, { stdio: ["ignore", "ignore", "ignore", "pipe", "pipe"] });
  process.once("exit", () => child.kill());
  const [, , , into, from] = child.stdio;
  const waiting = new Map();
  let held = "", count = 0;
  from.setEncoding("utf8").on("data", (text) => {
    const messages = (held + text).split("\0");
    held = messages.pop();
    for (const it of messages.map((it) => JSON.parse(it))) {
      const { resolve, reject } = waiting.get(it.id) ?? {};
      waiting.delete(it.id);
      if (it.error) reject?.(new Error(it.error.message));
      else resolve?.(it.result);
    }
  });
  const send = (method, params = {}, sessionId = undefined) =>
    new Promise((resolve, reject) => {
      waiting.set(++count, { resolve, reject });
      into.write(JSON.stringify({ id: count, method, params, sessionId }) + "\0");
    });

  async function open(address, width = 1280, height = 800) {
    const { targetId } = await send("Target.createTarget", { url: "about:blank" });
    const { sessionId } = await send("Target.attachToTarget", { targetId, flatten: true });
    const ask = (method, params) => send(method, params, sessionId);
    // The value of an expression, or of what it promises.
    const value = async (expression) => {
      const it = await ask("Runtime.evaluate", { expression, awaitPromise: true, returnByValue: true });
      if (it.exceptionDetails) throw new Error(it.exceptionDetails.exception?.description ?? it.exceptionDetails.text);
      return it.result.value;
    };
    await ask("Emulation.setDeviceMetricsOverride", { width, height, deviceScaleFactor: 1, mobile: false });
    await ask("Page.enable");
    await ask("Page.navigate", { url: address });
    await value(`new Promise((done) => {
      if (document.readyState === "complete") done();
      else addEventListener("load", () => done());
    })`);
    return { ask, value };
  }

  async function close() {
    await send("Browser.close").catch(() => {});
    await new Promise((done) => child.once("close", done));
    rmSync(profile, { recursive: true, force: true, maxRetries: 5 });
  }

  return { open, close };
}
