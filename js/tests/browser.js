// Loads the module in a browser without a screen: in a page, where the quick start runs, and in a worker, by itself and with the page's
// module. The page says what it found to a server of this script.
//
// usage: node js/tests/browser.js chromium|firefox
import { spawn } from "node:child_process";
import { once } from "node:events";
import { mkdtempSync, readFileSync, rmSync } from "node:fs";
import http from "node:http";
import os from "node:os";
import path from "node:path";
import { setTimeout } from "node:timers/promises";

const WANTED = ["10.0.0.1:5000 -> 10.0.0.2:5000 | 10.0.0.2:5000 -> 10.0.0.1:5000", "new", "new"];
const PAGE = `<!doctype html>
<script type="importmap">{ "imports": { "is-ice": "/src/index.js" } }</script>
<script type="module">
const said = [];
try {
  const { init } = await import("is-ice");
  const module = await WebAssembly.compileStreaming(fetch("/src/is_ice.wasm"));
  console.log = (...words) => said.push(words.join(" "));
  await import("/examples/two.js");
  for (const source of [undefined, module]) {
    const worker = new Worker("/worker.js", { type: "module" });
    worker.postMessage(source);
    said.push(await new Promise((done, fail) => {
      worker.onmessage = ({ data }) => done(data);
      worker.onerror = ({ message }) => fail(new Error(message));
    }));
  }
} catch (error) {
  said.push(String(error), error.stack);
}
await fetch("/said", { method: "POST", body: JSON.stringify(said) });
</script>`;
const WORKER = `import { init, IceAgent } from "/src/index.js";
onmessage = async ({ data }) => {
  await init(data);
  postMessage(new IceAgent().state);
};`;
const TYPES = { ".js": "text/javascript", ".wasm": "application/wasm", ".html": "text/html" };
const OWN = { "/page.html": PAGE, "/worker.js": WORKER };
const FLAGS = {
  chromium: (profile) => ["--headless=new", "--no-sandbox", "--disable-gpu", "--no-first-run", `--user-data-dir=${profile}`],
  firefox: (profile) => ["--headless", "--no-remote", "--profile", profile],
};

/** Removes a profile. Other processes of the browser may write to it for a moment after it was killed. */
async function removed(profile) {
  for (let tries = 1; ; tries++) {
    try {
      return rmSync(profile, { recursive: true, force: true });
    } catch (error) {
      if (tries === 50) throw error;
      await setTimeout(100);
    }
  }
}

const server = http.createServer(async (request, response) => {
  const { pathname } = new URL(request.url, "http://localhost");
  if (pathname === "/said") {
    let body = "";
    for await (const part of request) body += part;
    response.end();
    server.emit("said", JSON.parse(body));
    return;
  }
  try {
    const data = OWN[pathname] ?? readFileSync(new URL(`..${pathname}`, import.meta.url));
    response.writeHead(200, { "content-type": TYPES[path.extname(pathname)] ?? "application/octet-stream" }).end(data);
  } catch {
    response.writeHead(404).end();
  }
});
server.listen(0, "127.0.0.1");
await once(server, "listening");

const [name] = process.argv.slice(2), profile = mkdtempSync(path.join(os.tmpdir(), "is-ice-"));
const page = `http://127.0.0.1:${server.address().port}/page.html`;
const browser = spawn(name, [...FLAGS[name](profile), page], { stdio: "ignore", env: { ...process.env, HOME: profile } });
let said;
try {
  [said] = await once(server, "said", { signal: AbortSignal.timeout(120000 * Number(process.env.IS_ICE_PATIENCE ?? 1)) });
} finally {
  browser.kill("SIGKILL");
  await once(browser, "close");
  server.closeAllConnections();
  server.close();
  await removed(profile);
}
const isWanted = JSON.stringify(said) === JSON.stringify(WANTED);
console.log(isWanted ? `${name}: a page and two workers` : said);
process.exitCode = isWanted ? 0 : 1;
