// Builds the site: index.html, app.js, worker.js and mars.wasm, and one.html, a page with all of them inside.
//
//     node site/build.mjs MARS.wasm FOLDER [CODEMIRROR]
//
// FOLDER is emptied first. CODEMIRROR is the folder of Debian's libjs-codemirror. esbuild, terser and Debian's binaryen
// have to be on the path.
import { execFileSync } from "node:child_process";
import fs from "node:fs";
import path from "node:path";
import { fileURLToPath } from "node:url";
import zlib from "node:zlib";

import { readLesson } from "./tools/lesson.mjs";

const [wasm, folder, codemirror = "/usr/share/nodejs/codemirror"] = process.argv.slice(2);
const here = path.dirname(fileURLToPath(import.meta.url));
const inside = (...parts) => path.join(here, ...parts);
const output = (name) => path.join(folder, name);
const read = (file) => fs.readFileSync(file, "utf8");
const write = (name, content) => fs.writeFileSync(output(name), content);
const filesOf = (place, ending) => fs.readdirSync(place).filter((name) => name.endsWith(ending)).sort();

/** Where Debian has the modules that terser imports. Only Debian's own Node looks there by itself. */
const NODE_PATH = "/usr/share/nodejs:/usr/lib/nodejs";

/** Shortens a bundle; this saves 4 kB of both, compressed. Keeps the comment of several lines, CodeMirror's licence. */
function shorten(file) {
  const words = [file, "--compress", "passes=2,toplevel", "--mangle", "--toplevel", "--comments", "/^\\n/"];
  execFileSync("terser", [...words, "--output", file], { env: { ...process.env, NODE_PATH } });
}

/** Bundles a module with everything that it imports. */
function bundle(from, name, banner) {
  const words = [inside("src", from), "--bundle", "--minify", "--format=iife", "--target=es2022", "--charset=utf8"];
  words.push(`--alias:codemirror=${inside("tools", "codemirror.mjs")}`);
  words.push(`--alias:codemirror-src=${path.join(codemirror, "src")}`);
  words.push("--log-level=warning", `--banner:js=${banner}`, `--outfile=${output(name)}`);
  execFileSync("esbuild", words);
  shorten(output(name));
}

/** Styles of what the site does not use of CodeMirror: Vim mode, theme, addons, wrapped lines, widgets, searches. */
const UNUSED = [
  /^\.cm-fat-cursor [^]*(?=^\.cm-tab )/m,
  /^\.CodeMirror-rulers [^]*\/\* STOP \*\//m,
  /^\.CodeMirror-wrap [^]*(?=^\.CodeMirror-linebackground )/m,
  /^\.CodeMirror-linewidget [^]*(?=^\.CodeMirror-code )/m,
  /^\.cm-searching [^]*(?=^\/\* Used to force )/m,
  /^span\.CodeMirror-selectedtext .*/m,
  /^.*::-moz-selection .*/gm,
];

/** Returns the style sheets of CodeMirror, without the unused styles, and of the site as one. */
function style() {
  const whole = read(path.join(codemirror, "lib", "codemirror.css"));
  const editor = UNUSED.reduce((text, unused) => text.replace(unused, ""), whole);
  const input = editor + read(inside("static", "site.css"));
  return execFileSync("esbuild", ["--loader=css", "--minify"], { input, encoding: "utf8" });
}

/** Returns the sentences about errors of sources and about their causes, by the keys that src/words/errors.js uses. */
function meanings() {
  const file = inside("..", "python", "corewar", "explain", "meanings.json");
  const { expressions, errors, causes } = JSON.parse(read(file));
  return { ...expressions, ...errors, ...causes };
}

/** The calls of the library that the page does not make. */
const UNCALLED = ["check", "debug", "edits", "league", "population", "read_load"];
/** The features of WebAssembly that mars.wasm uses. */
const FEATURES = ["bulk-memory", "sign-ext", "nontrapping-float-to-int", "multivalue", "mutable-globals"];

/** Writes mars.wasm with the calls that the page makes, and nothing else. */
function machine() {
  const isCalled = (name) => !UNCALLED.some((call) => name === `mars_${call}`);
  const names = WebAssembly.Module.exports(new WebAssembly.Module(fs.readFileSync(wasm))).map(({ name }) => name);
  const roots = names.filter(isCalled).map((name) => ({ name: `root ${name}`, export: name, root: true }));
  const features = FEATURES.map((name) => `--enable-${name}`);
  write("roots.json", JSON.stringify(roots));
  const [from, to] = [output("roots.json"), output("mars.wasm")];
  execFileSync("wasm-metadce", [...features, wasm, "-f", from, "-o", to], { stdio: ["ignore", "ignore", "inherit"] });
  execFileSync("wasm-opt", [...features, to, "-Oz", "-o", to]);
  fs.rmSync(from);
}

/** Returns what the page knows: examples, lessons, and what errors mean. */
function data() {
  const [examples, lessons] = [inside("..", "examples"), inside("lessons")];
  return {
    examples: filesOf(examples, ".red").map((name) => ({ name, text: read(path.join(examples, name)) })),
    lessons: filesOf(lessons, ".txt").map((name) => readLesson(name, read(path.join(lessons, name)))),
    meanings: meanings(),
  };
}

/** Returns a script element, with any end of a script in its text escaped. */
const script = (text, attributes = "") => `<script${attributes}>${text.replaceAll("</script", "<\\/script")}</script>`;
const plain = (id, text) => script(text, ` id="${id}" type="text/plain"`);

fs.rmSync(folder, { recursive: true, force: true });
fs.mkdirSync(folder, { recursive: true });
bundle("app/main.js", "app.js", `/*\n${read(inside("static", "codemirror.txt"))}*/`);
bundle("worker/worker.js", "worker.js", "");
machine();

const known = script(JSON.stringify(data()).replaceAll("<", "\\u003c"), ' id="data" type="application/json"');
const html = read(inside("static", "index.html")).replace(/\n\s+/g, "\n");
const page = html.replace("<!--style-->", () => `<style>${style()}</style>`);
const preload = (name, kind) => `<link rel="preload" href="${name}" as="${kind}">`;
const loads = [preload("mars.wasm", "fetch").replace(">", " crossorigin>"), preload("app.js", "script")];
// Only the page in one file has scripts inside.
const strict = page.replace("script-src 'self' 'unsafe-inline'", "script-src 'self'");
const many = strict.replace("</title>", ["</title>", ...loads].join("\n"));
write("index.html", many.replace("<!--parts-->", () => `${known}\n<script src="app.js"></script>`));
const code = zlib.gzipSync(fs.readFileSync(output("mars.wasm")), { level: 9 }).toString("base64");
const worker = plain("worker-code", read(output("worker.js")));
const parts = [known, plain("page-fight", ""), plain("mars-code", code), worker];
write("one.html", page.replace("<!--parts-->", () => [...parts, script(read(output("app.js")))].join("\n")));

let total = 0;
for (const name of fs.readdirSync(folder)) {
  const size = zlib.gzipSync(fs.readFileSync(output(name)), { level: 9 }).length;
  if (name !== "one.html") total += size;
  console.log(`${output(name)}: ${(size / 1000).toFixed(0)} kB gzipped`);
}
console.log(`without one.html: ${(total / 1000).toFixed(0)} kB gzipped`);
