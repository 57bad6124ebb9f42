"use strict";

const of = (id) => document.getElementById(id);

// LINE_HEIGHT is in pixels. MOST_LINES is the greatest number of lines that the page can show, because a browser's boxes have a
// greatest height. SHOWN_LINES is the number of lines that are in the page at once.
const LINE_HEIGHT = 17, MOST_LINES = 1_000_000, SHOWN_LINES = 500;

// OTHER matches a character that a browser's monospaced font may lack. Such characters come from other fonts, so the page makes
// them as wide as the library counts them. RUN matches a run of such characters, whose width is set as a whole. A run includes the
// character before it, because an accent needs its letter. A run also includes single spaces between such characters.
const OTHER = "[^ -~\\u00a0-\\u017f\\u2026\\u2500-\\u257f]";
const RUN = new RegExp(`[!-~]?${OTHER}+(?: ${OTHER}+)*`, "gu");

let module, measuring, worker, stop;
let input, name, drawn;
const widths = new Map();

// ---- drawing

// Makes a worker find csvtable's drawing or message, so that the page stays usable in the meantime. The result has `isOld` if a
// later call ended this call. A new call ends the call before it.
function answer_of(blob, words) {
  if (stop) stop();
  worker ??= new Worker(URL.createObjectURL(new Blob([of("library").textContent, of("worker").textContent])));
  return new Promise((answer) => {
    stop = () => {
      worker.terminate();
      worker = stop = undefined;
      answer({ isOld: true });
    };
    worker.onmessage = ({ data }) => {
      stop = undefined;
      answer(data);
    };
    worker.onerror = (event) => {
      of("reported").textContent = `The drawing ended: ${event.message}`;
      stop();
    };
    worker.postMessage({ module, input: blob, words });
  });
}

// The words of a line. Spaces separate them, unless they are between quotes, as in a shell.
function wordsOf(line) {
  const words = line.match(/(?:"[^"]*"|'[^']*'|[^\s"'])+/g) ?? [];
  return words.map((word) => word.replace(/"([^"]*)"|'([^']*)'/g, "$1$2"));
}

// The number of characters of the font that fit into a line of the drawing's place.
function columns() {
  const zeros = of("lines").appendChild(document.createElement("span"));
  zeros.textContent = "0".repeat(100);
  const width = zeros.getBoundingClientRect().width / 100;
  zeros.remove();
  return Math.floor((of("view").clientWidth - 2 * of("lines").offsetLeft) / width);
}

// All arguments for csvtable. They may have an option twice, because csvtable takes the last one.
function argumentsNow() {
  const fits = of("fits").checked && !of("markdown").checked ? ["-w", String(Math.max(1, columns()))] : [];
  const words = wordsOf(of("words").value);
  return [...fits, ...words, ...(of("markdown").checked ? ["--markdown"] : []), ...(name ? ["--", name] : [])];
}

async function draw() {
  const began = performance.now();
  of("reported").textContent = "Drawing";
  const answer = await answer_of(input, argumentsNow());
  if (answer.isOld) return;
  drawn = answer;
  const lines = drawn.starts.length - 1;
  of("sheet").style.height = `${Math.min(lines, MOST_LINES) * LINE_HEIGHT}px`;
  of("view").scrollTop = 0;
  show();
  const count = `${lines.toLocaleString("en")} lines in ${Math.round(performance.now() - began)} ms`;
  const left = lines > MOST_LINES ? `, of which the first ${MOST_LINES.toLocaleString("en")} are shown and all are copied` : "";
  of("reported").textContent = `${name ?? "CSV"}: ${drawn.result === DRAWN ? count + left : "no table"}`;
}

// ---- showing lines

// Puts the lines of the drawing that are in sight into the page, with some lines before and after these.
function show() {
  const lines = Math.min(drawn.starts.length - 1, MOST_LINES);
  const seen = Math.floor(of("view").scrollTop / LINE_HEIGHT);
  const first = lines <= SHOWN_LINES ? 0 : Math.max(0, Math.min(seen - 200, lines - SHOWN_LINES));
  const last = Math.min(lines, first + SHOWN_LINES);
  const bytes = drawn.bytes.subarray(drawn.starts[first], drawn.starts[last]);
  const shown = new TextDecoder().decode(bytes).replace(/\n$/, "");
  measure(shown.match(RUN) ?? []);
  of("lines").style.top = `calc(.6rem + ${first * LINE_HEIGHT}px)`;
  of("lines").replaceChildren(...shown.split("\n").map(lineOf));
  drawn.first = first;
  drawn.last = last;
}

function showMore() {
  if (!drawn) return;
  const first = of("view").scrollTop / LINE_HEIGHT, last = first + of("view").clientHeight / LINE_HEIGHT;
  const lines = Math.min(drawn.starts.length - 1, MOST_LINES);
  if (first < drawn.first || (last > drawn.last && drawn.last < lines)) show();
}

// Finds the width of each run in terminal columns. The function draws a table of one column with a run in each row, and counts the
// spaces that the library puts after the run.
function measure(runs) {
  const unknown = [...new Set(runs)].filter((run) => !widths.has(run));
  if (!unknown.length) return;
  const records = ["x", ...unknown].map((run) => `"${run.replaceAll('"', '""')}"\n`).join("");
  const words = ["-w", "0", "-n", "--left", "1", "--no-rows", "--expanded", "never", "-s", "ascii", "-d", ","];
  const { bytes } = measuring.draw(new TextEncoder().encode(records), words);
  const lines = new TextDecoder().decode(bytes).split("\n").filter((line) => line.startsWith("|"));
  const after = lines.map((line) => /( *) \|$/.exec(line)[1].length);
  if (lines.length !== unknown.length + 1) return;
  unknown.forEach((run, at) => widths.set(run, after[0] + 1 - after[at + 1]));
}

function lineOf(line) {
  const place = document.createElement("div"), style = {};
  line.split(/\x1b\[([\d;:]*)m/).forEach((piece, at) => {
    if (at % 2) return changeStyle(style, piece.split(/[;:]/).map(Number));
    const part = place.appendChild(document.createElement("span"));
    Object.assign(part.style, style);
    appendRuns(part, piece);
  });
  return place;
}

function appendRuns(part, piece) {
  let end = 0;
  for (const { 0: run, index } of piece.matchAll(RUN)) {
    const box = document.createElement("span");
    box.className = "run";
    box.textContent = run;
    if (widths.has(run)) box.style.width = `${widths.get(run)}ch`;
    part.append(piece.slice(end, index), box);
    end = index + run.length;
  }
  part.append(piece.slice(end));
}

// ---- colours and attributes

const COLORS = "#555 #c33 #283 #960 #36c #a3a #188 #999 #777 #e55 #4a5 #c82 #58e #c5c #3aa #ccc".split(" ");

// The colour that SGR parameters name after 38 or 48. The parameters of the colour are removed from the list.
function colorFrom(numbers) {
  if (numbers.shift() === 2) return `rgb(${numbers.splice(0, 3).join(" ")})`;
  const number = numbers.shift();
  if (number < 16) return COLORS[number];
  if (number > 231) return `rgb(${`${10 * (number - 232) + 8} `.repeat(3)})`;
  const part = (step) => [0, 95, 135, 175, 215, 255][Math.floor((number - 16) / step) % 6];
  return `rgb(${part(36)} ${part(6)} ${part(1)})`;
}

const ATTRIBUTES = {
  1: { fontWeight: "bold" }, 2: { opacity: ".6" }, 3: { fontStyle: "italic" }, 4: { textDecoration: "underline" },
  8: { visibility: "hidden" }, 9: { textDecoration: "line-through" }, 22: { fontWeight: "", opacity: "" }, 23: { fontStyle: "" },
  24: { textDecoration: "" }, 28: { visibility: "" }, 29: { textDecoration: "" },
};

function changeStyle(style, numbers) {
  while (numbers.length) {
    const number = numbers.shift(), last = number % 10, tens = (number - last) / 10;
    const place = tens === 4 || tens === 10 ? "background" : "color";
    if (number === 0) Object.keys(style).forEach((key) => delete style[key]);
    else if (ATTRIBUTES[number]) Object.assign(style, ATTRIBUTES[number]);
    else if (number === 38 || number === 48) style[place] = colorFrom(numbers);
    else if ([3, 4, 9, 10].includes(tens)) style[place] = last === 9 ? "" : COLORS[last + (tens > 4 ? 8 : 0)];
  }
}

// ---- the user

function take(blob, called) {
  if (!blob) return;
  input = blob;
  name = called;
  draw();
}

async function copy() {
  const all = new TextDecoder().decode(drawn.bytes);
  try {
    await navigator.clipboard.writeText(all);
    of("reported").textContent = `${all.length.toLocaleString("en")} characters are copied`;
  } catch (error) {
    of("reported").textContent = `Nothing is copied: ${error.message}`;
  }
}

function listen() {
  let waiting;
  const soon = () => {
    clearTimeout(waiting);
    waiting = setTimeout(draw, 150);
  };
  of("file").onchange = () => take(of("file").files[0], of("file").files[0]?.name);
  of("pasted").oninput = () => take(new Blob([of("pasted").value]));
  of("words").oninput = soon;
  of("fits").onchange = of("markdown").onchange = draw;
  of("copy").onclick = copy;
  of("view").onscroll = showMore;
  onresize = () => of("fits").checked && soon();
  document.onpaste = (event) => {
    if (event.target === of("words")) return;
    event.preventDefault();
    const file = event.clipboardData.files[0];
    take(file ?? new Blob([event.clipboardData.getData("text")]), file?.name);
  };
  const over = (isOver) => (event) => {
    event.preventDefault();
    document.body.classList.toggle("over", isOver);
  };
  document.ondragover = over(true);
  document.ondragleave = over(false);
  document.ondrop = (event) => {
    over(false)(event);
    take(event.dataTransfer.files[0] ?? new Blob([event.dataTransfer.getData("text")]), event.dataTransfer.files[0]?.name);
  };
}

async function start() {
  const packed = Uint8Array.from(atob(of("module").textContent), (it) => it.charCodeAt(0));
  const unpacked = new Blob([packed]).stream().pipeThrough(new DecompressionStream("gzip"));
  module = await WebAssembly.compile(await new Response(unpacked).arrayBuffer());
  measuring = new Library(module);
  of("help").textContent = new TextDecoder().decode(measuring.draw(new Uint8Array(), ["--help"]).bytes);
  listen();
  input = new Blob([of("sample").textContent]);
  name = "sample.csv";
  await draw();
}

start().catch((error) => {
  of("reported").textContent = `This browser can't run the page: ${error.message}`;
});
