"use strict";
// The page: two texts, a question, and the answer of the program. What it shows of these it writes
// as text, never as HTML.

const by = id => document.getElementById(id);
const DATA = JSON.parse(by("data").textContent);
const PROGRAM = "program.x", DOCUMENT = "document.xd", PROOF = "proof";
const LIMITS = {program: 1048576, document: 16777216};
// Longer texts are not coloured, and longer answers are cut where they are shown.
const COLOURED = 120000, SHOWN = 100000, LISTED = 500;
// Browsers are slow to show a text that is longer, so that only a part of it is there to see.
const EDITED = 2000000;
// Browsers take addresses of a million characters.
const ADDRESS = 1000000;
const PAUSE = 250, WAIT = 700, PROBE = 5000;
const coder = new TextEncoder();
const MEGABYTES = `${DATA.memory / 1048576} MB`;

/** An element with a class and with what it holds: texts, elements, or nothing. */
function element(name, its = {}, ...inner) {
  const made = Object.assign(document.createElement(name), its);
  made.append(...inner.filter(it => it !== null && it !== undefined));
  return made;
}

const sentence = text => /[.?!]$/.test(text) ? text : `${text[0].toUpperCase()}${text.slice(1)}.`;
const own = (table, key) => Object.hasOwn(table, key) ? table[key] : undefined;
const counted = number => number.toLocaleString("en");

// ---------------------------------------------------------------- The notation

const WORD = "[A-Za-z_][A-Za-z0-9_]*";
const TOKEN = new RegExp([
  /(?<comment>\(\*[^]*?(?:\*\)|$))/, /(?<string>"(?:[^"\\]|\\[^])*(?:"|$))/,
  /(?<list>\((?=\s*\w+(?:\s*\|\s*\w+)*\s*\)\s*\[))/,
  new RegExp(`(?<label>${WORD}(?=\\[)|~(?=\\[))`), new RegExp(`(?<word>${WORD})`),
  /(?<arrow>->)/, /(?<sign>[^\s\w])/, /\s+|\w+/,
].map(it => it.source).join("|"), "gy");
const KEYWORDS = new Set(["type", "fun", "val", "as", "match", "with"]);
const CLOSES = {"(": ")", "[": "]"};

/** The tokens of a text: where each begins and ends, its class of colour, and what it is. */
function tokens(text) {
  const found = [];
  let before = "", inList = false;
  for (const match of text.matchAll(TOKEN)) {
    const groups = match.groups, it = match[0], begin = match.index, end = begin + it.length;
    let kind = null;
    if (groups.comment) kind = "comment";
    else if (groups.string) kind = /^"(?:[^"\\]|\\["\\nt])*"$/.test(it) ? "string" : "string wrong";
    else if (groups.label) kind = "label";
    else if (groups.word) {
      if (inList) kind = "label";
      else if (KEYWORDS.has(it)) kind = "keyword";
      else if (before === "type") kind = "defined";
      else if (before === "fun") kind = "defined call";
      else if (before === "val") kind = "bound";
      else if (/^\s*\(/.test(text.slice(end, end + 20)) && text[end] === "(") kind = "call";
      else kind = /^[A-Z]/.test(it) ? "type" : null;
    } else if (groups.arrow) kind = "keyword";
    if (groups.list) inList = true;
    else if (inList && it === ")") inList = false;
    if (it.trim()) {
      found.push({begin, end, kind, text: it, isSign: Boolean(groups.sign || groups.list), before});
      if (!groups.comment) before = it;
    }
  }
  return found;
}

/** The partner of each bracket, by where it begins; -1 where it has none. */
function partners(found) {
  const open = [], pairs = new Map();
  for (const {begin, text, isSign} of found) {
    if (!isSign) continue;
    if (CLOSES[text]) open.push([begin, CLOSES[text]]);
    else if (text === ")" || text === "]") {
      const last = open.at(-1);
      if (last && last[1] === text) {
        open.pop();
        pairs.set(last[0], begin).set(begin, last[0]);
      } else pairs.set(begin, -1);
    }
  }
  for (const [begin] of open) pairs.set(begin, -1);
  return pairs;
}

/** A document in lines that are indented, where it is too long for one. */
function spread(text) {
  let lines = "", depth = 0, column = 0;
  const items = tokens(text);
  const widths = new Map(), open = [];
  for (const {begin, end, text: it} of items) {
    if (it === "[") open.push(begin);
    else if (it === "]" && open.length) widths.set(open.at(-1), end - open.pop());
  }
  const broken = [];
  const feed = () => { lines += "\n" + "  ".repeat(depth); column = 2 * depth; };
  for (const {begin, text: it} of items) {
    if (it === "]" && broken.pop()) { depth--; feed(); }
    lines += it;
    column += it.length;
    if (it === "[") {
      const isBroken = (widths.get(begin) ?? 0) + column > 80;
      broken.push(isBroken);
      if (isBroken) { depth++; feed(); }
    } else if (it === "," && (broken.at(-1) ?? text.length > 80)) feed();
  }
  return lines;
}

// ---------------------------------------------------------------- The panes

const PART = `Its first ${counted(SHOWN)} characters are shown, and it can't be changed here.`;
const holdsFiles = event => event.dataTransfer.types.includes("Files");

class Pane {
  constructor(id, name) {
    Object.assign(this, {name, root: by(id), limit: LIMITS[id], lit: "", kept: "", whole: null});
    Object.assign(this, {marks: [], tips: new Map(), rows: [], found: [], pairs: new Map()});
    this.begins = [0];
    for (const it of ["textarea", "pre", ".editor", ".numbers", ".state", ".note"]) {
      this[it.replace(/^\./, "")] = this.root.querySelector(it);
    }
    this.textarea.addEventListener("input", () => { this.forget(); this.draw(); changed(); });
    this.textarea.addEventListener("pointermove", event => this.point(event));
    this.textarea.addEventListener("pointerleave", () => this.caret());
    this.textarea.addEventListener("keydown", event => this.key(event));
    this.root.querySelector("input[type=file]").addEventListener("change", event => {
      this.open(event.target.files[0]);
      event.target.value = "";
    });
    // (a text that is dragged goes where the browser puts it)
    const over = isOver => event => {
      this.root.classList.toggle("over", isOver && holdsFiles(event));
    };
    this.root.addEventListener("dragover", over(true));
    this.root.addEventListener("dragleave", over(false));
    this.root.addEventListener("drop", event => {
      over(false)(event);
      this.open(event.dataTransfer.files[0]);
    });
  }

  get text() { return this.whole ?? this.textarea.value; }

  /** All tokens, also of a text that isn't coloured. */
  get tokens() { return this.found.length ? this.found : tokens(this.text); }

  get bytes() { return coder.encode(this.text); }

  /** Lets go what was said of another text. */
  forget() {
    this.keep("");
    this.marks = [];
    this.tips.clear();
  }

  set(text, isQuiet = false) {
    const isLong = text.length > EDITED;
    this.whole = isLong ? text : null;
    this.textarea.value = isLong ? text.slice(0, SHOWN) : text;
    this.textarea.readOnly = isLong;
    this.forget();
    this.draw();
    this.editor.scrollTop = this.editor.scrollLeft = 0;
    this.textarea.setSelectionRange(0, 0);
    if (!isQuiet) changed();
  }

  say(text) { this.note.replaceChildren(text); }

  /** Says what stays until another text is there, but for what is said of a place. */
  keep(text) {
    this.kept = this.whole ? `${text} ${PART}`.trim() : text;
    this.say(this.kept);
  }

  tell(text, kind = "") {
    this.state.textContent = text;
    this.state.className = `state ${kind}`;
  }

  async open(file) {
    if (!file) return;
    if (file.size > this.limit) {
      const what = this.name === PROGRAM ? "a program" : "a document";
      this.keep(`${file.name} has ${counted(file.size)} bytes, and wasn't opened: ${what} has `
        + `at most ${counted(this.limit)}.`);
      return;
    }
    let bytes;
    try {
      bytes = new Uint8Array(await file.arrayBuffer());
    } catch {
      this.keep(`${file.name} can't be read: is it a folder?`);
      return;
    }
    try {
      this.set(new TextDecoder("utf-8", {fatal: true, ignoreBOM: true}).decode(bytes));
      this.keep(`${file.name} is opened.`);
    } catch {
      this.keep(`${file.name} isn't text in UTF-8, so it wasn't opened. Save it as UTF-8: `
        + `iconv -f latin1 -t utf-8 ${file.name}`);
    }
  }

  /** The offset of a place. Columns count characters, as the program does, not halves of pairs. */
  offset(line, column) {
    const {text} = this;
    let at = this.begins[line - 1];
    for (; column > 1; column--) at += text.codePointAt(at) > 0xffff ? 2 : 1;
    return at;
  }

  /** The line and the column of an offset. */
  place(at) {
    let line = 0, more = this.begins.length;
    while (line + 1 < more) {
      const middle = (line + more) >> 1;
      if (this.begins[middle] <= at) line = middle;
      else more = middle;
    }
    const front = this.text.slice(this.begins[line], at);
    const pairs = front.match(/[\ud800-\udbff][\udc00-\udfff]/g)?.length ?? 0;
    return [line + 1, front.length - pairs + 1];
  }

  /** The token that begins at an offset, or one character. */
  at(begin) {
    const token = this.found.find(it => it.begin === begin);
    const text = this.text.slice(begin, begin + 1);
    return token ?? {begin, end: begin + text.length, text};
  }

  mark(marks) {
    this.marks = marks;
    this.draw();
  }

  /** Puts a place into sight. */
  reveal(begin) {
    const [line, column] = this.place(begin), isPlain = this.root.classList.contains("plain");
    const box = isPlain ? this.textarea : this.editor;
    const height = parseFloat(getComputedStyle(this.textarea).lineHeight);
    box.scrollTop = Math.max(0, line * height - box.clientHeight / 2);
    box.scrollLeft = Math.max(0, (column + 8) * this.width() - box.clientWidth);
  }

  /** The same, with the caret there. */
  show(begin) {
    this.textarea.focus({preventScroll: true});
    this.textarea.setSelectionRange(begin, begin);
    this.root.scrollIntoView({block: "nearest"});
    this.reveal(begin);
    this.caret();
  }

  // ------------------------------------------------ What is drawn under the text

  draw() {
    const {text} = this, isPlain = text.length > COLOURED;
    this.begins = [0];
    for (const {index} of text.matchAll(/\n/g)) this.begins.push(index + 1);
    this.root.classList.toggle("plain", isPlain);
    this.found = isPlain ? [] : tokens(text);
    this.pairs = partners(this.found);
    if (isPlain) this.pre.replaceChildren();
    else this.paint();
    this.caret();
  }

  /** The lines as spans with classes; a line is made anew only where it differs. */
  paint() {
    const text = this.text, spans = [];
    for (const {begin, end, kind} of this.found) if (kind) spans.push([begin, end, kind]);
    for (const {begin, end, kind} of this.marks) spans.push([begin, end, `${kind}-mark`]);
    for (const at of this.lit ? this.lit.split(" ").map(Number) : []) {
      spans.push([at, at + 1, this.pairs.get(at) < 0 ? "unmatched" : "bracket"]);
    }
    const edges = new Map();
    const edge = (at, it, by) => {
      if (!edges.has(at)) edges.set(at, []);
      edges.get(at).push([it, by]);
    };
    for (const [begin, end, kind] of spans) { edge(begin, kind, 1); edge(end, kind, -1); }
    const cuts = [...edges.keys()].sort((a, b) => a - b), now = new Map();
    let next = 0, begin = 0;
    const lines = text.split("\n"), rows = [];
    const kinds = () => [...now].filter(([, count]) => count > 0).map(([it]) => it).join(" ");
    for (const line of lines) {
      const end = begin + line.length, row = [];
      let at = begin;
      for (; next < cuts.length && cuts[next] <= end; next++) {
        if (cuts[next] > at) row.push([text.slice(at, cuts[next]), kinds()]);
        at = cuts[next];
        for (const [it, by] of edges.get(at)) now.set(it, (now.get(it) ?? 0) + by);
      }
      if (at < end) row.push([text.slice(at, end), kinds()]);
      else if (kinds().includes("mark")) row.push([" ", kinds()]);
      rows.push(row);
      begin = end + 1;
    }
    const keys = rows.map(row => JSON.stringify(row));
    while (this.pre.childElementCount > rows.length) this.pre.lastElementChild.remove();
    rows.forEach((row, number) => {
      if (this.rows[number] === keys[number] && this.pre.children[number]) return;
      const span = ([part, className]) => className ? element("span", {className}, part) : part;
      const made = element("div", {className: "row"}, ...row.map(span));
      if (this.pre.children[number]) this.pre.children[number].replaceWith(made);
      else this.pre.append(made);
    });
    this.rows = keys;
    const marked = new Map(this.marks.map(({begin, kind}) => [this.place(begin)[0], kind]));
    const key = `${lines.length} ${JSON.stringify([...marked])}`;
    if (key !== this.numbered) {
      this.numbered = key;
      const parts = [];
      let plain = "";
      lines.forEach((_, it) => {
        const kind = marked.get(it + 1);
        if (!kind) { plain += `${it + 1}\n`; return; }
        const [name, sign] = kind === "warning" ? ["i", "!"] : ["b", "●"];
        parts.push(plain, element(name, {}, `${sign}${it + 1}`), "\n");
        plain = "";
      });
      this.numbers.replaceChildren(...parts, plain);
    }
  }

  // ------------------------------------------------ What is said of a place

  /** What there is to say of an offset: a mark, or what a variable may be. */
  said(at) {
    const mark = this.marks.find(it => at >= it.begin && at <= it.end);
    if (mark) {
      const place = element("strong", {}, `${this.place(mark.begin).join(":")} `);
      return [place, mark.text, ...mark.hints.map(it => `. ${sentence(it)}`)];
    }
    for (const [begin, {word, parts}] of this.tips) {
      if (at >= begin && at <= begin + word.length) {
        return parts.map(it => typeof it === "string" ? it : element("code", {}, it.code));
      }
    }
    return null;
  }

  caret() {
    const at = this.textarea.selectionStart, is = document.activeElement === this.textarea;
    const near = is ? [at, at - 1].find(it => this.pairs.has(it)) : undefined;
    const partner = near === undefined ? -1 : this.pairs.get(near);
    const lit = near === undefined ? "" : partner < 0 ? `${near}` : `${near} ${partner}`;
    if (lit !== this.lit) {
      this.lit = lit;
      if (this.text.length <= COLOURED) this.paint();
    }
    const said = this.said(at);
    if (said) this.note.replaceChildren(...said);
    else if (is && !this.kept) this.say(`Line ${this.place(at)[0]}, column ${this.place(at)[1]}`);
    else this.say(this.kept);
  }

  /** How wide a character is. */
  width() {
    const ruler = element("span", {textContent: "m".repeat(100), className: "ruler"});
    this.editor.append(ruler);
    const width = ruler.getBoundingClientRect().width / 100;
    ruler.remove();
    return width;
  }

  point(event) {
    if (!this.marks.length && !this.tips.size) return;
    const line = this.pre.children[0];
    if (!line) return;
    const box = this.textarea.getBoundingClientRect(), height = line.getBoundingClientRect().height;
    const style = getComputedStyle(this.textarea);
    const row = Math.floor((event.clientY - box.top - parseFloat(style.paddingTop)) / height);
    const lines = this.text.split("\n");
    if (row < 0 || row >= lines.length) return;
    const left = box.left + parseFloat(style.paddingLeft);
    const column = Math.floor((event.clientX - left) / this.width());
    const begin = lines.slice(0, row).join("\n").length + (row ? 1 : 0);
    const said = column >= 0 && column <= lines[row].length ? this.said(begin + column) : null;
    if (said) this.note.replaceChildren(...said);
    else this.caret();
  }

  key(event) {
    if (event.key === "F8") {
      event.preventDefault();
      const at = this.textarea.selectionStart, isBack = event.shiftKey;
      const marks = [...this.marks].sort((a, b) => (a.begin - b.begin) * (isBack ? -1 : 1));
      const next = marks.find(it => isBack ? it.begin < at : it.begin > at) ?? marks[0];
      if (next) this.show(next.begin);
    }
  }
}

// ---------------------------------------------------------------- The program, in a worker

/** What asks the program, in a worker. What is no longer wanted is ended with its worker. */
class Asker {
  constructor(program) {
    this.program = program;
    const code = new Blob([by("worker").textContent], {type: "text/javascript"});
    this.code = URL.createObjectURL(code);
    this.waiting = new Map();
    this.number = 0;
    this.start();
  }

  start() {
    this.worker = new Worker(this.code);
    this.worker.onmessage = ({data}) => {
      const done = this.waiting.get(data.number);
      this.waiting.delete(data.number);
      done?.(data.found);
    };
    this.worker.onerror = event => {
      event.preventDefault();
      this.stop({status: -1, text: event.message ?? "the worker ended", milliseconds: 0});
    };
    this.worker.postMessage({program: this.program});
  }

  /** Ends what is under way; those who wait for it get null, or what is given. */
  stop(found = null) {
    if (!this.waiting.size) return;
    this.worker.terminate();
    const waiting = [...this.waiting.values()];
    this.waiting.clear();
    this.start();
    waiting.forEach(done => done(found));
  }

  post(message) {
    return new Promise(done => {
      this.waiting.set(++this.number, done);
      this.worker.postMessage({number: this.number, ...message});
    });
  }

  /** The status and the output of the program on these words, over pairs of a name and bytes. */
  answer(words, texts) { return this.post({words, texts}); }

  probe(probe) { return this.post({probe}); }
}

// ---------------------------------------------------------------- Hints

/** What a slip looks like, by what stands at the place and before it. */
function slipOf(text, at, slips) {
  const before = text.slice(0, at), here = text.slice(at);
  const begins = pattern => new RegExp(`^(?:${pattern})`).test(here);
  const endsIn = (it, pattern) => new RegExp(`(?:${pattern})$`).test(it);
  const ends = pattern => endsIn(before, pattern) || endsIn(before.trimEnd(), pattern);
  const isLike = it => (!it.here || begins(it.here)) && (!it.before || ends(it.before));
  return slips.find(isLike)?.hint;
}

function syntaxHint(text, at) {
  const word = /^\w+(?![\w[(])/.exec(text.slice(at))?.[0] ?? "";
  return slipOf(text, at, DATA.slips) ?? own(DATA.elsewhere, word) ?? own(DATA.characters, text[at])
    ?? slipOf(text, at, DATA.others);
}

/** How many letters have to change between two words. */
function distance(one, other) {
  let row = [...other, ""].map((_, it) => it);
  for (let i = 1; i <= one.length; i++) {
    const next = [i];
    for (let j = 1; j <= other.length; j++) {
      next[j] = Math.min(row[j] + 1, next[j - 1] + 1, row[j - 1] + (one[i - 1] !== other[j - 1]));
    }
    row = next;
  }
  return row[other.length];
}

/** The words that are near to one, the nearest first. */
function nearest(word, words) {
  const most = word.length < 4 ? 1 : Math.max(2, word.length / 3);
  const near = [...new Set(words)].filter(it => it !== word).map(it => [distance(word, it), it]);
  const kept = near.filter(([far]) => far <= most).sort(([a], [b]) => a - b);
  return kept.slice(0, 3).map(([, it]) => it);
}

/** The words that stand after a keyword. */
const defined = (pane, keyword) => pane.tokens
  .filter(it => it.before === keyword && !KEYWORDS.has(it.text)).map(it => it.text);

const UNREACHED = "The clauses before take all that may come here, or none that it takes comes";

function hintsOf(pane, number, isWarning, words, at) {
  if (isWarning) return [UNREACHED];
  if (number === 2) return [syntaxHint(pane.text, at)].filter(Boolean);
  const name = /(?:type|function|variable) (\w+) is not defined/.exec(words)?.[1];
  if (!name) return DATA.hints[number] ? [DATA.hints[number]] : [];
  const keyword = {5: "type", 6: "fun", 7: "val"}[number], more = [];
  const near = nearest(name, [...defined(pane, keyword), ...number === 5 ? ["String", "Any"] : []]);
  if (near.length) more.push(`Did you mean ${joined(near)}?`);
  if (number !== 5 && defined(pane, "type").includes(name)) more.push(`${name} is a type`);
  if (number === 5 && own(DATA.types, name)) more.push(DATA.types[name]);
  else if (number === 5 && !near.length) {
    more.push(`An element is written ${name}[], a text "${name}"`);
  }
  return more;
}

const joined = (words, most = 12) => {
  const left = words.length - most;
  const shown = left > 0 ? [...words.slice(0, most), `${left} more`] : words;
  return shown.length > 1 ? `${shown.slice(0, -1).join(", ")} or ${shown.at(-1)}` : shown.join("");
};

/** A mark on the token at an offset; at the end it is on the place behind the text. */
const markAt = (pane, begin, kind, text) => (
  {begin, end: Math.max(begin + 1, pane.at(begin).end), kind, text, hints: []}
);

/** The faults and warnings of an answer, with their places as offsets. */
function messages(pane, output) {
  const found = [];
  for (const line of output.split("\n")) {
    const match = /^(\d+):(\d+): ((fault|warning) (\d+): .*)$/.exec(line);
    if (match) {
      const [, row, column, text, kind, number] = match;
      const begin = pane.offset(Number(row), Number(column));
      const hints = hintsOf(pane, Number(number), kind === "warning", text, begin);
      found.push({place: `${row}:${column}`, ...markAt(pane, begin, kind, text), hints});
    } else if (line.startsWith("fault ")) {
      found.push({place: null, text: line, kind: "fault", hints: []});
    }
  }
  return found;
}

// ---------------------------------------------------------------- Questions and answers

const line = (text, kind = "") => element("p", {className: kind}, text);
const button = (text, onclick, className = "") => (
  element("button", {type: "button", onclick, className}, text)
);

function shownText(text) {
  const left = text.length - SHOWN;
  const shown = left > 0 ? `${text.slice(0, SHOWN)}\n.. ${counted(left)} characters more` : text;
  return element("pre", {}, shown);
}

/** A document of the answer, with a button that makes it the document. */
function asDocument(text) {
  const shown = text.length > COLOURED ? text : spread(text);
  return [shownText(shown), button("Make this the document", () => theDocument.set(`${shown}\n`))];
}

const COLOURS = {fault: "bad", warning: "odd"};

function shownMessages(found) {
  const item = ({place, text, kind, begin, hints}) => element("li", {},
    place
      ? button(`${place}: ${text}`, () => theProgram.show(begin), COLOURS[kind])
      : line(text, "bad"),
    ...hints.map(hint => element("p", {className: "hint"}, sentence(hint))));
  const left = found.length - LISTED;
  const more = left > 0 ? element("li", {}, `.. and ${counted(left)} more`) : null;
  return element("ul", {}, ...found.slice(0, LISTED).map(item), more);
}

/** What a status says that isn't an answer to the question; null for the others. */
function refusal({status, text}) {
  const bad = text => line(text, "first bad");
  const [most, mostOfDocument] = [LIMITS.program, LIMITS.document].map(counted);
  switch (status) {
    case -1: return [bad("The browser ended the run."), line(text)];
    case 2: return [bad("The words have no form of a command: a run makes 1 to 10,000,000 calls.")];
    case 3: return [bad(text)];
    case 4: return [bad("The output is longer than 64 MB, and isn't shown.")];
    case 5: return [bad(`There isn't memory enough: the program has at most ${MEGABYTES} here. `
      + "Nothing is written.")];
    case 10: return [bad(`${text.trim()}. A program has at most ${most} bytes, a document `
      + `${mostOfDocument}.`)];
    default: return null;
  }
}

const ACCEPTED = "Accepted: no match of it fails, and what it writes is of the declared types.";

/** How many faults and warnings there are, in words. */
function sumOf(found) {
  const counts = ["fault", "warning"].map(kind => [found.filter(it => it.kind === kind).length, kind]);
  const some = ([count, kind]) => `${counted(count)} ${kind}${count > 1 ? "s" : ""}`;
  return counts.filter(([count]) => count).map(some).join(" and ");
}

function showCheck(_, found) {
  const isWrong = found.some(it => it.kind === "fault"), told = `The program has ${sumOf(found)}.`;
  return [
    line(isWrong ? told : ACCEPTED, `first ${isWrong ? "bad" : "good"}`),
    found.length ? shownMessages(found) : null,
  ];
}

function showRun({status, text}) {
  switch (status) {
    case 7: return malformed(text);
    case 8: return [
      line("The document isn't one that main takes.", "first bad"),
      line("Ask whether it fits main's type: that tells the place."),
    ];
    case 9: return [line("The program needs more calls than it was allowed.", "first bad")];
    default: return [line("The program writes:", "first good"), ...asDocument(text.trimEnd())];
  }
}

function showLeast({status, text}) {
  if (status === 6) return [line("No document fits this type.", "first bad")];
  return [line("A least document of it:", "first good"), ...asDocument(text.trimEnd())];
}

// Of each question: its words for a person and for the program, the texts beside the program, which
// choices belong to it, and what shows its answer.
const QUESTIONS = {
  check: {
    title: "Is the program right?", words: () => ["check", PROGRAM], texts: [], show: showCheck,
  },
  stream: {
    title: "Does the document fit?", left: "The document is one of", texts: [DOCUMENT],
    words: ({left}) => ["stream", PROGRAM, left, DOCUMENT, "65536"], show: showStream,
  },
  subtype: {
    title: "Is each A a B?", left: "Each", right: "is one of", texts: [],
    words: ({left, right}) => ["subtype", PROGRAM, left, right], show: showSubtype,
  },
  types: {
    title: "What are variables?", words: () => ["types", PROGRAM], texts: [], show: showTypes,
  },
  run: {
    title: "Run the program", fuel: true, texts: [DOCUMENT],
    words: ({fuel}) => ["run", PROGRAM, DOCUMENT, fuel], show: showRun,
  },
  least: {
    title: "A least document", left: "A least document of", texts: [],
    words: ({left}) => ["least", PROGRAM, left], show: showLeast,
  },
};

function markDocument(text, message) {
  const [, row, column] = /^(\d+):(\d+): /.exec(text);
  const begin = theDocument.offset(Number(row), Number(column));
  const mark = markAt(theDocument, begin, "fault", message(begin));
  theDocument.mark([mark]);
  if (isFresh) theDocument.reveal(begin);
  theDocument.tell(`stops at ${row}:${column}`, "fault");
  return mark;
}

/** What stands at an offset of the document, as far as a line of words has room for it. */
function tokenShown(at) {
  const front = theDocument.text.slice(at, at + 200);
  if (!front) return "the end";
  const it = /^(?:\w+\[?|"(?:[^"\\]|\\.)*"|[^])/.exec(front)[0];
  return it.length > 40 ? `${it.slice(0, 40)}..` : it;
}

/** The elements that are open at an offset of a document that is coloured. */
function openAt(at) {
  const open = [];
  for (const {begin, kind, text} of theDocument.found) {
    if (begin >= at) break;
    if (kind === "label") open.push(`${text}[`);
    else if (text === "]") open.pop();
  }
  return (open.length > 12 ? ["..", ...open.slice(-12)] : open).join("");
}

/** A line with a button that leads to a mark of the document. */
const toMark = (mark, place, more) => (
  element("p", {className: "first bad"}, button(place, () => theDocument.show(mark.begin)), more)
);

/** What a document that isn't written as one is told. */
function malformed(text) {
  const mark = markDocument(text, at => `${tokenShown(at)} is no document's`);
  const slip = slipOf(theDocument.text, mark.begin, DATA.documents);
  if (slip) mark.hints.push(slip);
  return [toMark(mark, text.trim(), ` ${mark.text}`), slip ? line(slip) : null];
}

/** What may stand at a place of the document: the program is asked for the document up to there
    with each thing that might. */
async function mayStand(type, begin, place) {
  const front = theDocument.text.slice(0, begin);
  const labels = theProgram.tokens.filter(it => it.kind === "label" && it.text !== "~");
  const classes = new Set(labels.map(it => `${it.text}[`));
  const strings = new Set(theProgram.tokens.filter(it => it.kind === "string").map(it => it.text));
  const words = ["stream", PROGRAM, type, DOCUMENT, "65536"], texts = [[PROGRAM, theProgram.bytes]];
  const other = `other${classes.size}_[`, otherText = `"other ${strings.size}"`;
  const items = [other, ...classes, otherText, ...strings];
  const ask = (front, place, tokens) => (
    asker.probe({words, texts, front, place, tokens, milliseconds: PROBE})
  );
  const first = await ask(front, place, [...items, ",", "]", "", "()"]);
  if (!first) return null;
  const named = may => {
    const labels = may.filter(it => it.endsWith("[")), some = may.filter(it => it.startsWith('"'));
    const items = labels.includes(other) ? ["any element"] : labels;
    return [...items, ...some.includes(otherText) ? ["a text"] : some];
  };
  const found = named(first.may);
  if (first.may.includes("()") && !first.may.includes("")) found.push("()");
  if (first.may.includes("]")) found.push("]");
  if (first.may.includes("")) found.push("the end");
  if (first.may.includes(",")) {
    const [row, column] = place.split(":");
    const second = await ask(`${front},`, `${row}:${Number(column) + 1}`, items);
    if (!second) return null;
    found.unshift(`a comma and ${joined(named(second.may))}`);
  }
  const comma = /,\s*$/.exec(front);
  if (comma) {
    const where = theDocument.place(comma.index).join(":");
    const instead = await ask(front.slice(0, comma.index), where, ["]", ""]);
    if (!instead) return null;
    const end = instead.may.includes("]") ? "]" : "the end";
    found.instead = instead.may.length ? ` In place of the comma may stand ${end}.` : "";
  }
  return {found, isWhole: first.isWhole};
}

async function showStream({status, text}, _, {left}) {
  if (status === 0) {
    theDocument.tell(`a document of ${left}`, "good");
    return [line(`Yes: the document is one of ${left}.`, "first good")];
  }
  const place = /^\d+:\d+/.exec(text)[0];
  let shown, mark;
  if (status === 7) {
    shown = malformed(text);
    mark = theDocument.marks[0];
  } else {
    mark = markDocument(text, at => `${tokenShown(at)} can't stand here`);
    shown = [toMark(mark, place, ` ${mark.text}: no document of ${left} goes on like this.`)];
  }
  const open = openAt(mark.begin);
  if (open) shown.push(element("p", {}, "It is inside ", element("code", {}, open)));
  const more = line("..", "hint");
  mayStand(left, mark.begin, place).then(may => {
    if (!may) { more.textContent = ""; return; }
    const it = tokenShown(mark.begin), labels = may.found.filter(that => that.endsWith("["));
    const near = it.endsWith("[") ? nearest(it, labels) : [];
    if (!may.found.length && !may.isWhole) { more.textContent = ""; return; }
    const all = `${joined(may.found)}${may.isWhole ? "" : ", and perhaps more"}`;
    const said = may.found.length ? `Here may stand ${all}.` : "Nothing may stand here.";
    const meant = near.length ? ` Did you mean ${joined(near)}?` : "";
    more.textContent = `${said}${may.found.instead ?? ""}${meant}`;
    more.className = "";
    mark.hints.push(more.textContent);
    theDocument.caret();
  });
  return [...shown, more];
}

async function showSubtype({status, text}, _, {left, right}) {
  const types = [PROGRAM, theProgram.bytes];
  if (status === 0) {
    const proof = [PROOF, coder.encode(text)];
    const verified = await asker.answer(["verify", PROGRAM, PROOF], [types, proof]);
    if (!verified) return null;
    const count = counted(text.split("\n").length - 1);
    return [
      line(`Yes: each ${left} is one of ${right}.`, "first good"),
      line(`The proof has ${count} lines. verify has looked at each: ${verified.text.trim()}`),
      element("details", {}, element("summary", {}, "The proof"), shownText(text)),
    ];
  }
  const minus = await asker.answer(["minus", PROGRAM, left, right], [types]);
  if (!minus) return null;
  return [
    line(`No. This is a document of ${left} and none of ${right}; no smaller one is:`, "first bad"),
    ...asDocument(text.replace(/^no: /, "").trimEnd()),
    ...minus.status ? [] : [
      line(`All documents of ${left} alone are those of the first type here:`),
      shownText(minus.text.trimEnd()),
    ],
  ];
}

/** Each variable's place, word and types, from an answer of types or precise. */
function blocks(output) {
  const found = new Map();
  let last = null;
  for (const it of output.split("\n")) {
    const match = /^(\d+):(\d+): variable (\w+) as (\w+)$/.exec(it);
    if (match) {
      last = {word: match[3], name: match[4], lines: []};
      found.set(`${match[1]}:${match[2]}`, last);
    } else if (last && it.startsWith("type ")) last.lines.push(it);
  }
  for (const block of found.values()) {
    const only = block.lines.length === 1 && block.lines[0].replace(`type ${block.name} = `, "");
    const isAlone = only && !new RegExp(`\\b${block.name}\\b`).test(only);
    block.shown = only === `none[${block.name}]` ? "nothing: no document comes here"
      : isAlone ? only : block.lines.join("\n");
  }
  return found;
}

/** Asks what variables may be, and keeps it for the pointer and the caret. */
async function lookAtVariables() {
  const texts = [[PROGRAM, theProgram.bytes]];
  const whole = await asker.answer(["types", PROGRAM], texts);
  if (!whole || whole.status) return null;
  const first = await asker.answer(["precise", PROGRAM], texts);
  if (!first || first.status) return null;
  const all = blocks(whole.text), precise = blocks(first.text);
  theProgram.tips.clear();
  for (const [place, {word, shown}] of all) {
    const [row, column] = place.split(":").map(Number), other = precise.get(place)?.shown ?? "";
    const first = other === shown ? [] : ["; by first matches ", {code: other}];
    theProgram.tips.set(theProgram.offset(row, column), {
      word, parts: [`${word} may be `, {code: shown}, ...first],
    });
  }
  return {all, precise};
}

async function showTypes(_, found) {
  const looked = await lookAtVariables();
  if (!looked) return null;
  if (!looked.all.size) return [line("No pattern of the program has a variable.", "first")];
  const code = text => element("code", {}, text);
  const row = (name, cells) => element("tr", {}, ...cells.map(it => element(name, {}, it)));
  const rows = [...looked.all].map(([place, {word, shown}]) => {
    const at = place.split(":").map(Number), other = looked.precise.get(place)?.shown ?? "";
    const go = button(place, () => theProgram.show(theProgram.offset(...at)));
    return row("td", [go, code(word), code(shown), other === shown ? "the same" : code(other)]);
  });
  const head = ["Place", "Variable", "By any way of its pattern", "By the first match"];
  return [
    line("The pointer or the caret, at a variable of the program, shows the same there.", "first"),
    found.length ? shownMessages(found) : null,
    element("table", {}, row("th", head), ...rows),
  ];
}

// (fresh texts, of an example or a link, are shown where their first mark is)
let theProgram, theDocument, asker, question = "check", timer = 0, asked = 0;
let isFresh = false, wanted = {};

const chosen = () => (
  {left: by("left").value, right: by("right").value, fuel: by("fuel").value.replace(/[,\s]/g, "")}
);

/** The names of types in the lists. What was chosen stays, as long as it is there. */
function offerTypes() {
  const names = [...new Set(defined(theProgram, "type")), "Any", "String"];
  ["left", "right"].forEach((id, number) => {
    const list = by(id);
    if ([...list.options].map(it => it.value).join() !== names.join()) {
      list.replaceChildren(...names.map(it => element("option", {value: it}, it)));
    }
    list.value = names.includes(wanted[id]) ? wanted[id] : names[number];
  });
}

function changed() {
  isFresh = false;
  clearTimeout(timer);
  asker?.stop();
  timer = setTimeout(inquire, PAUSE);
}

function running(text) {
  by("running").textContent = text;
  by("stop").hidden = !text;
}

function answered(parts, words, found) {
  by("answer").replaceChildren(...parts.filter(Boolean));
  by("answer").scrollTop = 0;
  const time = found?.milliseconds.toFixed(found.milliseconds < 10 ? 1 : 0);
  const told = found ? ` · status ${found.status} · ${time} ms` : "";
  const shell = element("code", {}, `xduce ${words.join(" ")}`);
  by("command").replaceChildren("The same in a shell: ", shell, told);
}

/** What stands above the program: how many faults and warnings it has. */
function tellChecked(checked, found) {
  if (refusal(checked)) theProgram.tell("no answer", "fault");
  else if (found.some(it => it.kind === "fault")) theProgram.tell(sumOf(found), "fault");
  else if (found.length) theProgram.tell(`accepted, ${sumOf(found)}`, "warning");
  else theProgram.tell("accepted", "good");
}

/** Asks whether the program is right, marks its faults, and asks the chosen question. */
async function inquire() {
  if (!asker) return;
  clearTimeout(timer);
  asker.stop();
  const number = ++asked, isStale = () => number !== asked, begin = performance.now();
  const its = QUESTIONS[question];
  offerTypes();
  by("left-part").hidden = !its.left;
  by("right-part").hidden = !its.right;
  by("fuel-part").hidden = !its.fuel;
  if (its.left) by("left-part").firstElementChild.textContent = its.left;
  if (its.right) by("right-part").firstElementChild.textContent = its.right;
  const choice = chosen(), words = its.words(choice);
  const clock = setInterval(() => {
    const seconds = (performance.now() - begin) / 1000;
    if (seconds * 1000 > WAIT) running(`The program runs: ${seconds.toFixed(0)} s`);
  }, 200);
  try {
    theDocument.mark([]);
    theDocument.tell("");
    const all = {[PROGRAM]: theProgram.bytes, [DOCUMENT]: theDocument.bytes};
    const checked = await asker.answer(["check", PROGRAM], [[PROGRAM, all[PROGRAM]]]);
    if (isStale() || !checked) return;
    const found = messages(theProgram, checked.text);
    theProgram.mark(found.filter(it => it.place));
    if (isFresh && theProgram.marks.length) theProgram.reveal(theProgram.marks[0].begin);
    tellChecked(checked, found);
    const texts = [PROGRAM, ...its.texts].map(it => [it, all[it]]);
    const answer = question === "check" ? checked : await asker.answer(words, texts);
    if (isStale() || !answer) return;
    const told = answer.status === 1 ? messages(theProgram, answer.text) : [];
    const parts = refusal(answer) ?? (answer.status === 1 && question !== "check"
      ? [line("The program has faults, which come first.", "first bad"), shownMessages(told)]
      : await its.show(answer, found, choice));
    if (isStale() || !parts) return;
    answered(parts, words, answer);
    clearInterval(clock);
    running("");
    if (checked.status === 0 && question !== "types") await lookAtVariables();
    if (!isStale()) theProgram.caret();
  } catch (fault) {
    const told = "The page has a fault of its own, and goes on with the next change.";
    answered([line(told, "first bad"), line(String(fault))], words, null);
  } finally {
    clearInterval(clock);
    if (!isStale()) running("");
  }
}

function stop() {
  asked++;
  asker.stop();
  running("");
  const told = line("Stopped. The page asks again after the next change.", "first odd");
  answered([told], QUESTIONS[question].words(chosen()), null);
}

function choose(name) {
  question = own(QUESTIONS, name) ? name : "check";
  for (const it of document.querySelectorAll("#questions input")) {
    it.checked = it.value === question;
  }
}

// ---------------------------------------------------------------- Examples and links

function example(number) {
  const it = DATA.examples[number];
  wanted = {left: it.left, right: it.right};
  choose(it.question);
  for (const [pane, text] of [[theProgram, it.program], [theDocument, it.document]]) {
    pane.set(text, true);
  }
  isFresh = true;
  inquire();
}

/** What becomes of bytes in a stream that packs or unpacks. */
async function through(bytes, stream) {
  const made = new Response(new Blob([bytes]).stream().pipeThrough(stream));
  return new Uint8Array(await made.arrayBuffer());
}

const unpacked = bytes => through(bytes, new DecompressionStream("deflate"));
const bytesOf = text => Uint8Array.from(atob(text), it => it.charCodeAt(0));

const CUT = "This link is cut or changed, so its texts can't be had.";

async function link() {
  const held = {program: theProgram.text, document: theDocument.text, question, ...chosen()};
  const bytes = await through(coder.encode(JSON.stringify(held)), new CompressionStream("deflate"));
  let text = "";
  for (let at = 0; at < bytes.length; at += 8192) {
    text += String.fromCharCode(...bytes.subarray(at, at + 8192));
  }
  const address = btoa(text).replaceAll("+", "-").replaceAll("/", "_").replace(/=+$/, "");
  if (address.length > ADDRESS) {
    theProgram.keep(`The texts are too long for a link: packed they have ${counted(address.length)} `
      + `characters, and an address has at most ${counted(ADDRESS)}.`);
    return;
  }
  link.own = `#1.${address}`;
  location.hash = link.own;
  const length = location.href.length;
  let said = `The address of this page has both texts now, in ${counted(length)} characters`;
  try {
    await navigator.clipboard.writeText(location.href);
    said += ", and is copied";
  } catch {
    // (a page may lack the right to copy)
  }
  const more = length > 8000 ? " Some programs cut an address of that length." : "";
  theProgram.keep(`${said}.${more}`);
}

/** Takes the texts of the address; whether it has some. */
async function follow() {
  const hash = location.hash;
  if (!hash || hash === link.own) return Boolean(hash);
  try {
    if (!hash.startsWith("#1.")) throw new Error("another form");
    const bytes = await unpacked(bytesOf(hash.slice(3).replaceAll("-", "+").replaceAll("_", "/")));
    const held = JSON.parse(new TextDecoder("utf-8", {fatal: true}).decode(bytes));
    if (![held.program, held.document].every(it => typeof it === "string")) {
      throw new Error("no texts");
    }
    wanted = {left: held.left, right: held.right};
    if (/^\d+$/.test(held.fuel)) by("fuel").value = held.fuel;
    choose(held.question);
    theProgram.set(held.program, true);
    theDocument.set(held.document, true);
    by("examples").value = "";
    theProgram.keep("The texts are those of the link.");
    isFresh = true;
    inquire();
    return true;
  } catch {
    follow.isCut = true;
    return false;
  }
}

// ---------------------------------------------------------------- The beginning

/** A module of nothing but a memory with 64-bit addresses. */
const WITH_64_BITS = new Uint8Array([0, 97, 115, 109, 1, 0, 0, 0, 5, 3, 1, 4, 0]);

const LACKS = "This browser can't run the program: it has no WebAssembly memory with 64-bit "
  + "addresses. Chrome and Edge have it from version 133, Firefox from 134.";
const INSTEAD = "Else the program itself answers, from a shell: ./xduce check program.x";

/** The program, compiled; null where the browser has no such memory. */
async function load() {
  const has = globalThis.WebAssembly && WebAssembly.validate(WITH_64_BITS);
  if (!has || !globalThis.DecompressionStream) return null;
  return WebAssembly.compile(await unpacked(bytesOf(by("module").textContent.trim())));
}

function lay() {
  by("made").textContent = DATA.made;
  by("trust").textContent = DATA.trust;
  const option = (value, text) => element("option", {value}, text);
  by("examples").append(option("", "choose one"));
  by("examples").append(...DATA.examples.map((it, number) => option(number, it.title)));
  by("examples").addEventListener("change", ({target}) => {
    if (target.value !== "") example(Number(target.value));
  });
  for (const [name, {title}] of Object.entries(QUESTIONS)) {
    const choice = element("input", {type: "radio", name: "question", value: name});
    choice.addEventListener("change", () => { choose(name); inquire(); });
    by("questions").append(element("label", {}, choice, title));
  }
  for (const id of ["left", "right"]) {
    by(id).addEventListener("change", () => {
      wanted[id] = by(id).value;
      inquire();
    });
  }
  by("fuel").addEventListener("input", changed);
  by("stop").addEventListener("click", stop);
  by("link").addEventListener("click", link);
  by("theme").addEventListener("click", () => {
    const root = document.documentElement;
    const isDark = matchMedia("(prefers-color-scheme: dark)").matches;
    const now = root.className || (isDark ? "dark" : "light");
    root.className = now === "dark" ? "light" : "dark";
  });
  document.addEventListener("selectionchange", () => {
    [theProgram, theDocument].find(it => it.textarea === document.activeElement)?.caret();
  });
  document.addEventListener("keydown", event => {
    if (event.key === "Escape" && !by("stop").hidden) stop();
    if (event.key === "Enter" && (event.ctrlKey || event.metaKey)) {
      event.preventDefault();
      inquire();
    }
  });
  for (const it of ["dragover", "drop"]) {
    addEventListener(it, event => { if (holdsFiles(event)) event.preventDefault(); });
  }
  addEventListener("hashchange", async () => {
    if (!await follow() && follow.isCut) theProgram.keep(`${CUT} What stood here stays.`);
    follow.isCut = false;
  });
}

async function begin() {
  theProgram = new Pane("program", PROGRAM);
  theDocument = new Pane("document", DOCUMENT);
  lay();
  let program = null, fault = "";
  try {
    program = await load();
  } catch (it) {
    fault = ` (${it})`;
  }
  if (program) {
    asker = new Asker(program);
    globalThis.xduce = (words, texts) => asker.answer(words, texts);
  }
  if (!await follow()) {
    const isCut = follow.isCut;
    example(0);
    by("examples").value = "0";
    if (isCut) theProgram.keep(`${CUT} Here is an example.`);
    follow.isCut = false;
  }
  if (!program) {
    answered([line(LACKS, "first bad"), line(`${INSTEAD}${fault}`)], ["check", PROGRAM], null);
  }
  document.documentElement.dataset.ready = "yes";
}

begin();
