"use strict";
// Asks the program. Each question has an instance of the module, and so a memory, of its own; the
// tokens that may stand at one place share one.

const ROOMS = [1 << 20, 1 << 26];
const coder = new TextEncoder(), decoder = new TextDecoder("utf-8", {ignoreBOM: true});
let program = null;

class NoMemory extends Error {}

/** An instance of the program, with what is put into its memory. */
class Instance {
  constructor() {
    Object.assign(this, new WebAssembly.Instance(program, {}).exports);
    this.written = this.take(8);
  }

  take(length) {
    const at = Number(this.page_room(BigInt(Math.max(length, 16))));
    if (!at) throw new NoMemory();
    return at;
  }

  /** Where some bytes begin, with room for more behind them, and how many they are. */
  put(bytes, more = 0) {
    const at = this.take(bytes.length + more);
    new Uint8Array(this.memory.buffer, at, bytes.length).set(bytes);
    return [at, bytes.length];
  }

  table(numbers) {
    const at = this.take(8 * numbers.length);
    new BigUint64Array(this.memory.buffer, at, numbers.length).set(numbers.map(BigInt));
    return at;
  }

  /** Takes the words, and texts as names with where their bytes are, and room for the output. */
  prepare(words, texts, room) {
    this.words = [this.table(words.flatMap(word => this.put(coder.encode(word)))), words.length];
    this.texts = [this.table(texts.flatMap(([name, bytes]) => [...this.put(coder.encode(name)), ...bytes])), texts.length];
    this.room = [this.take(room), room];
  }

  /** The status and the output for what was taken. */
  ask() {
    const status = this.xd_page(...[...this.words, ...this.texts, ...this.room, this.written].map(BigInt));
    const length = Number(new BigUint64Array(this.memory.buffer, this.written, 1)[0]);
    return {status, text: decoder.decode(new Uint8Array(this.memory.buffer, this.room[0], length))};
  }
}

/** The answer to these words, with room enough for the output, and whatever ends a call in its place. */
function answer(words, texts) {
  const begin = performance.now();
  let found;
  try {
    for (const room of ROOMS) {
      const instance = new Instance();
      instance.prepare(words, texts.map(([name, bytes]) => [name, instance.put(bytes)]), room);
      found = instance.ask();
      if (found.status !== 4) break;
    }
  } catch (fault) {
    const isMemory = fault instanceof NoMemory || fault instanceof RangeError && /memory|allocation/i.test(fault.message);
    found = {status: isMemory ? 5 : -1, text: isMemory ? "" : String(fault)};
  }
  return {...found, milliseconds: performance.now() - begin};
}

/** Which tokens may stand at a place of a document, by asking for the document up to there with each of them. */
function probe({words, texts, front, place, tokens, milliseconds}) {
  const end = performance.now() + milliseconds, may = [], bytes = coder.encode(front);
  const instance = new Instance(), longest = Math.max(...tokens.map(it => coder.encode(it).length));
  const [at, length] = instance.put(bytes, longest);
  instance.prepare(words, [...texts.map(([name, it]) => [name, instance.put(it)]), ["document.xd", [at, length]]], 4096);
  // (the length of the last text)
  const lengthAt = instance.texts[0] + 32 * instance.texts[1] - 8;
  for (const token of tokens) {
    if (performance.now() > end) return {may, isWhole: false};
    const more = coder.encode(token);
    new Uint8Array(instance.memory.buffer, at + length, more.length).set(more);
    new BigUint64Array(instance.memory.buffer, lengthAt, 1)[0] = BigInt(length + more.length);
    const {status, text} = instance.ask();
    if (status === 5) return {may, isWhole: false};
    if (token ? status === 0 || !text.startsWith(`${place}: `) : status === 0) may.push(token);
  }
  return {may, isWhole: true};
}

/** What a probe finds; where the browser ends it, nothing. */
function probed(given) {
  try {
    return probe(given);
  } catch {
    return {may: [], isWhole: false};
  }
}

onmessage = ({data}) => {
  if (data.program) program = data.program;
  else postMessage({number: data.number, found: data.probe ? probed(data.probe) : answer(data.words, data.texts)});
};
