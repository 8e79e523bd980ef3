"use strict";
// The page on which one pulls the plug. It draws what the disk tells; the disk itself is a module that module.js carries (docs/page/make).
//
// Nothing is kept between two looks: a disk is played anew from the list of events, so that undo is a shorter list. The parts: the core,
// events as text, what is seen, the drawing, the scenes, and what buttons do. `window.page` at the end is for checks/page.

// ---- The core: the module ---------------------------------------------------------------------------------------------------------

// With 16 blocks no cut meets more unflushed writes than it can name: a start has three slots to bring home, 48 sectors, and a forced write less.
const BLOCKS = 16;
const NONE = -1;
const OPS = { w: 0, f: 1, s: 2, r: 3, i: 4, c: 6, b: 7 };
const FUSE = 5;
// How many unflushed writes a cut can name.
const CHOICES = 64;
// The smallest module with a memory of 64 bits.
const WIDE = new Uint8Array([0, 97, 115, 109, 1, 0, 0, 0, 5, 3, 1, 4, 1]);

// A browser by its name, as it tells of itself.
const browserOf = (agent) => {
  const names = [["Edg", "Edge"], ["OPR", "Opera"], ["Firefox", "Firefox"], ["Chrome", "Chrome"], ["Version", "Safari"]];
  for (const [word, name] of names) {
    const found = new RegExp(`${word}/(\\d+)`).exec(agent);
    if (found) return `${name} ${found[1]}`;
  }
  return "this browser";
};

const core = {
  exports: null,

  // The module stands in a script, since a page that is opened from a disk may read no other file.
  async open() {
    if (!globalThis.WebAssembly?.validate(WIDE)) {
      const newer = "Chrome and Edge have it from 133 on, Firefox from 134 on.";
      throw new Error(`The disk does not run in ${browserOf(navigator.userAgent)}: it needs WebAssembly with a memory of 64 bits (memory64). ${newer}`);
    }
    if (!globalThis.MODULE) throw new Error("The disk is not built yet: docs/page/make builds it, and page.html, which needs no other file.");
    const bytes = Uint8Array.from(atob(globalThis.MODULE), (it) => it.charCodeAt(0));
    const { instance } = await WebAssembly.instantiate(bytes, {});
    this.exports = instance.exports;
  },

  // Plays steps on this disk or the plain one: what page_play and page_plain tell.
  play(name, head, steps) {
    const { memory, page_room } = this.exports;
    const at = page_room();
    const script = new Uint8Array(16 * (steps.length + 1));
    script.set(head);
    const words = new DataView(script.buffer);
    steps.forEach(({ op, from = 0, count = 0, fill = 0, number = 0n }, n) => {
      script.set([op, from, count, fill], 16 * (n + 1));
      words.setBigUint64(16 * (n + 1) + 8, BigInt(number), true);
    });
    const start = Number(at);
    const told = start + script.length;
    const to = told + 128;
    const room = 4 * 2 ** 20 - script.length - 128;
    new Uint8Array(memory.buffer).set(script, start);
    const how = this.exports[`page_${name}`](at, BigInt(script.length), BigInt(told), BigInt(to), BigInt(room));
    if (how !== 0) throw new Error(`the core answers ${how}`);
    return this.told(memory.buffer, told, to, steps.length);
  },

  told(buffer, told, to, steps) {
    const numbers = Array.from(new BigUint64Array(buffer.slice(told, told + 128)), Number);
    const [state, sectors, home, blocks, unflushed] = numbers;
    if (unflushed > CHOICES) throw new Error(`${unflushed} unflushed writes, and a cut names ${CHOICES}`);
    let at = to;
    const part = (size) => new Uint8Array(buffer.slice(at, (at += size)));
    const answers = part(steps);
    const served = part(512 * blocks);
    const durable = part(512 * sectors);
    const waiting = Array.from({ length: unflushed }, () => {
      const it = part(520);
      return { sector: Number(new DataView(it.buffer).getBigUint64(0, true)), bytes: it.subarray(8) };
    });
    return { state, sectors, home, answers, served, durable, waiting, accepted: numbers[5], promised: numbers[6], flushes: numbers[13] };
  },

  // What a sector is, and what these bytes of it say.
  sector(head, sector, bytes) {
    const { memory, page_room, page_sector } = this.exports;
    const at = page_room();
    const start = Number(at);
    new Uint8Array(memory.buffer).set(bytes, start);
    // The sizes stand behind the words that are told: the format, the slots and the blocks.
    new Uint32Array(memory.buffer, start + 576, 3).set([head[0], head[1], head[3]]);
    const kind = page_sector(at + 576n, BigInt(sector), at, at + 512n);
    return { kind, words: Array.from(new BigUint64Array(memory.buffer.slice(start + 512, start + 576)), Number) };
  },
};

const KINDS = ["behind", "super", "head", "descriptor", "data", "commit", "home"];

// ---- Events as text ---------------------------------------------------------------------------------------------------------------
// w7x3 WRITE of 3 blocks from 7, f7x3 with FUA, s SYNCHRONIZE CACHE, i a step while the host is idle, b start, c5.1 cut: which unflushed
// writes survive, as hexadecimal bits, of this disk and of the plain one. @4.2 behind an event: power went after so many calls of it.

const textOf = (it) => {
  const range = it.op === "w" || it.op === "f" ? `${it.from}x${it.count}` : "";
  const kept = it.op === "c" ? `${it.kept.toString(16)}.${it.plain.toString(16)}` : "";
  return it.op + range + kept + ((it.fuse ?? it.plainFuse) === undefined ? "" : `@${it.fuse ?? ""}.${it.plainFuse ?? ""}`);
};

const eventOf = (text) => {
  const found = /^([wf])(\d+)x(\d+)(?:@(\d*)\.(\d*))?$|^([sib])(?:@(\d*)\.(\d*))?$|^(c)([\da-f]+)\.([\da-f]+)$/.exec(text);
  if (!found) throw new Error(`no event ${text}`);
  if (found[9]) return { op: "c", kept: BigInt(`0x${found[10]}`), plain: BigInt(`0x${found[11]}`) };
  const it = found[1] ? { op: found[1], from: Number(found[2]), count: Number(found[3]) } : { op: found[6] };
  const [fuse, plain] = found[1] ? [found[4], found[5]] : [found[7], found[8]];
  if (fuse) it.fuse = Number(fuse);
  if (plain) it.plainFuse = Number(plain);
  return it;
};

const LETTERS = "ABCDEFGHIJKLMNOPQRSTUVWXYZabcdefghijklmnopqrstuvwxyz";
const isWrite = (it) => it.op === "w" || it.op === "f";
// Each write of a page fills its blocks with a byte of its own, so there are 255 of them. Behind z come A2 to z2, and so on.
const MOST_WRITES = 255;
const letterOf = (byte) => {
  const [n, round] = [byte - 1, Math.ceil(byte / LETTERS.length)];
  return byte === 0 ? "" : LETTERS[n % LETTERS.length] + (round > 1 ? round : "");
};
const fillOf = (events) => events.filter(isWrite).length + 1;
const hasFill = (events) => fillOf(events) <= MOST_WRITES;
const nextLetter = (events) => letterOf(fillOf(events));

// The steps of these events for a disk. `of` tells where the answer of each event stands. A cut names 64 unflushed writes, so the plain disk flushes before
// a write with which there would be more.
const stepsOf = (events, isPlain) => {
  const steps = [];
  const of = [];
  let waiting = 0;
  events.forEach((it, n) => {
    const more = isWrite(it) ? it.count : 0;
    if (isPlain && waiting + more > CHOICES) {
      steps.push({ op: OPS.s });
      waiting = 0;
    }
    waiting = "fsc".includes(it.op) ? 0 : waiting + more;
    const fuse = isPlain ? it.plainFuse : it.fuse;
    if (fuse !== undefined) steps.push({ op: FUSE, number: fuse });
    of.push(steps.length);
    const fill = isWrite(it) ? fillOf(events.slice(0, n)) : 0;
    steps.push({ op: OPS[it.op], from: it.from, count: it.count, fill, number: it.op === "c" ? (isPlain ? it.plain : it.kept) : 0 });
  });
  return { steps, of };
};

const isIn = (bits, n) => Boolean((bits >> BigInt(n)) & 1n);

const headOf = (it) => [it.format, it.slots, it.ahead ? 1 : 0, BLOCKS, ...Array(12).fill(0)];

const plays = new Map();
const played = (setting, events, isPlain) => {
  const key = `${isPlain} ${setting.format} ${setting.slots} ${setting.ahead} ${events.map(textOf)}`;
  if (!plays.has(key)) {
    if (plays.size > 120) plays.clear();
    const { steps, of } = stepsOf(events, isPlain);
    const told = core.play(isPlain ? "plain" : "play", headOf(setting), steps);
    plays.set(key, { ...told, answers: of.map((n) => told.answers[n]) });
  }
  return plays.get(key);
};

// ---- What is seen -----------------------------------------------------------------------------------------------------------------

// How many calls of the medium the last event makes, where it is let run: the least fuse that does not blow in it.
const callsOf = (setting, events, isPlain) => {
  const last = events.at(-1);
  if (!last || last.op === "c" || played(setting, events.slice(0, -1), isPlain).state === 1) return 0;
  const blows = (fuse) => played(setting, [...events.slice(0, -1), { ...last, fuse, plainFuse: fuse }], isPlain).answers.at(-1) === 1;
  let [low, high] = [0, 1];
  while (high < 256 && blows(high - 1)) [low, high] = [high, 2 * high];
  while (low < high) {
    const middle = (low + high) >> 1;
    if (blows(middle)) low = middle + 1;
    else high = middle;
  }
  return low;
};

// The events with the last one cut short after so many calls: on the plain disk before its last call at the latest, so that neither answered.
const cutShort = (setting, events, fuse) => {
  const own = callsOf(setting, events, true);
  const plainFuse = own > 0 ? Math.min(fuse, own - 1) : undefined;
  return [...events.slice(0, -1), { ...events.at(-1), fuse, plainFuse }];
};

// The calls of the last event, in words: the sector that each wrote, or a flush.
const filmOf = (setting, events) => {
  const all = callsOf(setting, events, false);
  return Array.from({ length: Math.min(all, 90) }, (_, n) => {
    const before = played(setting, cutShort(setting, events, n), false);
    const after = n + 1 < all ? played(setting, cutShort(setting, events, n + 1), false) : played(setting, events, false);
    if (after.flushes > before.flushes) return { kind: "flush", short: "flush", words: "flush" };
    const written = after.waiting.at(-1);
    const it = decoded(setting, written.sector, written.bytes);
    const short = it.kind === "data" ? it.text : `${SHORT[it.kind] ?? it.kind} ${it.text}`;
    return { kind: it.kind, short, words: `${it.name} with ${it.text}` };
  });
};

const plural = (n, what, more = `${what}s`) => `${n} ${n === 1 ? what : more}`;

// What the bytes of a sector of each kind say: its name, a few letters for its cell, and words.
const EMPTY = "nothing yet, all bytes are zero";
const stamped = (stamp, more) => ({ stamp, text: `#${stamp}`, ...more });
const filled = (letter, says) => (letter ? { text: letter, letter, says } : {});

const SAYS = {
  behind: () => ({ name: "a sector behind the image" }),
  super: ({ setting, says: [blocks, slots, home] }) => ({
    name: "label (the super)",
    text: "✓",
    says: `format ${setting.format}, ${plural(blocks, "block")}, ${plural(slots, "log slot")}, home begins at sector ${home}`,
  }),
  head: ({ says: [oldest] }) => ({ name: "head", ...stamped(oldest, { says: `record #${oldest} is the oldest that may still be needed` }) }),
  descriptor: ({ slot, place, isSuch, says: [stamp, count, ...blocks] }) => {
    const here = count - 30 * place;
    const some = blocks.slice(0, Math.min(here, 3)).join(", ") + (here > 3 ? " and on" : "");
    const told = { count, says: `record #${stamp} holds ${plural(count, "block")}: ${some}` };
    return { name: `descriptor ${place ? `${place + 1} ` : ""}of slot ${slot}`, ...(isSuch ? stamped(stamp, told) : {}) };
  },
  data: ({ setting, slot, place, letter, says: [stamp] }) => {
    const told = setting.format === 2 ? `the stamp #${stamp}, then the letter ${letter} 504 times` : `512 times the letter ${letter}`;
    return { name: `data place ${place + 1} of slot ${slot}`, stamp: setting.format === 2 ? stamp : 0, ...filled(letter, told) };
  },
  commit: ({ slot, isSuch, says: [stamp, count] }) => {
    const told = { count, says: `the end of record #${stamp} with ${plural(count, "block")}` };
    return { name: `commit of slot ${slot}`, ...(isSuch ? stamped(stamp, told) : {}) };
  },
  home: ({ letter, says: [block] }) => ({ name: `home of block ${block}`, place: block, ...filled(letter, `512 times the letter ${letter}`) }),
};

// A sector: what it is, what stands on it in a few letters, and in words.
const decoded = (setting, sector, bytes) => {
  const found = core.sector(headOf(setting), sector, bytes);
  const [slot, place, isSuch, ...says] = found.words;
  const kind = KINDS[found.kind];
  const isEmpty = bytes.every((byte) => byte === 0);
  const usual = { sector, kind, slot, place, isEmpty, text: "", stamp: 0, letter: "", says: EMPTY };
  return { ...usual, ...SAYS[kind]({ setting, slot, place, isSuch, says, letter: letterOf(bytes[511]) }) };
};

// A sector of the plain disk.
const decodedPlain = (_, sector, bytes) => {
  const letter = letterOf(bytes[511]);
  const usual = { sector, kind: "home", place: sector, text: "", letter: "", name: `block ${sector}`, isEmpty: !letter, says: EMPTY };
  return { ...usual, ...filled(letter, `512 times the letter ${letter}`) };
};

// Each sector with its state: empty, durable, unflushed, kept or lost. `gone` has the writes that the last cut lost or kept; `bits` what is chosen to
// survive the next one, or null.
const cellsOf = (setting, told, gone, read, bits = null) => {
  const waiting = new Map();
  const fates = new Map();
  told.waiting.forEach((it, n) => {
    waiting.set(it.sector, [...(waiting.get(it.sector) ?? []), it.bytes]);
    if (bits !== null) fates.set(it.sector, isIn(bits, n) ? "stays" : "goes");
  });
  return (sector) => {
    const now = read(setting, sector, told.durable.subarray(512 * sector, 512 * sector + 512));
    const news = (waiting.get(sector) ?? []).map((bytes) => read(setting, sector, bytes));
    const cut = gone.get(sector) ?? [];
    const lost = cut.filter((it) => !it.isKept).map((it) => read(setting, sector, it.bytes));
    const state = news.length ? "unflushed" : lost.length ? "lost" : cut.length ? "kept" : now.isEmpty ? "empty" : "durable";
    const shown = news.at(-1) ?? lost.at(-1) ?? now;
    const holds = news.length || lost.length ? now : null;
    return { ...shown, state, holds, fate: fates.get(sector) ?? "", words: inWords(state, now, news, lost) };
  };
};

const inWords = (state, now, news, lost) => {
  const name = now.name[0].toUpperCase() + now.name.slice(1);
  if (state === "unflushed") {
    return `${name}. Written, not flushed: ${news.map((it) => it.says).join("; then ")}. Durable below it: ${now.says}.`;
  }
  if (state === "lost") return `${name}. Lost with the power: ${lost.map((it) => it.says).join("; ")}. It holds ${now.says}.`;
  if (state === "kept") return `${name}. It survived the loss of power: ${now.says}.`;
  return `${name}. ${state === "empty" ? "Empty" : "Durable"}: ${now.says}.`;
};

// What the last cut did to each sector, where it is the last event.
const goneOf = (setting, events, isPlain) => {
  const gone = new Map();
  const last = events.at(-1);
  if (last?.op !== "c") return gone;
  const bits = isPlain ? last.plain : last.kept;
  played(setting, events.slice(0, -1), isPlain).waiting.forEach((it, n) => {
    gone.set(it.sector, [...(gone.get(it.sector) ?? []), { bytes: it.bytes, isKept: isIn(bits, n) }]);
  });
  return gone;
};

// The rows of the medium: the two first sectors, the slots of the log, home. Sectors that nothing has touched yet are folded.
const rowsOf = (setting, told, gone, bits = null) => {
  const cell = cellsOf(setting, told, gone, decoded, bits);
  const size = (told.home - 2) / setting.slots;
  const before = setting.format === 2 ? 8 : 1;
  const places = size - before - 1;
  const touched = (sector) => gone.has(sector) || told.waiting.some((it) => it.sector === sector) || told.durable[512 * sector + 511] !== 0;
  let wide = 4;
  for (let slot = 0; slot < setting.slots; slot++) {
    for (let n = wide; n < Math.min(places, BLOCKS); n++) if (touched(2 + size * slot + before + n)) wide = n + 1;
  }
  const rows = [{ name: "", cells: [cell(0), cell(1)] }];
  const stamp = rows[0].cells[1].holds?.stamp || rows[0].cells[1].stamp;
  for (let slot = 0; slot < setting.slots; slot++) {
    const first = 2 + size * slot;
    const second = wide > 30 && setting.format === 2 ? [cell(first + 1)] : [];
    const cells = [cell(first), ...second, ...Array.from({ length: wide }, (_, n) => cell(first + before + n)), cell(first + size - 1)];
    const note = noteOf(setting, cells, stamp);
    rows.push({ name: `slot ${slot}`, note, isOld: note.endsWith("free"), cells, folded: size - cells.length });
  }
  const home = Array.from({ length: BLOCKS }, (_, n) => cell(told.home + n));
  rows.push({ name: "home", note: "each block's own place", isHome: true, cells: home });
  return rows;
};

// What a slot's record is, as its sectors would read now.
const noteOf = (setting, cells, oldest) => {
  const seen = (it) => (it.state === "lost" ? it.holds : it);
  const [first, ...rest] = cells.map(seen);
  const commit = rest.at(-1);
  const stamp = Math.max(first.stamp, commit.stamp, ...(setting.format === 2 ? rest.map((it) => it.stamp) : []));
  if (!stamp) return "free";
  const data = rest.filter((it) => it.kind === "data").slice(0, first.count ?? 0);
  const isWhole = first.stamp === stamp && commit.stamp === stamp && (setting.format === 1 || data.every((it) => it.stamp === stamp));
  if (stamp < oldest) return isWhole ? `#${stamp} is home: free` : `#${stamp} was broken: free`;
  const isDurable = isWhole && ![...cells].some((it) => it.state === "unflushed");
  return `#${stamp} ${isDurable ? "whole" : isWhole ? "not flushed" : "not whole"}`;
};

// The greatest number of these writes, whole and in order, that gives these blocks.
const kOf = (opening, writes, letters) => {
  const blocks = [...opening];
  let found = NONE;
  for (let k = 0; k <= writes.length; k++) {
    if (blocks.every((it, n) => it === letters[n])) found = k;
    if (k < writes.length) blocks.fill(writes[k].letter, writes[k].from, writes[k].from + writes[k].count);
  }
  return found;
};

// The lives: their writes, how many the core says are promised, and the k that the next start found.
const livesOf = (setting, events) => {
  const lives = [];
  let opening = { kept: Array(BLOCKS).fill(""), plain: Array(BLOCKS).fill("") };
  let begun = 0;
  const life = (upTo) => {
    const cut = events.findIndex((it, n) => n >= begun && n < upTo && it.op === "c");
    const told = played(setting, events.slice(0, cut < 0 ? upTo : cut), false);
    const writes = [];
    for (let n = begun; n < (cut < 0 ? upTo : cut); n++) {
      if (!isWrite(events[n]) || told.answers[n] > 1) continue;
      writes.push({ ...events[n], letter: nextLetter(events.slice(0, n)), isAnswered: told.answers[n] === 0 });
    }
    return { opening, writes, promised: told.promised, k: null, plain: null };
  };
  events.forEach((it, n) => {
    const after = it.op === "b" && played(setting, events.slice(0, n + 1), false);
    if (!after || after.answers[n] !== 0) return;
    const ended = life(n);
    const letters = { kept: lettersOf(after.served), plain: lettersOf(played(setting, events.slice(0, n + 1), true).served) };
    ended.k = kOf(opening.kept, ended.writes, letters.kept);
    ended.plain = { k: kOf(opening.plain, ended.writes, letters.plain), letters: letters.plain };
    lives.push(ended);
    opening = letters;
    begun = n + 1;
  });
  return [...lives, life(events.length)];
};

const lettersOf = (served) => Array.from({ length: BLOCKS }, (_, n) => letterOf(served[512 * n + 511]));

// Letters in words: "A in 7 to 9, B in 12".
const told = (letters) => {
  const runs = [];
  letters.forEach((it, n) => {
    const last = runs.at(-1);
    if (last?.it === it && last.to === n - 1) last.to = n;
    else if (it) runs.push({ it, from: n, to: n });
  });
  const range = ({ from, to }) => (to === from ? `${from}` : `${from} ${to > from + 1 ? "to" : "and"} ${to}`);
  return runs.map((run) => `${run.it} in ${range(run)}`).join(", ") || "all blocks are empty";
};

const list = (numbers) => (numbers.length < 2 ? numbers.join("") : `${numbers.slice(0, -1).join(", ")} and ${numbers.at(-1)}`);

// What is wrong with blocks that are those of no first k writes: in words, and in which blocks it shows.
const wrongOf = (writes, letters) => {
  const allOf = (it) => Array.from({ length: it.count }, (_, n) => it.from + n);
  const isThere = (it) => letters.includes(it.letter);
  const behind = (it) => writes.slice(writes.indexOf(it) + 1);
  for (const it of writes) {
    const open = allOf(it).filter((block) => !behind(it).some((later) => later.letter === letters[block]));
    const there = open.filter((block) => letters[block] === it.letter);
    const missing = open.filter((block) => letters[block] !== it.letter);
    if (there.length && missing.length) {
      return { text: `${it.letter} is torn: in ${list(there)}, not in ${list(missing)}`, blocks: open };
    }
  }
  const last = writes.findLast(isThere);
  const isCovered = (it) => allOf(it).every((block) => behind(it).some((later) => isThere(later) && allOf(later).includes(block)));
  const gap = writes.slice(0, writes.indexOf(last)).find((it) => !isThere(it) && !isCovered(it));
  if (gap) return { text: `${last.letter} is there without ${gap.letter}, which came before`, blocks: allOf(gap) };
  return { text: "no list of whole writes gives this", blocks: [] };
};

// ---- Scenes -----------------------------------------------------------------------------------------------------------------------
// A part of a scene: what it says, and what it plays: events; @N or @flush, the moment in the last one; `pull WHICH / BITS`, where WHICH are kinds
// of sectors that survive here, and BITS those of the plain disk, the oldest first.

const SCENES = [
  {
    name: "first", title: "Three kinds of write", from: 2, count: 3,
    parts: [
      ["Two empty disks. Press Next and follow, or use the commands below yourself at any time."],
      ["The host writes A to blocks 2, 3 and 4, by a WRITE with FUA. Both disks answer good, so A is promised: no loss of power may take it.", "f2x3"],
      ["Then B to the same blocks, by an ordinary WRITE. Both disks answer good. This disk holds B in memory. The plain disk wrote three sectors over A and flushed none.", "w2x3"],
      ["Power goes. What was in memory is gone. Of the plain disk’s three sectors one happened to survive.", "pull none / 010"],
      ["Power is back. This disk kept its promise: A is there, whole (k = 1). B was taken and not promised, and is as if it had never been sent. The plain disk has B in the midst of A: no host ever wrote that, and the promised A is gone.", "b"],
      ["Now C, by a WRITE with FUA. The answer waits for a flush: see its record in the log below, with a descriptor, three times C and a commit, all durable. Then D, an ordinary WRITE, which is in memory.", "f2x3", "w5x2"],
      ["SYNCHRONIZE CACHE: now D is in the log too, flushed. One command promises every write before it.", "s"],
      ["E and F are ordinary WRITEs again. Four writes were accepted since the start, and two are promised. So after a loss of power k may be 2, 3 or 4, and nothing else.", "w3x2", "w12x1"],
      ["Power goes.", "pull none / 10"],
      ["k = 2: C and D are there, whole; E and F are not, as if they had never been sent. k is one number: it cuts the row at one place. Try other writes and other cuts: below 2 it never falls.", "b"],
    ],
  },
  {
    name: "torn", title: "A torn WRITE", from: 7, count: 3, late: true,
    parts: [
      ["A host writes blocks 7, 8 and 9 in one WRITE. What if power goes in the midst of it?"],
      ["First A, with FUA: it is promised, and durable on both disks.", "f2x2"],
      ["B goes to 7, 8 and 9, then C to 9 once more. Both disks took them.", "w7x3", "w9x1"],
      ["The host sends SYNCHRONIZE CACHE. Each disk has written all that it has to, and is about to flush: nobody has answered yet. Power may go right here. Any of the striped sectors may be lost, in any order.", "s", "@flush"],
      ["It goes. By bad luck this disk keeps both ends of its record and loses what is between, and the plain disk keeps block 8 alone.", "pull descriptor commit / 0100"],
      ["This disk looks at the record: its data does not carry its number, #3, so the record is not whole and counts for nothing. k = 1: the host finds A. The plain disk shows B in block 8 without 7. Of the 8 disks that such a cut may leave there, no host ever wrote 6.", "b"],
      ["The same once more with D, and with better luck: everything survives, though nobody had answered.", "w7x3", "s", "@flush", "pull all / 111"],
      ["The record is whole, so D is there: k = 1 of the one write since the last start. It was not promised. It may be there or not, but only whole.", "b"],
    ],
  },
  {
    name: "order", title: "The order of three things", from: 3, count: 2, late: true,
    parts: [
      ["A log alone is not enough. Three things have to happen in the right order, each behind a flush."],
      ["A is written with FUA, so its record is durable in the log. First rule: a block goes home, to its own place, only now. Its home below is still empty, and that is no harm: a start reads the log.", "f3x2"],
      ["The host is idle, and the disk brings A home. Home is written, but not flushed.", "i", "i"],
      ["Power goes, and one of the two home sectors is lost.", "pull 0 / 11"],
      ["No harm: the record still stands in the log, and the head still points at it. So the start brings both blocks home again: k = 1. Second rule: the head moves on only after home was flushed.", "b"],
      ["B, C and D are forced too: the log’s three slots are full. The head tells the oldest record that may be needed.", "f3x2", "f10x2", "f12x1"],
      ["Third rule: a slot is written again only when the head has moved past its record, and that was flushed. So for E the disk first brings B home, flushes, moves the head, flushes, and only then writes. Go back into this command with the slider, and pull the plug where you like.", "f14x2"],
    ],
  },
  {
    name: "ring", title: "A ring of slots", from: 1, count: 1, late: true,
    parts: [
      ["The log has three slots. Records fill them in turn, and each has a number, its stamp: one more than the record before."],
      ["A goes out as record #2. (The disk counts each start, too, so #1 was never used.)", "f1x1"],
      ["B and C: records #3 and #4. A record stands in the slot that its stamp gives by division by 3: the rest of 3 is 0, that of 4 is 1.", "f4x2", "f9x3"],
      ["The host is idle for a while. The two oldest records go home, and the head moves past them to #4: their slots are free, though the old sectors still stand there.", ..."iiiiiiii"],
      ["D is record #5 and takes the next slot in turn. What stood there is written over.", "f14x2"],
      ["Power goes. A start begins at the head, reads one record after the other, and stops at the first that is not whole.", "pull none / 1111"],
      ["All four writes were promised, and all are there: k = 4.", "b"],
    ],
  },
  {
    name: "flush", title: "One flush for each record", from: 7, count: 3,
    parts: [
      ["Flushes are slow. This disk, which retires ahead, makes one for a forced write and keeps all three orders by it."],
      ["A, forced. See the calls of this command below: all sectors of the record, then one flush. Each sector carries the stamp, so it does not matter which of them comes first.", "f7x3"],
      ["B, forced. In front of its own record the disk brings A’s home: these sectors share the one flush. A’s record was durable before, so whatever is lost here, A is still found.", "f1x2"],
      ["C, forced: B goes home, the head moves past A, which was flushed at home by the last command, and C’s record follows. One flush again.", "f12x2"],
      ["D is in the midst of it: everything is written, nothing flushed.", "f4x2", "@flush"],
      ["Power goes, and every second sector is lost.", "pull 0 2 4 6 8 / 10"],
      ["The old head or the new one: both stand for the same blocks. A, B and C are there: k = 3. D’s record is not whole.", "b"],
    ],
  },
  {
    name: "recovery", title: "A cut inside a recovery", from: 5, count: 3,
    parts: [
      ["After a loss of power the disk puts its medium in order: that is recovery. What if power goes again while it does?"],
      ["A and B are forced, so both are promised. C is only taken.", "f5x3", "f8x2", "w1x1"],
      ["Power goes.", "pull none / 1"],
      ["Power is back, and the disk begins to copy home what the log has. It has written a part of that, and flushed nothing.", "b", "@3"],
      ["Power goes again, and one of the two sectors is lost.", "pull 1 / none"],
      ["The next start begins anew. The log stands as it was, so the same blocks come out: A and B, as promised.", "b"],
    ],
  },
];

const sceneOf = (name) => SCENES.find((it) => it.name === name) ?? SCENES[0];

// Bits of what survives: of these writes those at these places or of these kinds.
const bitsOf = (setting, waiting, words) => {
  const bit = (is) => waiting.reduce((bits, it, n) => (is(it, n) ? bits | (1n << BigInt(n)) : bits), 0n);
  if (words.includes("all")) return bit(() => true);
  return bit((it, n) => words.includes(String(n)) || words.includes(decoded(setting, it.sector, it.bytes).kind));
};

// The events with a cut of these behind them, in the moment in which the last one is.
const pulled = (events, kept, plain) => [...events, { op: "c", kept, plain }];

// What a scene has come to with this part of it.
const sceneAt = (setting, scene, part) => {
  let events = [];
  let moment = null;
  for (const word of scene.parts.slice(1, part + 1).flatMap(([, ...play]) => play)) {
    if (word.startsWith("@")) {
      const film = filmOf(setting, events);
      const flush = film.findIndex((it) => it.kind === "flush");
      moment = word === "@flush" ? Math.max(flush, 0) : Math.min(Number(word.slice(1)), film.length - 1);
    } else if (word.startsWith("pull ")) {
      const [kinds, bits] = word.slice(5).split(" / ");
      if (moment !== null) events = cutShort(setting, events, moment);
      const plain = bits === "none" ? 0n : BigInt(`0b${[...bits].reverse().join("")}`);
      events = pulled(events, bitsOf(setting, played(setting, events, false).waiting, kinds.split(" ")), plain);
      moment = null;
    } else {
      events = [...events, eventOf(word)];
      moment = null;
    }
  }
  return { events, moment };
};

// ---- The page's state, and the address --------------------------------------------------------------------------------------------

const settingFor = (scene, format) => ({ format, slots: 3, ahead: format === 2 && !scene.late });

// `moment` is how many calls of the last event are done, or null where it is over; `choice` has the bits of what is to survive, while that is chosen.
const now = { scene: SCENES[0], part: 0, setting: settingFor(SCENES[0], 2), events: [], moment: null, seed: 1, choice: null, past: [] };

// The events as they are looked at: the last one cut short at the moment.
const looked = () => (now.moment === null ? now.events : cutShort(now.setting, now.events, now.moment));

const addressOf = () => {
  const words = [`scene=${now.scene.name}`, `part=${now.part}`, `seed=${now.seed}`, `format=${now.setting.format}`];
  const own = sceneAt(now.setting, now.scene, now.part);
  const same = own.moment === now.moment && own.events.map(textOf).join() === now.events.map(textOf).join();
  if (!same) words.push(`do=${now.events.map(textOf).join(",")}`);
  if (!same && now.moment !== null) words.push(`at=${now.moment}`);
  return `#${words.join("&")}`;
};

const load = (address) => {
  const words = new Map(address.replace(/^#/, "").split("&").map((it) => it.split("=")));
  const number = (name, usual, most) => Math.min(Math.max(parseInt(words.get(name) ?? usual, 10) || 0, 0), most);
  now.scene = sceneOf(words.get("scene"));
  now.part = number("part", 0, now.scene.parts.length - 1);
  now.seed = number("seed", 1, 999999);
  now.setting = settingFor(now.scene, number("format", 2, 2) === 1 ? 1 : 2);
  Object.assign(now, sceneAt(now.setting, now.scene, now.part), { choice: null, past: [] });
  if (!words.has("do")) return;
  try {
    now.events = words.get("do").split(",").filter(Boolean).map(eventOf);
    if (now.events.filter(isWrite).length > MOST_WRITES) throw new Error("too many writes");
    const all = callsOf(now.setting, now.events, false);
    now.moment = words.has("at") && all > 0 ? number("at", 0, all - 1) : null;
  } catch {
    Object.assign(now, sceneAt(now.setting, now.scene, now.part));
  }
};

// ---- The drawing ------------------------------------------------------------------------------------------------------------------

const at = (id) => document.getElementById(id);

const make = (tag, properties = {}, ...inside) => {
  const it = document.createElement(tag);
  for (const [name, value] of Object.entries(properties)) {
    if (name in it && name !== "role") it[name] = value;
    else it.setAttribute(name, value);
  }
  it.append(...inside);
  return it;
};

const SHORT = { super: "label", head: "head", descriptor: "descr.", data: "data", commit: "commit" };
const captionOf = (it) => (it.kind === "home" ? String(it.place) : SHORT[it.kind]);

const drawCell = (it, id) =>
  make(
    "button",
    { type: "button", className: `cell ${it.state} ${it.fate} of-${it.kind}`, tabIndex: -1, "data-at": id, "aria-label": it.words },
    make("span", { className: "cap" }, captionOf(it)),
    make("span", { className: "main" }, it.text || "·"),
    ...(it.stamp && it.kind === "data" ? [make("span", { className: "stamp" }, `#${it.stamp}`)] : []),
  );

const drawRows = (into, rows, name) => {
  const focused = document.activeElement?.dataset?.at;
  into.replaceChildren(
    ...rows.map((row) =>
      make(
        "div",
        { className: `sectors ${row.isHome ? "is-home" : ""} ${row.isOld ? "is-old" : ""}` },
        ...(row.name || !row.isHome ? [make("div", { className: "name" }, make("b", {}, row.name), make("span", {}, row.note ?? ""))] : []),
        make(
          "div",
          { className: "cells", role: "group", "aria-label": `${name}: ${row.name || "label and head"}` },
          ...row.cells.map((it) => drawCell(it, `${into.id}-${it.sector}`)),
          ...(row.folded ? [make("span", { className: "folded" }, `${row.folded} more, for longer records`)] : []),
        ),
      ),
    ),
  );
  const cells = into.querySelectorAll(".cell");
  const same = focused && into.querySelector(`[data-at="${focused}"]`);
  (same || cells[0]).tabIndex = 0;
  if (same) same.focus({ preventScroll: true });
};

const rangeOf = (it) => (it.count === 1 ? `${it.from}` : `${it.from}–${it.from + it.count - 1}`);

const ANSWERS = ["good", "power went", "no power", "refused", "failed", "no memory"];

const drawLog = (events, ours) => {
  const items = events.map((it, n) => {
    const letter = isWrite(it) ? nextLetter(events.slice(0, n)) : "";
    const what = {
      w: () => `WRITE ${letter} to ${rangeOf(it)}`,
      f: () => `WRITE ${letter} to ${rangeOf(it)}, FUA`,
      s: () => "SYNCHRONIZE CACHE",
      i: () => "idle: a step",
      c: () => "the plug is pulled",
      b: () => "switched on",
    }[it.op]();
    const isOpen = now.moment !== null && n === events.length - 1;
    const answer = isOpen ? "under way" : it.op === "c" || it.op === "i" ? "" : ANSWERS[ours.answers[n]];
    return make("li", { className: it.op === "c" ? "cut" : "" }, make("span", {}, what), make("span", { className: "answer" }, answer));
  });
  at("log").replaceChildren(...(items.length ? items : [make("li", { className: "none" }, "nothing yet")]));
  requestAnimationFrame(() => (at("log").scrollTop = at("log").scrollHeight));
};

const drawFilm = (film) => {
  const moment = now.moment ?? film.length;
  at("moment").disabled = film.length === 0;
  at("calls").replaceChildren(
    ...film.map((it, n) => make("span", { className: `call of-${it.kind} ${n < moment ? "done" : ""}` }, it.short)),
  );
  at("moment").max = film.length;
  at("moment").value = moment;
  const done = moment ? `done: ${film[moment - 1].words}` : "nothing done";
  const text = film.length === moment ? "all done, and answered" : `${done}; next: ${film[moment].words}`;
  at("moment-text").textContent = film.length ? `After ${moment} of ${film.length} writes and flushes: ${text}.` : "No write and no flush.";
  at("moment").setAttribute("aria-valuetext", at("moment-text").textContent);
};

// A write of the row in words, as a screen reader has it.
const chipWords = (it, n, { promised, k }) => {
  const there = k === null ? "" : n < k ? ", there" : ", not there";
  return `${it.letter} in ${rangeOf(it)}${n < promised ? ", promised" : ""}${it.isAnswered ? "" : ", not answered"}${there}`;
};

const drawChip = (it, n, life) => {
  const { promised, k } = life;
  const state = k === null ? "" : n < k ? "kept" : "gone";
  const classes = ["chip", state, n < promised ? "is-promised" : "", it.isAnswered ? "" : "open"];
  const inside = [make("b", {}, it.letter), make("span", {}, rangeOf(it))];
  return make("li", { className: classes.join(" "), "aria-label": chipWords(it, n, life) }, ...inside);
};

const drawChips = (life, isNow) => {
  const { writes, k } = life;
  const chips = writes.map((it, n) => drawChip(it, n, life));
  if (k !== null) chips.splice(k, 0, make("li", { className: "k", "aria-label": `k is ${k}` }, "k = ", make("b", {}, String(k))));
  const title = isNow ? "since the last start" : "before the last cut";
  const row = writes.length
    ? make("ol", { className: "chips", "aria-label": `Accepted writes ${title}` }, ...chips)
    : make("p", { className: "small none" }, "no write yet");
  return make("div", { className: "life" }, make("span", { className: "small" }, title), row);
};

const were = (n) => `${n} ${n === 1 ? "was" : "were"} promised`;

const markText = (lives, ours) => {
  const { writes, promised } = lives.at(-1);
  const before = lives.at(-2);
  if (before && !writes.length) {
    return `The start found the first k = ${before.k} of ${before.writes.length}, of which ${were(before.promised)}.`;
  }
  if (!writes.length) return "Nothing was written yet.";
  const can = Array.from({ length: writes.length - promised + 1 }, (_, n) => promised + n);
  const some = can.length > 6 ? `${can[0]} to ${can.at(-1)}` : `${can.slice(0, -1).join(", ")} or ${can.at(-1)}`;
  const may = can.length === 1 ? `is ${can[0]}` : `may be ${some}`;
  const when = ours.state === 2 ? "At the next start" : "If power goes now,";
  return `Promised: ${promised} of ${writes.length}. ${when} the host finds the first k writes, and k ${may}.`;
};

const drawBlocks = (id, letters, isOn, wrong) => {
  const classes = (it, n) => `block ${isOn ? "" : "off"} ${it ? "full" : ""} ${wrong.includes(n) ? "wrong" : ""}`;
  at(id).replaceChildren(...letters.map((it, n) => make("span", { className: classes(it, n) }, make("i", {}, String(n)), it || "·")));
  at(id).setAttribute("aria-label", isOn ? told(letters) : "power is off");
};

const drawVerdict = (id, text, isGood) => {
  at(id).textContent = text;
  at(id).className = `verdict ${text ? (isGood ? "good" : "bad") : ""}`;
};

const drawServed = (lives, ours, plain) => {
  const none = make("div", { className: "before" }, make("span", { className: "small" }, "before the last cut"), make("p", { className: "small none" }, "no cut yet"));
  const shownLives = lives.slice(-2).map((it, n, all) => drawChips(it, n === all.length - 1));
  at("row").replaceChildren(...(lives.length > 1 ? [] : [none]), ...shownLives);
  at("mark").textContent = markText(lives, ours);
  const isOn = ours.state === 0 && now.moment === null;
  const before = lives.at(-2);
  const isFresh = before && !lives.at(-1).writes.length && isOn;
  const wrong = isFresh && before.plain.k === NONE ? wrongOf(before.writes, before.plain.letters) : null;
  const kText = (k) => `the first k = ${k} of ${before.writes.length}, whole`;
  const shown = (it) => (isOn ? lettersOf(it.served) : Array(BLOCKS).fill(""));
  drawBlocks("blocks", shown(ours), isOn, []);
  drawBlocks("plain-blocks", shown(plain), isOn, wrong?.blocks ?? []);
  const off = now.moment === null ? "Power is off." : "A command is under way.";
  at("blocks-text").textContent = isOn ? `The host reads: ${told(lettersOf(ours.served))}.` : off;
  at("plain-text").textContent = isOn ? `The host reads: ${told(lettersOf(plain.served))}.` : off;
  const kept = before?.promised ? "promise kept: " : "";
  drawVerdict("verdict", isFresh ? kept + kText(before.k) : "", true);
  drawVerdict("plain-verdict", isFresh ? (wrong?.text ?? kText(before.plain.k)) : "", !wrong);
};

const drawChoices = (ours, plain) => {
  const isOpen = now.choice !== null;
  at("choice").hidden = !isOpen;
  at("choose").setAttribute("aria-expanded", String(isOpen));
  if (!isOpen) return;
  const one = (name, read) => (it, n) => {
    const isKept = isIn(now.choice[name], n);
    const what = read(now.setting, it.sector, it.bytes);
    const flip = () => {
      now.choice[name] ^= 1n << BigInt(n);
      draw();
      at("choices").querySelector(`[data-at="${name}-${n}"]`)?.focus();
    };
    const its = { type: "button", className: `flip ${isKept ? "kept" : "lost"}`, onclick: flip, "data-at": `${name}-${n}` };
    const said = { "aria-pressed": String(isKept), "aria-label": `${what.name}, ${what.text}: survives` };
    const label = ` ${what.kind === "home" ? `block ${what.place}` : what.kind} ${what.text}`;
    return make("button", { ...its, ...said }, make("span", {}, isKept ? "✓" : "×"), label);
  };
  const none = () => make("p", { className: "small" }, "nothing is unflushed");
  const group = (title, name, waiting, read) =>
    make("div", {}, make("h4", {}, title), ...(waiting.length ? waiting.map(one(name, read)) : [none()]));
  at("choices").replaceChildren(group("This disk", "kept", ours.waiting, decoded), group("The plain disk", "plain", plain.waiting, decodedPlain));
};

const HOW = ["was answered good", "was cut off", "found no power", "was refused", "failed", "found no memory"];
const NAMES = { w: "WRITE", f: "WRITE with FUA", s: "SYNCHRONIZE CACHE", i: "A step of the disk’s own", b: "The start" };

// What the last event came to, in a sentence or two.
const report = (events, ours, plain, lives) => {
  const last = events.at(-1);
  if (!last) return "Nothing is on the disk yet.";
  const what = NAMES[last.op] + (isWrite(last) ? ` ${nextLetter(events.slice(0, -1))}` : "");
  if (now.moment !== null) return `${what} is under way: ${now.moment} of its writes and flushes are done, and nothing was answered.`;
  if (last.op === "c") {
    const waiting = played(now.setting, events.slice(0, -1), false).waiting;
    const kept = waiting.filter((_, n) => isIn(last.kept, n)).length;
    const lost = waiting.length - kept;
    const all = `unflushed sectors of this disk: ${waiting.length}${waiting.length ? `, of which ${kept} survived and ${lost} are lost` : ""}`;
    return `Power is gone; ${all}. Switch on again to see what is there.`;
  }
  if (last.op === "b" && ours.state === 0) {
    const { k, writes, promised, plain } = lives.at(-2);
    const other = plain.k === NONE ? wrongOf(writes, plain.letters).text : `the first ${plain.k}`;
    return `The host finds the first k = ${k} of ${writes.length} writes, whole; ${were(promised)}. The plain disk: ${other}.`;
  }
  if (last.op === "i") return `${what}: ${plural(callsOf(now.setting, events, false), "write or flush", "writes and flushes")} of its medium.`;
  const other = plain.answers.at(-1) > 2 ? ` The plain disk ${HOW[plain.answers.at(-1)]}.` : "";
  const full = hasFill(events) ? "" : ` All ${MOST_WRITES} letters are used: start over to write more.`;
  return `${what} ${HOW[ours.answers.at(-1)]}. Promised: ${ours.promised} of ${ours.accepted}.${other}${full}`;
};

const OTHER_FORMAT = " (This is told for format 2. Here is format 1: two flushes a record, and no stamps in its data.)";

// Every caption has its place at once, so that a longer one moves nothing.
const drawRoom = () => {
  const other = now.setting.format === 1 ? OTHER_FORMAT : "";
  const texts = SCENES.flatMap((scene) => scene.parts.map(([text]) => text + other));
  at("room").replaceChildren(...texts.map((text) => make("p", {}, text)));
};

const drawStory = () => {
  const last = now.scene.parts.length - 1;
  at("scene").value = now.scene.name;
  if (at("format").value !== String(now.setting.format) || !at("room").firstChild) drawRoom();
  at("caption").textContent = now.scene.parts[now.part][0] + (now.setting.format === 1 ? OTHER_FORMAT : "");
  at("next").textContent = now.part === last ? "Next scene" : "Next";
  at("progress").textContent = `${now.part} of ${last}`;
  at("undo").disabled = !now.past.length && !now.events.length;
  at("seed").value = now.seed;
  at("format").value = now.setting.format;
};

const drawPower = (ours) => {
  const isOff = ours.state !== 0 && now.moment === null;
  const isFull = !hasFill(now.events);
  for (const id of ["write", "fua", "sync", "step"]) at(id).disabled = isOff || (isFull && (id === "write" || id === "fua"));
  at("pull").hidden = at("choose").hidden = isOff;
  at("start").hidden = !isOff;
  for (const it of document.querySelectorAll(".letter")) it.textContent = isFull ? "" : nextLetter(now.events);
};

const draw = (isFilmed = true) => {
  const events = looked();
  const ours = played(now.setting, events, false);
  const plain = played(now.setting, events, true);
  const lives = livesOf(now.setting, events);
  drawStory();
  drawLog(events, ours);
  const last = now.events.at(-1);
  drawFilm(isFilmed && last && last.op !== "c" && last.fuse === undefined ? filmOf(now.setting, now.events) : []);
  drawChoices(ours, plain);
  drawRows(at("medium"), rowsOf(now.setting, ours, goneOf(now.setting, events, false), now.choice?.kept), "This disk");
  const cell = cellsOf(now.setting, plain, goneOf(now.setting, events, true), decodedPlain, now.choice?.plain);
  drawRows(at("plain-medium"), [{ name: "", isHome: true, cells: Array.from({ length: BLOCKS }, (_, n) => cell(n)) }], "The plain disk");
  drawServed(lives, ours, plain);
  drawPower(ours);
  say(report(events, ours, plain, lives));
  history.replaceState(null, "", addressOf());
};

// A still picture of a scene: what was sent, the medium as power went, and what was found. The README has that of one scene.
const PICTURE_STYLE = `
  text { font: 13px system-ui, "Segoe UI", "DejaVu Sans", sans-serif; fill: #1d242c } .h { font-weight: 600; font-size: 15px } .s { font-size: 11px; fill: #55606b }
  .c { font-size: 9px; text-anchor: middle } .m { font: 600 14px ui-monospace, "DejaVu Sans Mono", monospace; text-anchor: middle } .p { fill: #faf9f6 }
  rect { stroke-width: 1.2 } .empty { fill: #f0eee8; stroke: #dcd9d1 } .durable, .kept { fill: #d4e9df; stroke: #2c7a5c } .lost { fill: #fbeae8; stroke: #b3362b; stroke-dasharray: 2 3 }
  .unflushed { fill: url(#w); stroke: #97620a; stroke-dasharray: 5 3 } .x { stroke: #b3362b; stroke-width: 2 } .k { stroke: #1d5f8a; stroke-width: 4 } .bad { fill: #a52a20 }
  .u { stroke: #1d5f8a; stroke-width: 1.5 } .g { stroke: #97620a; stroke-width: 3; opacity: .35 } .w { fill: #fff1cf }
  @media (prefers-color-scheme: dark) { text { fill: #e8eaed } .s { fill: #a7b1bc } .p { fill: #14181d } .empty { fill: #232a32; stroke: #353d47 }
  .durable, .kept { fill: #1d4234; stroke: #6fc7a0 } .lost { fill: #42211e; stroke: #ff8e82 } .unflushed { stroke: #e5b953 } .x { stroke: #ff8e82 }
  .k, .u { stroke: #7fbde6 } .bad { fill: #ff9c90 } .w { fill: #4a3a12 } }`;

const escaped = (text) => String(text).replace(/&/g, "&amp;").replace(/</g, "&lt;");

const svgText = (kind, x, y, text) => `<text${kind && ` class="${kind}"`} x="${x}" y="${y}">${escaped(text)}</text>`;
const svgBox = (kind, x, y, wide, high) => `<rect class="${kind}" x="${x}" y="${y}" width="${wide}" height="${high}" rx="5"/>`;

const pictureCell = (it, x, y, wide) =>
  svgBox(it.state, x, y, wide, 36) +
  (it.state === "lost" ? `<path class="x" d="M${x + 4} ${y + 32}L${x + wide - 4} ${y + 4}"/>` : "") +
  svgText("c", x + wide / 2, y + 11, captionOf(it)) +
  svgText("m", x + wide / 2, y + 28, it.text || "·");

const pictureBlocks = (letters, wrong, left, top) =>
  letters.slice(0, 16).map((it, n) => {
    const [x, y] = [left + 30 * (n % 8), top + 32 * Math.floor(n / 8)];
    const kind = wrong.includes(n) ? "lost" : it ? "durable" : "empty";
    return svgBox(kind, x, y, 27, 29) + svgText("c", x + 7, y + 10, n) + svgText("m", x + 15, y + 23, it || "·");
  }).join("");

const pictureChips = ({ writes, promised, k }, left, y) => {
  const chip = (it, n) => {
    const x = left + 44 * n + (n >= k ? 62 : 0);
    const line = n < promised ? `<path class="u" d="M${x} ${y + 40}h38m0 3h-38"/>` : "";
    const gone = n < k ? "" : `<path class="x" d="M${x + 6} ${y + 18}h26"/>`;
    const says = svgText("m", x + 19, y + 16, it.letter) + svgText("c", x + 19, y + 29, rangeOf(it));
    return svgBox(n < k ? "durable" : "empty", x, y, 38, 36) + says + gone + line;
  };
  const mark = `<path class="k" d="M${left + 44 * k + 2} ${y - 4}v46"/>` + svgText("h", left + 44 * k + 10, y + 23, `k = ${k}`);
  return writes.map(chip).join("") + mark;
};

// A line for what was sent: the command, and how it was answered.
const pictureSent = (events, n) => {
  const it = events[n];
  const what = { ...NAMES, i: "idle", b: "switched on", c: "the plug is pulled" }[it.op];
  const rest = isWrite(it) ? `: ${nextLetter(events.slice(0, n))} to ${rangeOf(it)}` : "";
  const answer = it.op === "c" ? "" : it.fuse === undefined ? "good" : "no answer yet";
  return svgText(it.op === "c" ? "bad" : "", 20, 74 + 40 * n, what + rest) + svgText("s", 20, 90 + 40 * n, answer);
};

const pictureOf = (name, part) => {
  const scene = sceneOf(name);
  const setting = settingFor(scene, 2);
  const { events } = sceneAt(setting, scene, part);
  const cut = events.slice(0, events.findLastIndex((it) => it.op === "c") + 1);
  const rows = rowsOf(setting, played(setting, cut, false), goneOf(setting, cut, false));
  const plain = cellsOf(setting, played(setting, cut, true), goneOf(setting, cut, true), decodedPlain);
  const life = livesOf(setting, events).at(-2);
  const wrong = life.plain.k === NONE ? wrongOf(life.writes, life.plain.letters) : { text: `the first ${life.plain.k}`, blocks: [] };
  const slot = ({ name: title, note, cells }, y) =>
    svgText("", 232, y + 17, title) + svgText("s", 232, y + 31, note) + cells.map((it, n) => pictureCell(it, 312 + 45 * n, y, 41)).join("");
  const home = (cell, y) => Array.from({ length: 10 }, (_, n) => pictureCell(cell(n + 1), 232 + 36 * n, y, 33)).join("");
  const kept = `the first ${life.k} of ${life.writes.length}, whole`;
  return [
    '<svg xmlns="http://www.w3.org/2000/svg" viewBox="0 0 960 384" role="img" aria-labelledby="t d">',
    '<title id="t">A loss of power in the midst of a command, on this disk and on a plain one</title>',
    `<desc id="d">This disk: ${kept}. A plain disk: ${wrong.text}.</desc><style>${PICTURE_STYLE}</style>`,
    '<pattern id="w" width="8" height="8" patternUnits="userSpaceOnUse"><path class="w" d="M0 0H8V8H0z"/>',
    '<path class="g" d="M0 8L8 0"/></pattern><rect class="p" width="960" height="384" rx="12"/>',
    svgText("h", 20, 34, "The host sends"),
    ...cut.map((_, n) => pictureSent(cut, n)),
    svgText("h", 232, 34, "On the medium, as power goes"),
    svgText("s", 232, 62, "This disk: a log, and home"),
    ...rows.slice(1, 4).map((it, n) => slot(it, 72 + 44 * n)),
    svgText("s", 232, 216, "home of blocks 1 to 10"),
    home((n) => rows.at(-1).cells[n], 222),
    svgText("s", 232, 284, "A plain disk, without a log: blocks 1 to 10"),
    home(plain, 290),
    svgText("s", 232, 354, "green: durable. Crossed: lost with the power"),
    svgText("h", 652, 34, "After the next start"),
    svgText("s", 652, 62, "The accepted writes; the double line: promised"),
    pictureChips(life, 652, 72),
    svgText("", 652, 150, `This disk: ${kept}`),
    pictureBlocks(lettersOf(played(setting, events, false).served), [], 652, 160),
    svgText("bad", 652, 258, `A plain disk: ${wrong.text}`),
    pictureBlocks(life.plain.letters, wrong.blocks, 652, 268),
    "</svg>",
    "",
  ].join("\n");
};

// ---- What buttons do --------------------------------------------------------------------------------------------------------------

const say = (text) => {
  if (at("status").textContent !== text) at("status").textContent = text;
};

const remember = () => now.past.push({ scene: now.scene, setting: now.setting, events: now.events, moment: now.moment, part: now.part });

const doing = (events, moment = null) => {
  remember();
  Object.assign(now, { events, moment, choice: null });
  draw();
};

const play = (event) => {
  if (isWrite(event) && !hasFill(now.events)) return;
  if (played(now.setting, now.events, false).state === 0) doing([...now.events, event]);
};

const pull = (kept, plain) => doing(pulled(looked(), kept, plain));

// Whether one thing after the other survives, by chance from a seed, which also decides whether few, half or most do.
const chance = (seed) => {
  let state = seed >>> 0;
  const next = () => {
    state = (state + 0x6d2b79f5) >>> 0;
    let it = Math.imul(state ^ (state >>> 15), state | 1);
    it ^= it + Math.imul(it ^ (it >>> 7), it | 61);
    return ((it ^ (it >>> 14)) >>> 0) / 2 ** 32;
  };
  const share = [0.2, 0.5, 0.8, 1][Math.floor(4 * next())];
  return () => next() < share;
};

const randomBits = (next, count) =>
  Array.from({ length: count }, next).reduce((bits, is, n) => (is ? bits | (1n << BigInt(n)) : bits), 0n);

const pullAtRandom = () => {
  const next = chance(now.seed);
  const events = looked();
  const kept = randomBits(next, played(now.setting, events, false).waiting.length);
  const plain = randomBits(next, played(now.setting, events, true).waiting.length);
  now.seed = (now.seed % 999999) + 1;
  pull(kept, plain);
};

const start = () => doing([...now.events, { op: "b" }]);

const goTo = (part) => {
  if (part >= now.scene.parts.length) return open(SCENES[(SCENES.indexOf(now.scene) + 1) % SCENES.length], now.setting.format);
  remember();
  Object.assign(now, sceneAt(now.setting, now.scene, part), { part, choice: null });
  draw();
};

const open = (scene, format = 2) => {
  remember();
  Object.assign(now, { scene, part: 0, setting: settingFor(scene, format), events: [], moment: null, choice: null });
  at("at").value = scene.from;
  at("count").value = scene.count;
  draw();
};

const undo = () => {
  const last = now.past.pop() ?? { events: now.events.slice(0, -1), moment: null };
  Object.assign(now, last, { choice: null });
  draw();
};

const range = () => {
  const from = Math.min(Math.max(Number(at("at").value) || 0, 0), BLOCKS - 1);
  const count = Math.min(Math.max(Number(at("count").value) || 1, 1), BLOCKS - from);
  return { from, count };
};

const choose = () => {
  now.choice = now.choice ? null : { kept: 0n, plain: 0n };
  draw();
};

const chosen = (words) => {
  const events = looked();
  now.choice = {
    kept: bitsOf(now.setting, played(now.setting, events, false).waiting, words),
    plain: bitsOf(now.setting, played(now.setting, events, true).waiting, words),
  };
  draw();
};

// Behind a button that goes away the keyboard is at the one that comes in its place.
const keepFocus = () => {
  const isLost = document.activeElement === document.body || !document.activeElement.offsetParent;
  if (isLost) at(at("start").hidden ? "pull" : "start").focus({ preventScroll: true });
};

const plug = () => (at("start").hidden ? pullAtRandom() : start());

const acts = {
  next: () => goTo(now.part + 1),
  undo,
  again: () => open(now.scene, now.setting.format),
  write: () => play({ op: "w", ...range() }),
  fua: () => play({ op: "f", ...range() }),
  sync: () => play({ op: "s" }),
  step: () => play({ op: "i" }),
  pull: pullAtRandom,
  choose,
  start,
  "keep-all": () => chosen(["all"]),
  "keep-none": () => chosen([]),
  "pull-so": () => pull(now.choice.kept, now.choice.plain),
};

const KEYS = { n: "next", w: "write", f: "fua", s: "sync", i: "step", c: "choose", u: "undo", 0: "again" };

const onKey = (event) => {
  const isTyping = event.target.closest("input, select, textarea") && event.target.type !== "range" && event.target.type !== "checkbox";
  if (isTyping || event.ctrlKey || event.metaKey || event.altKey || !at("keys").checked) return;
  const key = event.key.toLowerCase();
  if (key === "p") plug();
  else if (KEYS[key] && !at(KEYS[key]).disabled && !at(KEYS[key]).hidden) acts[KEYS[key]]();
};

// The arrow keys among sectors: to the sides in order, up and down to the nearest one.
const onArrow = (event) => {
  const cell = event.target.closest(".cell");
  const cells = [...document.querySelectorAll(".medium .cell")];
  const step = { ArrowRight: 1, ArrowLeft: -1 }[event.key];
  const down = { ArrowDown: 1, ArrowUp: -1 }[event.key];
  if (!cell || !(step || down)) return;
  const box = cell.getBoundingClientRect();
  const far = (it) => {
    const other = it.getBoundingClientRect();
    const rows = (other.top - box.top) * down;
    return rows > 8 ? rows * 100 + Math.abs(other.left - box.left) : Infinity;
  };
  const next = step ? cells[cells.indexOf(cell) + step] : cells.reduce((best, it) => (far(it) < far(best) ? it : best), cell);
  event.preventDefault();
  if (!next) return;
  cell.tabIndex = -1;
  next.tabIndex = 0;
  next.focus();
};

const inspect = (event) => {
  const cell = event.target.closest?.(".medium .cell");
  if (cell) at("inspector").textContent = cell.getAttribute("aria-label");
};

// While one chooses, a sector of the medium that is pressed changes what becomes of its last write.
const onSector = (event) => {
  const [, name, sector] = event.target.closest(".cell")?.dataset.at.match(/^(plain-)?medium-(\d+)$/) ?? [];
  if (!now.choice || sector === undefined) return;
  const n = played(now.setting, looked(), Boolean(name)).waiting.findLastIndex((it) => it.sector === Number(sector));
  if (n < 0) return;
  now.choice[name ? "plain" : "kept"] ^= 1n << BigInt(n);
  draw();
};

const listen = () => {
  at("scene").replaceChildren(...SCENES.map((it) => make("option", { value: it.name }, it.title)));
  for (const [id, act] of Object.entries(acts)) at(id).addEventListener("click", () => (act(), keepFocus()));
  at("scene").addEventListener("change", () => open(sceneOf(at("scene").value)));
  at("format").addEventListener("change", () => open(now.scene, Number(at("format").value)));
  at("seed").addEventListener("change", () => {
    now.seed = Math.min(Math.max(Number(at("seed").value) || 1, 1), 999999);
    draw();
  });
  at("moment").addEventListener("input", () => {
    const value = Number(at("moment").value);
    Object.assign(now, { moment: value === Number(at("moment").max) ? null : value, choice: null });
    draw();
  });
  document.addEventListener("keydown", onKey);
  for (const it of document.querySelectorAll(".medium")) {
    it.addEventListener("keydown", onArrow);
    it.addEventListener("click", onSector);
    for (const name of ["mouseover", "focusin", "click"]) it.addEventListener(name, inspect);
  }
  window.addEventListener("hashchange", () => {
    if (location.hash === addressOf()) return;
    load(location.hash);
    draw();
  });
};

// ---- For checks/page --------------------------------------------------------------------------------------------------------------

// The address with all events in it, also where a scene has them.
const wholeAddress = () => `#do=${now.events.map(textOf).join(",")}`;

// These events, with the power going after so many calls of the last one, where it makes more, and then of the recovery too, and a start behind. -1 is no
// such cut, and -2 one before the last call. What survives is by chance from the seed.
const lifeOf = (setting, words, fuse, recovery, seed) => {
  const next = chance(seed);
  const blown = (events, wanted, isPlain) => {
    const all = wanted === -1 ? 0 : callsOf(setting, events, isPlain);
    const calls = wanted === -2 ? all - 1 : wanted;
    return calls >= 0 && calls < all ? calls : undefined;
  };
  const cut = (events, calls) => {
    const last = { ...events.at(-1), fuse: blown(events, calls, false), plainFuse: blown(events, calls, true) };
    const short = [...events.slice(0, -1), last];
    const bits = (isPlain) => randomBits(next, played(setting, short, isPlain).waiting.length);
    return pulled(short, bits(false), bits(true));
  };
  const events = cut(words.map(eventOf), fuse);
  const again = [...events, { op: "b" }];
  return blown(again, recovery, false) === undefined ? again : [...cut(again, recovery), { op: "b" }];
};

// Plays such a life, and answers what stands on the page then.
const trial = (format, words, fuse, recovery, seed) => {
  const setting = settingFor(SCENES[0], format);
  const events = lifeOf(setting, words, fuse, recovery, seed);
  Object.assign(now, { scene: SCENES[0], part: 0, setting, events, moment: null, choice: null, past: [], seed });
  draw(false);
  return { ...seen(), address: wholeAddress() };
};

// The same, without a page.
const reckoned = (format, words, fuse, recovery, seed) => {
  const setting = settingFor(SCENES[0], format);
  const events = lifeOf(setting, words, fuse, recovery, seed);
  const row = ({ writes, ...life }) => {
    const chips = writes.map((it, n) => chipWords(it, n, life));
    return life.k === null || !writes.length ? chips : chips.toSpliced(life.k, 0, `k is ${life.k}`);
  };
  const lives = livesOf(setting, events).slice(-2);
  const blocks = (isPlain) => told(lettersOf(played(setting, events, isPlain).served));
  const { k } = lives[0].plain;
  const plainVerdict = k === NONE ? "" : `the first k = ${k}`;
  return { address: `#do=${events.map(textOf).join(",")}`, row: lives.map(row), blocks: blocks(false), plain: blocks(true), plainVerdict };
};

const seen = () => ({
  address: addressOf(),
  isUnderWay: now.moment !== null,
  row: [...at("row").querySelectorAll(".life")].map((life) => [...life.querySelectorAll("li")].map((it) => it.getAttribute("aria-label"))),
  blocks: at("blocks").getAttribute("aria-label"),
  plain: at("plain-blocks").getAttribute("aria-label"),
  verdict: at("verdict").textContent,
  plainVerdict: at("plain-verdict").textContent,
  status: at("status").textContent,
});

// What can be pressed comes with the disk: without it the caption says why, and there is nothing else.
const begin = async () => {
  try {
    await core.open();
  } catch (error) {
    at("caption").textContent = error.message;
    document.documentElement.dataset.ready = "no";
    return;
  }
  for (const it of document.querySelectorAll("[data-live]")) it.hidden = false;
  load(location.hash);
  listen();
  at("at").value = now.scene.from;
  at("count").value = now.scene.count;
  draw();
  document.documentElement.dataset.ready = "yes";
};

window.page = {
  core,
  trial,
  reckoned,
  seen,
  address: wholeAddress,
  picture: () => pictureOf("torn", 5),
  load: (address) => (load(address), draw()),
  unflushed: (isPlain) => played(now.setting, looked(), isPlain).waiting.length,
  scenes: SCENES,
};
window.addEventListener("DOMContentLoaded", begin);
