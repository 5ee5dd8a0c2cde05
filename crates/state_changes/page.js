"use strict";
// What the program wrote: the trace, what its replay showed, the first state, and what each step of each line changed.
const data = JSON.parse(document.getElementById("data").textContent);
const byId = (id) => document.getElementById(id);
const lines = data.trace.replace(/\n$/, "").split("\n");
const groups = data.steps.slice(1).map((group) => group.slice(1));

// A number keeps so many letters, one below 0 drops them, and a text comes in between.
function applied(text, change) {
  let at = 0;
  let out = "";
  for (const part of change) {
    if (typeof part === "string")
      out += part;
    else if (part < 0)
      at -= part;
    else {
      out += text.slice(at, at + part);
      at += part;
    }
  }
  return out + text.slice(at);
}

// The state after each line, and after each step of one line.
const states = [data.first];
for (const group of groups) states.push(group.reduce(applied, states[states.length - 1]));
const kept = {
  line: 0,
  texts: []
};
function stateAt(line, step) {
  if (kept.line !== line) Object.assign(kept, {line, texts: [states[line - 1]]});
  for (let at = kept.texts.length; at <= step; at += 1) kept.texts.push(applied(kept.texts[at - 1], groups[line - 1][at - 1]));
  return kept.texts[step];
}
const partsOf = (text) => text.split("\n").slice(0, -1);

// Each line with steps has a reply; the lines of the log, after the replies, have the numbers of their steps.
const shown = data.shown.split("\n").slice(0, -1);
const replies = groups.map((group) => (group.length ? shown.shift() : ""));
const logs = groups.map(() => []);
for (const entry of shown) {
  let left = Number(entry.split(" ")[1]);
  const line = groups.findIndex((group) => (left -= group.length) <= 0);
  if (line >= 0) logs[line].push(entry);
}

function element(name, kind, text) {
  const made = document.createElement(name);
  if (kind) made.className = kind;
  if (text !== undefined) made.textContent = text;
  return made;
}

// ---- a state: its lines by what they are about

const range = /^(0x[0-9a-f]+)-(0x[0-9a-f]+) (.*)$/;
const hex = (number) => "0x" + number.toString(16);
function stateOf(text) {
  const state = {text, epoch: 0, cores: new Map(), mappings: [], pages: new Map(), frames: new Map()};
  const coreOf = (core) => {
    if (!state.cores.has(core))
      state.cores.set(core, {call: null, holds: [], took: [], inbox: [], tlb: [], table: [], count: [], queue: [], flushed: false});
    return state.cores.get(core);
  };
  for (const line of partsOf(text)) {
    const core = /^core (\d+) (\S+) ?(.*)$/.exec(line);
    const mapping = range.exec(line);
    if (core) {
      const [own, kind, rest] = [coreOf(Number(core[1])), core[2], core[3]];
      const word = rest.split(" ");
      if (kind === "tlb" || kind === "table")
        own[kind].push({line, page: word[0], frame: word[2], rights: word[3], going: (/stale: (\w+)/.exec(rest) || [])[1]});
      else if (kind === "inbox")
        own.inbox.push({line, from: Number(word[1]), pages: word[2], due: word[3]});
      else if (kind === "count")
        own.count.push({line, frame: word[1], by: word[2]});
      else if (kind === "queue")
        own.queue.push({line, frame: word[1], epoch: Number(word[3])});
      else if (kind === "holds")
        own.holds.push(rest);
      else if (kind === "took")
        own.took.push(word[1]);
      else if (kind === "flushed")
        own.flushed = true;
      else
        own.call = {line, name: kind, does: rest};
    } else if (mapping)
      state.mappings.push({line, start: Number(mapping[1]), end: Number(mapping[2]), words: mapping[3]});
    else if (line.startsWith("page ")) {
      const found = /^page (\S+)(?: frame (\d+))?(?: cores (.*))?$/.exec(line);
      state.pages.set(found[1], {line, page: found[1], frame: found[2], cores: found[3] ? found[3].split(" ").map(Number) : []});
    } else if (line.startsWith("frame ")) {
      const found = /^frame (\d+) count (-?\d+) global (-?\d+)( dirty)?$/.exec(line);
      state.frames.set(found[1], {line, frame: found[1], count: found[2], global: found[3], dirty: Boolean(found[4])});
    } else if (line.startsWith("epoch "))
      state.epoch = Number(line.split(" ")[1]);
  }
  return state;
}
const noCore = {
  call: null,
  holds: [],
  took: [],
  inbox: [],
  tlb: [],
  table: [],
  count: [],
  queue: [],
  flushed: false
};
const coreIn = (state, core) => state.cores.get(core) || noCore;

// ---- a line: whose it is, and what it does

const said = lines.find((line) => /^\s*vm\s/.test(line));
const coreCount = said ? Number(said.trim().split(/\s+/)[1]) : 1;
const events = lines.map((line) => {
  const words = line.trim().split(/\s+/);
  const call = /^c(\d+)(!)?$/.exec(words[0]);
  if (line.startsWith("#")) return {kind: "comment"};
  if (!call) return {kind: words[0] === "fold" ? "fold" : "head", words};
  const how = call[2] ? "call" : words[1];
  const request = call[2] ? words.slice(1) : how === "call" ? words.slice(2) : null;
  return {kind: request ? "call" : how, core: Number(call[1]), request, begun: how === "call" && !call[2], words};
});
const changes = ["mmap", "munmap", "mprotect"];

// The calls: from which line to which each goes; and between which lines a core has a translation that is going.
const bars = [];
const open = new Map();
events.forEach((event, index) => {
  if (event.core === undefined) {
    if (event.kind === "fold") bars.push({core: -1, from: index, to: index, kind: "deed", text: "fold"});
    return;
  }
  const ends = !/^(wait|step|idle|full|stuck)\b/.test(replies[index]);
  if (event.request) {
    const bar = {
      core: event.core,
      from: index,
      to: index,
      kind: changes.includes(event.request[0]) ? "change" : "access",
      text: event.request[0],
      answered: ends
    };
    bars.push(bar);
    if (!ends) open.set(event.core, bar);
  } else if (event.kind === "go" || event.kind === "finish") {
    if (open.has(event.core)) Object.assign(open.get(event.core), {to: index, answered: ends});
    if (ends) open.delete(event.core);
  } else {
    const due = event.kind === "take" &&
        (new RegExp(`^core ${event.core} inbox .* (first|second) take due`, "m").exec(states[index]) || [])[1];
    bars.push({
      core: event.core,
      from: index,
      to: index,
      kind: due ? "take" : "deed",
      text: event.kind + (due ? (due === "first" ? " 1" : " 2") : ""),
      answered: replies[index] === "idle"
    });
  }
});
for (const bar of open.values()) bar.to = lines.length - 1;
const dangers = [];
const stale = new Map();
states.forEach((text, line) => {
  const now = new Set([...text.matchAll(/^core (\d+) (?:tlb|table) .* stale/gm)].map((found) => Number(found[1])));
  for (const core of now)
    if (!stale.has(core)) stale.set(core, line);
  for (const [core, begun] of [...stale])
    if (!now.has(core) || line === lines.length) {
      dangers.push({core, from: begun - 1, to: line - 1});
      stale.delete(core);
    }
});

// ---- words: what a line or a step does

const codes = (text) => `\u0001${text}\u0002`;  // what stands between the two is code
const list = (parts) => (parts.length < 2 ? parts.join("") : `${parts.slice(0, -1).join(", ")} and ${parts[parts.length - 1]}`);
const big = (text) => text.charAt(0).toUpperCase() + text.slice(1);
const cores = (numbers) => (numbers.length === 1 ? `core ${numbers[0]}` : `cores ${list(numbers.map(String))}`);
const ordinal = (due) => (due === "first" ? "for the first time" : "for the second time");
function pagesFrom(start, end) {
  const count = (end - start) / 4096;
  return count === 1 ? `page ${codes(hex(start))}` : `${count} pages from ${codes(hex(start))} on`;
}
function pagesOf(text) {
  const found = /^(0x[0-9a-f]+)(?:-(0x[0-9a-f]+))?$/.exec(text);
  return found ? pagesFrom(Number(found[1]), found[2] ? Number(found[2]) : Number(found[1]) + 4096) : text;
}
const spanOf = (request) =>
    pagesFrom(Math.floor(Number(request[1]) / 4096) * 4096, Math.ceil((Number(request[1]) + Number(request[2])) / 4096) * 4096);
function asked(request) {
  const [name, at] = request;
  if (name === "mmap")
    return `maps ${spanOf(request)}, ${codes(request[3])}, ${
        request[4].includes("a") ? "with bytes of zero" :
                                   `of file ${request[5]}, ${request[4].includes("s") ? "shared" : "private"}`}`;
  if (name === "munmap") return `unmaps ${spanOf(request)}`;
  if (name === "mprotect") return `gives ${spanOf(request)} the rights ${codes(request[3])}`;
  if (name === "store") return `stores ${codes(request[2])} at ${codes(at)}`;
  return name === "load" ? `loads the byte at ${codes(at)}` : `fetches the byte at ${codes(at)}`;
}
const refused = {
  "segv maperr": "but no page is mapped there",
  "segv accerr": "but the page\u2019s rights forbid it",
  bus: "but the page lies past its file\u2019s end",
  noframe: "but no frame is free",
  nomemory: "but memory was short"
};
function answered(request, reply) {
  if (reply === "done" || reply.startsWith("0x")) return "";
  if (/^\d+$/.test(reply)) return ` and gets ${codes(reply)}`;
  if (refused[reply]) return `, ${refused[reply]}: ${codes(reply)}`;
  return `, and is refused: ${codes(reply)}`;
}
const toDo = (words) => words.replace(/^(fetch)es |^(\w+)s /, "$1$2 ");  // unmaps: unmap
function waits(reply) {
  const [, why, ...numbers] = reply.split(" ");
  const many = numbers.length > 1;
  if (why === "acks")
    return `it has asked ${cores(numbers)} to drop what ${many ? "they have" : "it has"} of it, and waits until ${
        many ? "each has" : "that core has"} taken the message twice.`;
  return `it needs pages that core ${numbers[0]}\u2019s call holds, and waits.`;
}

// What became of a core's translations, the mappings, pages, frames and counts between two states; `skip` are kinds that were told
// already.
function differences(before, after, skip) {
  const out = [];
  const say = (kind, text) => skip.has(kind) || out.push(text);
  const flat = (state) => state.mappings.map(({start, end, words}) => ({start, end, words}));
  const [old, now] = [flat(before), flat(after)];
  const edges = [...new Set([...old, ...now].flatMap(({start, end}) => [start, end]))].sort((a, b) => a - b);
  const runs = [];
  for (let at = 0; at + 1 < edges.length; at += 1) {
    const find = (all) => (all.find(({start, end}) => start <= edges[at] && edges[at] < end) || {words: ""}).words.split(" ")[0];
    const [was, is] = [find(old), find(now)];
    if (was === is) continue;
    const last = runs[runs.length - 1];
    if (last && last.end === edges[at] && last.was === was && last.is === is)
      last.end = edges[at + 1];
    else
      runs.push({start: edges[at], end: edges[at + 1], was, is});
  }
  for (const run of runs) {
    const pages = big(pagesFrom(run.start, run.end));
    const verb = run.end - run.start > 4096 ? "are" : "is";
    if (!run.is)
      say("unmapped", `${pages} ${verb} no longer mapped`);
    else if (!run.was)
      say("mapped", `${pages} ${verb} mapped`);
    else
      say("rights", `${pages} ${verb} ${codes(run.is)} now`);
  }
  for (const [frame, is] of after.frames)
    if (!before.frames.has(frame)) {
      const page = [...after.pages.values()].find((other) => other.frame === frame);
      say("frame",
          page ? `page ${codes(page.page)} gets frame ${frame}, which was free` : `frame ${frame}, which was free, is taken`);
    } else if (!after.pages.size && is.dirty && !before.frames.get(frame).dirty)
      say("dirty", `frame ${frame} is dirty`);
  for (const [page, is] of after.pages) {
    const was = before.pages.get(page) || {cores: []};
    if (is.frame && was.frame && was.frame !== is.frame)
      say("frame", `page ${codes(page)} has frame ${is.frame} in place of frame ${was.frame}`);
    const fresh = is.cores.filter((core) => !was.cores.includes(core));
    if (fresh.length) say("recorded", `${cores(fresh)} ${fresh.length > 1 ? "are" : "is"} recorded on page ${codes(page)}`);
  }
  for (let core = 0; core < coreCount; core += 1) {
    const [was, is] = [coreIn(before, core), coreIn(after, core)];
    const has = (all, entry) => all.some((other) => other.page === entry.page && other.frame === entry.frame);
    const filled = (kind) => is[kind].filter((entry) => !has(was[kind], entry)).map((entry) => entry.page);
    const dropped = (kind) => was[kind].filter((entry) => !has(is[kind], entry)).map((entry) => entry.page);
    const [both, tables] = [filled("tlb"), filled("table")];
    const twice = both.filter((page) => tables.includes(page));
    if (twice.length) say("filled", `core ${core}\u2019s tables and TLB get ${list(twice.map(codes))}`);
    if (tables.filter((page) => !twice.includes(page)).length)
      say("filled", `core ${core}\u2019s tables get ${list(tables.filter((page) => !twice.includes(page)).map(codes))}`);
    if (both.filter((page) => !twice.includes(page)).length)
      say("filled", `core ${core}\u2019s TLB gets ${list(both.filter((page) => !twice.includes(page)).map(codes))}`);
    const [lostTlb, lostTable] = [dropped("tlb"), dropped("table")];
    const lost = lostTlb.filter((page) => lostTable.includes(page));
    if (lost.length) say("dropped", `core ${core} drops ${list(lost.map(codes))} from its tables and TLB`);
    for (const [pages, name] of [
             [lostTlb.filter((page) => !lost.includes(page)), "TLB"], [lostTable.filter((page) => !lost.includes(page)), "tables"]])
      if (pages.length) say("dropped", `core ${core} drops ${list(pages.map(codes))} from its ${name}`);
    const going = [...is.tlb, ...is.table].filter(
        (entry) => entry.going && ![...was.tlb, ...was.table].some((other) => other.page === entry.page && other.going));
    if (going.length)
      say("going", `core ${core}\u2019s translations of ${list([...new Set(going.map((entry) => codes(entry.page)))])} are stale`);
    for (const count of is.count) {
      const other = was.count.find(({frame}) => frame === count.frame);
      if (!other || other.by !== count.by)
        say("count",
            `core ${core} keeps ${codes(count.by.replace("-", "\u2212"))} for frame ${count.frame} to itself: ` +
                `its true count is ${(after.frames.get(count.frame) || {}).count}, the global one still ${
                    (after.frames.get(count.frame) || {}).global}`);
    }
    for (const count of was.count)
      if (!is.count.some(({frame}) => frame === count.frame))
        say("added",
            `${codes(count.by.replace("-", "\u2212"))} is added to frame ${count.frame}\u2019s global count, now ${
                (after.frames.get(count.frame) || {global: 0}).global}`);
    for (const queued of is.queue)
      if (!was.queue.some(({frame, epoch}) => frame === queued.frame && epoch === queued.epoch))
        say("queue", `frame ${queued.frame} lies in core ${core}\u2019s queue, due in epoch ${queued.epoch + 2}`);
    if (is.flushed && !was.flushed && before.epoch === after.epoch)
      say("flushed", `core ${core}\u2019s part of epoch ${after.epoch} has ended`);
    for (const message of is.inbox)
      if (!was.inbox.some((other) => other.from === message.from && other.pages === message.pages))
        say("told", `core ${core} has a message from core ${message.from}`);
  }
  if (before.epoch !== after.epoch)
    say("epoch", `each core has ended its part: epoch ${before.epoch} ends, and ${after.epoch} begins`);
  for (const frame of before.frames.keys())
    if (!after.frames.has(frame)) say("freed", `frame ${frame} is free again`);
  return out;
}

// How an access was served: by its TLB, by its tables, or by a fault.
function served(event, before, skip) {
  const [name, at] = event.request;
  const page = hex(Math.floor(Number(at) / 4096) * 4096);
  const allows = (entry) => entry.page === page && (name === "load" || entry.rights.includes(name === "store" ? "w" : "x"));
  const own = coreIn(before, event.core);
  for (const [kind, words] of [["tlb", "Its TLB"], ["table", "Its TLB hasn\u2019t the page, but its tables"]]) {
    const entry = own[kind].find(allows);
    if (!entry) continue;
    if (kind === "table") skip.add("filled");
    if (!entry.going) return `${words} ${kind === "tlb" ? "translates" : "have"} it.`;
    const waiting = [...before.cores].find(([, other]) => other.call && other.call.does.startsWith("awaits cores"));
    return `${words} still ${
               kind === "tlb" ? "translates the page" : "have it"}. That translation is stale, and may still be used: ` +
        (waiting ? `core ${waiting[0]}\u2019s ${waiting[1].call.name} has no reply yet.` :
                   "its core hasn\u2019t acknowledged yet.");
  }
  return "Neither its TLB nor its tables allow it: it faults.";
}

const sentence = (parts) => (parts.length ? big(parts.join("; ")) + "." : "");

// What a line does, in words: what is said large, and what besides.
function tellLine(index) {
  const event = events[index];
  const [before, after] = [stateOf(states[index]), stateOf(states[index + 1])];
  const [reply, skip] = [replies[index], new Set()];
  const who = `Core ${event.core}`;
  const rest = () => sentence(differences(before, after, skip));
  if (event.kind === "comment") return {does: "", also: ""};
  if (event.kind === "head")
    return {
      does: event.words[0] === "vm" ?
          `A machine with ${coreCount} core${coreCount > 1 ? "s" : ""} and ${event.words[2]} frames, all free.` :
          event.words[0] === "file" ?
          `File ${event.words[1]}: ${event.words[3]} bytes, from ${event.words[4]} on, open for ${codes(event.words[2])}.` :
          "",
      also: ""
    };
  if (reply === "idle")
    return {
      does: event.kind === "review" ?
          `${who} looks at its queue, and no frame is due yet.` :
          event.kind === "fold" ?
          "Nothing is folded: slots are joined only if no call holds one, none has a frame, and each goes on as the one before." :
          `${who}\u2019s ${event.kind} finds nothing to do.`,
      also: rest()
    };
  if (event.kind === "fold")
    return {does: `The slots at ${codes(event.words[1])} are alike, and are folded into one.`, also: rest()};
  if (event.kind === "call") {
    const request = event.request;
    const access = !changes.includes(request[0]);
    if (event.begun) return {does: `${who} begins to ${toDo(asked(request))}.`, also: "It has made no step of it yet."};
    if (reply.startsWith("wait")) {
      return {does: `${who} begins to ${toDo(asked(request))}: ${waits(reply)}`, also: (skip.add("told"), rest())};
    }
    if (request[0] === "mmap") skip.add("mapped");
    if (request[0] === "munmap") skip.add("unmapped");
    if (request[0] === "mprotect") skip.add("rights");
    let also = access && /^(\d+|done)$/.test(reply) ? served(event, before, skip) : "";
    if (reply.startsWith("segv")) skip.add("filled");
    also = [also, rest()].filter(Boolean).join(" ");
    const inside = (state) => [...state.pages.values()].filter(
        ({page}) => Number(page) >= Number(request[1]) && Number(page) < Number(request[1]) + Number(request[2]));
    if (request[0] === "mmap" && reply.startsWith("0x") && !inside(after).some(({frame}) => frame))
      also = [also, "No page of it has a frame yet: the first access to each will fault."].join(" ");
    if (request[0] === "munmap" && reply === "done" &&
        !inside(before).some((page) => page.cores.some((core) => core !== event.core)))
      also = [also, "No other core is recorded on these pages, so no core has to drop anything."].join(" ");
    return {does: `${who} ${asked(request)}${answered(request, reply)}.`, also};
  }
  if (event.kind === "go" || event.kind === "finish") {
    const call = coreIn(before, event.core).call;
    const name = call ? call.name : "call";
    if (reply.startsWith("wait")) return {does: `${who}\u2019s ${name} goes on: ${waits(reply)}`, also: rest()};
    if (reply === "step")
      return {does: `${who}\u2019s ${name} makes a step: it ${call ? plain(call.does) : "goes on"}.`, also: rest()};
    const why = refused[reply] ? refused[reply].slice(4) + ", " : "";
    const end = reply === "done" || reply.startsWith("0x") ? "is done" :
        /^\d+$/.test(reply)                                ? `gets ${codes(reply)}` :
                                                             `ends: ${why}${codes(reply)}`;
    return {does: `${who}\u2019s ${name} goes on, and ${end}.`, also: rest()};
  }
  if (event.kind === "take") {
    const message = coreIn(before, event.core).inbox[0];
    if (!message) return {does: `${who} takes a message.`, also: rest()};
    skip.add("dropped");
    const inTlb = coreIn(after, event.core).tlb.filter((entry) => entry.going).map((entry) => codes(entry.page));
    const again = message.due === "second";
    const had = coreIn(before, event.core).tlb.some((entry) => entry.going);
    const first = inTlb.length ? `Its TLB still has ${list(inTlb)}: that translation is stale until the second take.` :
                                 "Its TLB hasn\u2019t the page either.";
    const [start, end] = message.pages.split("-").map(Number);
    const still = [...after.cores].some(
        ([, other]) => [...other.tlb, ...other.table].some(({page}) => Number(page) >= start && Number(page) < end));
    const left =
        [...after.cores].some(([, other]) => other.inbox.some(({from, pages}) => from === message.from && pages === message.pages));
    const second = left ? `Core ${message.from} still awaits others.` :
                          `${still ? "" : "No core has a translation of it any more, and "}core ${message.from} may go on.`;
    return {
      does: `${who} takes core ${message.from}\u2019s message ${ordinal(message.due)}: ${
                again ? (had ? `its TLB drops ${pagesOf(message.pages)}, and` : "") + " it acknowledges" :
                               `its tables lose ${pagesOf(message.pages)}`       }.`
                .replace(":  it", ": it"),
      also: [big(again ? second : first), rest()].filter(Boolean).join(" ")
    };
  }
  if (event.kind === "flush") {
    const had = coreIn(before, event.core).count[0];
    return {
      does: had ? `${who} flushes: it hands on its change of frame ${had.frame}\u2019s count.` :
                  `${who} flushes, and has no count to hand on: its part of epoch ${before.epoch} ends.`,
      also: (skip.add(had ? "" : "flushed"), rest())
    };
  }
  if (event.kind === "review") {
    const first = coreIn(before, event.core).queue[0];
    return {
      does: first ? `${who} reviews frame ${first.frame}, which was queued in epoch ${first.epoch}.` : `${who} reviews its queue.`,
      also: first && !after.frames.has(first.frame) ?
          (skip.add("freed"), [`Its count stayed 0 for two epochs: the frame is free again.`, rest()].join(" ")) :
          rest()
    };
  }
  const deeds = {
    walk: "TLB is filled from its tables",
    evict: "TLB drops a page by itself",
    frame: "call takes a frame",
    guess: "call guesses a place",
    whole: "call locks its window",
    giveup: "call is given up"
  };
  if (event.kind === "evict" || event.kind === "walk") skip.add(event.kind === "evict" ? "dropped" : "filled");
  return {
    does: `${who}\u2019s ${deeds[event.kind] || event.kind}${event.words[2] ? `: ${codes(event.words[2])}` : ""}.`,
    also: rest()
  };
}
const plain = (does) => does.replace(/0x[0-9a-f]+(-0x[0-9a-f]+)?/g, (text) => pagesOf(text));

function tellStep(index, step) {
  const [before, after] = [stateOf(stateAt(index + 1, step - 1)), stateOf(stateAt(index + 1, step))];
  const event = events[index];
  const call = event.core !== undefined && coreIn(before, event.core).call;
  const also = sentence(differences(before, after, new Set()));
  if (!call)
    return {
      does: event.request ? `Core ${event.core} begins a call: ${codes(event.request.join(" "))}.` : tellLine(index).does,
      also
    };
  return {does: `Core ${event.core}\u2019s ${call.name} ${plain(call.does)}.`, also};
}

// Writes words, with what is code as such.
function put(into, text) {
  into.replaceChildren(
      ...text.split(/\u0001|\u0002/).map((part, at) => (at % 2 ? element("code", "", part) : document.createTextNode(part))));
}

// The comments right before a line, and a comment itself.
function authorOf(index) {
  const out = [];
  if (index >= 0 && events[index].kind === "comment")
    out.push(lines[index].replace(/^#\s*/, ""));
  else
    for (let at = index - 1; at >= 0 && events[at].kind === "comment" && !/^# (file|anon) \S/.test(lines[at]); at -= 1)
      out.unshift(lines[at].replace(/^#\s*/, ""));
  return out.join(" ");
}

// ---- the trace as a list

const links = lines.map((line, index) => {
  const link = element("a");
  link.href = "#" + (index + 1);
  link.append(element("span", "number", index + 1));
  const text = element("span", line.startsWith("#") ? "text comment" : "text", line);
  if (line.startsWith("#")) text.title = line;
  if (replies[index]) text.append(element("span", "reply", " = " + replies[index]));
  for (const entry of logs[index]) text.append(element("span", "log", entry));
  link.append(text);
  const item = element("li");
  item.append(link);
  byId("lines").append(item);
  return link;
});

// ---- the strip

const strip = byId("strip");
const grid = byId("grid");
const isQuiet = (index) => ["comment", "head"].includes(events[index].kind);
const rowsThere =
    [...Array(coreCount).keys()].filter((core) => coreCount <= 4 || [...bars, ...dangers].some((bar) => bar.core === core));
if (bars.some(({core}) => core < 0)) rowsThere.push(-1);
const least = lines.length > 60 ? "1.1rem" : "3.1rem";
grid.style.gridTemplateColumns = `${rowsThere.includes(-1) ? 3.2 : 3.6}rem ` +
    lines.map((line, index) => (isQuiet(index) ? ".9rem" : `minmax(${least}, 1fr)`)).join(" ");
grid.style.gridTemplateRows = `1.2rem repeat(${rowsThere.length}, auto)`;
if (rowsThere.length > 8) strip.classList.add("crowd");
const columnOf = (index) => index + 2;
function at(made, row, from, to) {
  if (row) made.style.gridRow = String(row);
  made.style.gridColumn = `${columnOf(from)} / ${columnOf(to) + 1}`;
  grid.append(made);
  return made;
}
const past = at(element("div", "past"), 0, 0, 0);
rowsThere.forEach((core, row) => {
  const line = element("div", "row");
  line.style.gridRow = String(row + 2);
  grid.append(line);
  const name = element("div", "name", core < 0 ? "slots" : "core " + core);
  name.style.gridRow = String(row + 2);
  grid.append(name);
});
const numbers = lines.map(
    (line, index) =>
        at(isQuiet(index) ? element("div", "said") : element("div", "no", lines.length > 60 && (index + 1) % 5 ? "" : index + 1), 1,
           index, index));
numbers.forEach((made, index) => {
  if (isQuiet(index)) made.title = lines[index];
});
const rowOf = (core) => rowsThere.indexOf(core) + 2;
for (const danger of dangers) {
  danger.made = at(element("div", "danger"), rowOf(danger.core), danger.from, danger.to);
}
for (const bar of bars) {
  bar.made = at(element("div", "bar " + bar.kind, bar.text), rowOf(bar.core), bar.from, bar.to);
  bar.made.title = lines[bar.from];
}
const head = at(element("div", "head"), 0, 0, 0);

// The line whose column is at this place, or the next one.
function lineAt(x) {
  let best = 0;
  numbers.forEach((made, index) => {
    if (made.getBoundingClientRect().left <= x + (isQuiet(index) ? 4 : 0)) best = index + 1;
  });
  return best;
}
let scrubs = false;
grid.addEventListener("pointerdown", (event) => {
  if (event.button || event.pointerType === "touch") return;  // a finger scrolls the strip, and goes where it taps
  scrubs = true;
  grid.setPointerCapture(event.pointerId);
  go(lineAt(event.clientX));
});
grid.addEventListener("click", (event) => {
  if (event.pointerType === "touch") go(lineAt(event.clientX));
});
grid.addEventListener("pointermove", (event) => {
  if (scrubs) {
    const to = lineAt(event.clientX);
    if (to !== line) go(to);
  }
});
for (const name of ["pointerup", "pointercancel"])
  grid.addEventListener(name, () => {
    scrubs = false;
  });

// ---- colours: a mapping keeps that of the one before it which it overlaps

const hues = [212, 145, 32, 285, 178, 55, 330, 255];
let colours = 0;
const mappings = [];
for (const text of states) {
  const known = mappings.length ? mappings[mappings.length - 1] : [];
  mappings.push([...text.matchAll(/^(0x[0-9a-f]+)-(0x[0-9a-f]+) /gm)].map((found) => {
    const [start, end] = [Number(found[1]), Number(found[2])];
    const old = known.find((other) => other.start < end && start < other.end);
    return {start, end, hue: old ? old.hue : hues[colours++ % hues.length]};
  }));
}
function hueOf(made, number, known) {
  const mapping = known.find((other) => other.start <= number && number < other.end);
  if (mapping) made.style.setProperty("--hue", `hsl(${mapping.hue} 60% 45%)`);
}

// ---- the state

const isSame = (a, b) => a && b && JSON.stringify(a) === JSON.stringify(b);

// Notes which line of the state something shows, and whether that line is new.
let oldLines = new Set();
function mark(made, line) {
  made.dataset.line = line;
  if (!oldLines.has(line)) made.dataset.fresh = "";
  return made;
}
const markPair = (made, pair, line) => (pair.is ? mark(made, line || pair.is.line) : made);

function itemOf(words, kind, was) {
  const made = element("span", "item" + (kind ? " " + kind : ""), words);
  if (was) {
    made.classList.add("changed");
    made.append(element("span", "was", was));
  }
  return made;
}

// What is in either of two lists, each with what it was and is; paired by a key.
function paired(before, after, keyOf) {
  const out = after.map((is) => ({is, was: before.find((other) => keyOf(other) === keyOf(is))}));
  for (const was of before)
    if (!after.some((is) => keyOf(is) === keyOf(was))) out.push({was});
  return out;
}
const kindOf = ({is, was}) => (!is ? "gone" : !was ? "new" : isSame(is, was) ? "" : "new");

function cardOf(core, before, after, acts, known) {
  const [was, is] = [coreIn(before, core), coreIn(after, core)];
  const card = element("section", "card" + (acts ? " acts" : ""));
  card.id = "core" + core;
  card.setAttribute("aria-label", "core " + core);
  const title = element("h3", "", "core " + core);
  if (is.flushed || was.flushed) {
    const made = itemOf("flushed", is.flushed ? (was.flushed ? "" : "new") : "gone");
    title.append(is.flushed ? mark(made, `core ${core} flushed`) : made);
  }
  card.append(title);
  const start = card.childElementCount;
  const add = (name, made) => made.length && card.append(element("h4", "", name), ...made);
  const callWords = (call) => call && (call.name === "call" ? "" : call.name + " ") + call.does;
  const holdLine = (text) => `core ${core} holds ${text}`;
  if (is.call || was.call) {
    const isNew = !isSame(is.call, was.call);
    const old = is.call && was.call && isNew ? callWords(was.call) : "";
    const made = itemOf(callWords(is.call) || callWords(was.call), is.call ? (isNew ? "new" : "") : "gone", old);
    if (is.call) mark(made, is.call.line);
    made.dataset.call = core;
    if (is.holds.length) {
      const holds = element("span", "holds", "holds");
      for (const text of is.holds) holds.append(" ", mark(element("span", "", text), holdLine(text)));
      made.append(holds);
    }
    add("call", [made]);
  } else
    add("holds",
        paired(was.holds, is.holds, (text) => text.split("-")[0])
            .map((pair) => markPair(itemOf(pair.is || pair.was, kindOf(pair)), pair, holdLine(pair.is))));
  add("took",
      paired(was.took, is.took, (frame) => frame)
          .map(
              (pair) =>
                  markPair(itemOf("frame " + (pair.is || pair.was), kindOf(pair)), pair, `core ${core} took frame ${pair.is}`)));
  add("inbox", paired(was.inbox, is.inbox, (message) => message.from + message.pages).map((pair) => {
    const message = pair.is || pair.was;
    const old = pair.is && pair.was && !isSame(pair.is, pair.was) ? `${pair.was.due} take due` : "";
    const made = itemOf(`from core ${message.from}: drop ${message.pages}, ${message.due} take due`, kindOf(pair), old);
    hueOf(made, Number(message.pages.split("-")[0]), known);
    if (pair.is) Object.assign(made.dataset, {from: message.from, due: message.due});
    return markPair(made, pair);
  }));
  // translations: a row a page, with what TLB and tables have of it
  const keyOf = (entry) => `${entry.page} ${entry.frame} ${entry.rights}`;
  const keys = [...new Set([...is.tlb, ...is.table, ...was.tlb, ...was.table].map(keyOf))].sort(
      (a, b) => Number(a.split(" ")[0]) - Number(b.split(" ")[0]));
  if (keys.length) {
    const table = element("table", "twins");
    const top = element("tr");
    for (const name of ["page", "TLB", "tables"]) {
      const cell = element("th", "", name);
      cell.scope = "col";
      top.append(cell);
    }
    table.append(top);
    for (const key of keys) {
      const row = element("tr");
      const [page, frame, rights] = key.split(" ");
      const first = element("td", "page", page);
      first.append(element("small", "", `frame ${frame} ${rights}`));
      hueOf(first, Number(page), known);
      row.dataset.frame = frame;
      row.append(first);
      for (const kind of ["tlb", "table"]) {
        const find = (all) => all[kind].find((entry) => keyOf(entry) === key);
        const pair = {is: find(is), was: find(was)};
        if (!pair.is && !pair.was) {
          row.append(element("td", "cell none", "\u2013"));
          continue;
        }
        const going = pair.is && pair.is.going;
        const cell = element("td", "cell " + kindOf(pair), going ? "stale" : pair.is ? "has it" : "had it");
        if (going) {
          cell.className = "cell going" + (isSame(pair.is, pair.was) ? "" : " changed");
          cell.title =
              going === "posted" ? "asked to drop it, no take yet" : "the tables have lost it; the TLB loses it at the second take";
        }
        row.append(markPair(cell, pair));
      }
      table.append(row);
    }
    card.append(table);
  }
  add("to add to counts", paired(was.count, is.count, ({frame}) => frame).map((pair) => {
    const {frame, by} = pair.is || pair.was;
    return markPair(itemOf(`frame ${frame} ${by.replace("-", "\u2212")}`, kindOf(pair)), pair);
  }));
  add("to review", paired(was.queue, is.queue, ({frame, epoch}) => frame + " " + epoch).map((pair) => {
    const queued = pair.is || pair.was;
    const due = after.epoch < queued.epoch + 2 ? `due in epoch ${queued.epoch + 2}` : "due";
    return markPair(itemOf(`frame ${queued.frame}, ${due}`, kindOf(pair)), pair);
  }));
  if (card.childElementCount === start) {
    card.classList.add("idle");
    title.append(element("span", "tag", "no call, no translation"));
  }
  return card;
}

function mappingsOf(before, after, known) {
  const made = [element("h2", "", "Mappings and their pages")];
  const rest = new Set(paired([...before.pages.values()], [...after.pages.values()], ({page}) => page));
  const all = paired(before.mappings, after.mappings, ({line}) => line);
  const pageOf = (pair) => {
    const {page, frame, cores: own} = pair.is || pair.was;
    const row = element("li", kindOf(pair), "");
    row.append(
        element("span", "", page), element("span", "", frame ? "frame " + frame : "no frame"),
        element("span", "", own.length ? (own.length > 1 ? "cores " : "core ") + rangesOf(own) : "no core"));
    if (frame) row.dataset.frame = frame;
    return markPair(row, pair);
  };
  for (const pair of all) {
    const mapping = pair.is || pair.was;
    const box = markPair(element("div", "mapping " + kindOf(pair), mapping.line), pair);
    hueOf(box, mapping.start, known);
    const own = [...rest].filter(
        (other) => Number((other.is || other.was).page) >= mapping.start && Number((other.is || other.was).page) < mapping.end &&
            (pair.is || !other.is));
    if (own.length) {
      const pages = element("ul");
      for (const page of own) {
        rest.delete(page);
        pages.append(pageOf(page));
      }
      box.append(pages);
    }
    made.push(box);
  }
  if (rest.size) {
    const box = element("div", "mapping", "in no mapping");
    const pages = element("ul");
    for (const page of rest) pages.append(pageOf(page));
    box.append(pages);
    made.push(box);
  }
  if (made.length === 1) made.push(element("p", "", "Nothing is mapped."));
  return made;
}

// Each frame in use is a box, with all that refers to it.
function framesOf(before, after, known) {
  const made = [mark(element("h2", "", `Frames in use \u00b7 epoch ${after.epoch}`), `epoch ${after.epoch}`)];
  if (before.epoch !== after.epoch) made[0].append(" ", element("span", "chip new", `was ${before.epoch}`));
  const grid = element("div", "frames");
  const refersTo = (state, frame) => {
    const out = [];
    const many = [...state.pages.values()].filter((page) => page.frame === frame).length > 1;
    for (const page of state.pages.values())
      if (page.frame === frame) out.push({key: "page " + page.page, text: "page " + page.page});
    for (const [core, own] of state.cores) {
      for (const kind of ["tlb", "table"])
        for (const entry of own[kind])
          if (entry.frame === frame)
            out.push({
              key: `${kind} ${core} ${entry.page}`,
              text: `core ${core} ${kind === "tlb" ? "TLB" : "tables"}${many ? " " + entry.page : ""}`,
              going: Boolean(entry.going)
            });
      for (const took of own.took)
        if (took === frame) out.push({key: "took " + core, text: `core ${core}\u2019s call`});
      for (const queued of own.queue)
        if (queued.frame === frame)
          out.push({key: "queue " + core, text: `core ${core}\u2019s queue, due in epoch ${queued.epoch + 2}`});
    }
    return out;
  };
  const sumOf = (state, frame) => {
    const is = state.frames.get(frame);
    const kept = [...state.cores].flatMap(
        ([core, own]) => own.count.filter((count) => count.frame === frame)
                             .map((count) => `${count.by.startsWith("-") ? "\u2212" : "+"} ${count.by.slice(1)} of core ${core}`));
    return is && (kept.length ? `${is.count} = ${is.global} global ${kept.join(" ")}` : is.count) + (is.dirty ? ", dirty" : "");
  };
  for (const pair of paired([...before.frames.values()], [...after.frames.values()], ({frame}) => frame)) {
    const {frame} = pair.is || pair.was;
    const box = element("section", "frame" + (pair.is ? (pair.was ? "" : " new") : " gone"));
    box.dataset.frame = frame;
    box.setAttribute("aria-label", "frame " + frame);
    box.append(element("h3", "", `frame ${frame}${pair.is ? "" : ": free again"}`));
    markPair(box, pair);
    const [sum, old] = [sumOf(after, frame), sumOf(before, frame)];
    if (sum) {
      const line = element("p", "sum" + (old && old !== sum ? " new" : ""), "count " + sum);
      if (old && old !== sum) line.title = "was " + old;
      box.append(line);
    }
    const all = paired(refersTo(before, frame), refersTo(after, frame), ({key}) => key);
    const chips = element("ul");
    for (const chip of all) {
      const thing = chip.is || chip.was;
      const one = element(
          "li",
          "chip" +
              (chip.is && thing.going ? " going" :
                   chip.is            ? (chip.was ? "" : " new") :
                                        " gone"),
          thing.text + (chip.is && thing.going ? ": stale" : ""));
      chips.append(one);
    }
    if (all.length)
      box.append(chips);
    else
      box.append(element("p", "", "nothing refers to it"));
    const page = all.map(({is, was}) => /^page (0x\S+)/.exec((is || was).key)).find(Boolean);
    if (page) hueOf(box, Number(page[1]), known);
    grid.append(box);
  }
  made.push(grid.childElementCount ? grid : element("p", "", "No frame is in use."));
  return made;
}

// The numbers of cores as ranges: 0, 3-7.
function rangesOf(numbers) {
  const runs = [];
  for (const number of numbers) {
    const last = runs[runs.length - 1];
    if (last && last[1] === number - 1)
      last[1] = number;
    else
      runs.push([number, number]);
  }
  return runs.map(([from, to]) => (from === to ? String(from) : `${from}\u2013${to}`)).join(", ");
}

// The cards of all cores; of many, those that have nothing are one line.
function draw(oldText, text, known, actor) {
  const [before, after] = [stateOf(oldText), stateOf(text)];
  oldLines = new Set(partsOf(oldText));
  const cards = element("div", "cores");
  const idle = [];
  for (let core = 0; core < coreCount; core += 1) {
    const card = cardOf(core, before, after, core === actor, known);
    if (coreCount > 8 && core !== actor && card.classList.contains("idle"))
      idle.push(core);
    else
      cards.append(card);
  }
  byId("cores").replaceChildren(cards);
  if (idle.length)
    byId("cores").append(
        element("p", "rest", `No call and no translation: ${idle.length > 1 ? "cores" : "core"} ${rangesOf(idle)}.`));
  byId("below").replaceChildren(...framesOf(before, after, known), ...mappingsOf(before, after, known));
  byId("text").textContent = text;
}

// What has the same frame lights up when one of it is pointed at.
for (const [name, lit] of [["pointerover", true], ["pointerout", false]])
  document.querySelector("main").addEventListener(name, (event) => {
    const thing = event.target.closest("[data-frame]");
    for (const other of document.querySelectorAll("main [data-frame]"))
      other.classList.toggle("lit", lit && Boolean(thing) && other.dataset.frame === thing.dataset.frame);
  });

// A line from the call of each core that told others to the message in the other's inbox: by the gaps between the cards.
function drawArrows() {
  const group = document.querySelector("#arrows g");
  group.replaceChildren();
  const section = byId("state");
  const home = section.getBoundingClientRect();
  const [left, top] = [section.scrollLeft - home.left, section.scrollTop - home.top];
  const box = (made) => {
    const rect = made.getBoundingClientRect();
    return {
      left: rect.left + left,
      right: rect.right + left,
      top: rect.top + top,
      bottom: rect.bottom + top,
      middle: rect.top + rect.height / 2 + top
    };
  };
  [...document.querySelectorAll("#cores .item[data-from]")].forEach((item, count) => {
    const sender = document.querySelector(`#cores .item[data-call="${item.dataset.from}"]:not(.gone)`);
    if (!sender) return;
    const [one, two, from, to] = [box(sender.closest(".card")), box(item.closest(".card")), box(sender), box(item)];
    const shift = (count % 4) * 4;
    let d;
    if (one.right < two.left) {
      const x = two.left - 8 - shift;
      const near = two.left - one.right < 60 && Math.abs(one.top - two.top) < 5;
      d = near ? `M${from.right} ${from.middle}H${x}V${to.middle}H${to.left - 1}` :
                 `M${from.right} ${from.middle}H${one.right + 8 + shift}V${Math.max(4, two.top - 5 - shift)}H${x}V${to.middle}H${
                     to.left - 1}`;
    } else if (two.right < one.left) {
      const x = two.right + 8 + shift;
      const near = one.left - two.right < 60 && Math.abs(one.top - two.top) < 5;
      d = near ? `M${from.left} ${from.middle}H${x}V${to.middle}H${to.right + 1}` :
                 `M${from.left} ${from.middle}H${one.left - 8 - shift}V${Math.max(4, two.top - 5 - shift)}H${x}V${to.middle}H${
                     to.right + 1}`;
    } else {
      const x = Math.max(3, one.left - 6 - shift);
      d = `M${from.left} ${from.middle}H${x}V${to.middle}H${to.left - 1}`;
    }
    const path = document.createElementNS("http://www.w3.org/2000/svg", "path");
    path.setAttribute("class", item.dataset.due === "first" ? "message" : "message half");
    path.setAttribute("d", d);
    path.setAttribute("marker-end", "url(#tip)");
    group.append(path);
  });
}

// ---- the place in the trace: a line, and in it a step, or all

let line = 0;
let step = 0;
let naming;  // the link follows once nobody steps on

function show() {
  const group = line ? groups[line - 1] : [];
  const fine = byId("fine").checked;
  const within = fine && step < group.length;
  const text = within ? stateAt(line, step) : states[line];
  const before = !line ? text : fine && step > 0 ? stateAt(line, step - 1) : states[line - 1];
  const event = line ? events[line - 1] : {};
  draw(before, text, mappings[line].concat(line ? mappings[line - 1] : []), event.core);
  const told = !line ? {
    does: "Before the first line: nothing is mapped, and all frames are free.",
    also: "Step on by the right arrow, or click on the strip above."
  } :
      fine && group.length && step > 0 ? tellStep(line - 1, step) :
                                         tellLine(line - 1);
  const author = line ? authorOf(line - 1) : "";
  put(byId("does"), told.does || author);
  put(byId("also"), told.also);
  put(byId("author"), told.does && author ? "\u201c" + author + "\u201d" : "");
  links.forEach((link, index) => {
    if (index === line - 1)
      link.setAttribute("aria-current", "step");
    else
      link.removeAttribute("aria-current");
    const reply = link.querySelector(".reply");
    if (reply) reply.classList.toggle("later", index >= line || (index === line - 1 && within));
    for (const entry of link.querySelectorAll(".log"))
      entry.classList.toggle("later", index >= line || (index === line - 1 && within));
  });
  for (const bar of bars) {
    bar.made.classList.toggle("later", bar.from >= line);
    const reply = bar.answered && bar.to < line - (within ? 1 : 0) ? replies[bar.to].split(" ")[0] : "done";
    bar.made.textContent = bar.text + (reply === "done" || reply.startsWith("0x") ? "" : " " + reply);
  }
  for (const danger of dangers) {
    danger.made.classList.toggle("later", danger.from >= line);
    danger.made.style.gridColumn =
        `${columnOf(danger.from)} / ${columnOf(Math.max(danger.from, Math.min(danger.to, line - 1))) + 1}`;
  }
  numbers.forEach((made, index) => made.classList.toggle("at", index === line - 1));
  head.hidden = past.hidden = !line;
  if (line) {
    head.style.gridColumn = String(columnOf(line - 1));
    past.style.gridColumn = `2 / ${columnOf(line - 1) + 1}`;
    const [column, place] = [numbers[line - 1].getBoundingClientRect(), strip.getBoundingClientRect()];
    if (column.left < place.left + 70) strip.scrollLeft -= place.left + 90 - column.left;
    if (column.right > place.right - 20) strip.scrollLeft += column.right - place.right + 60;
    const [own, all] = [links[line - 1].getBoundingClientRect(), byId("trace").getBoundingClientRect()];
    if (own.top < all.top) byId("trace").scrollTop -= all.top - own.top + 30;
    if (own.bottom > all.bottom) byId("trace").scrollTop += own.bottom - all.bottom + 30;
  } else
    strip.scrollLeft = 0;
  const steps = fine && group.length > 1 ? `, step ${step} of ${group.length}` : "";
  byId("where").textContent = line ? `Line ${line} of ${lines.length}${steps}` : `Before line 1 of ${lines.length}`;
  strip.setAttribute("aria-valuenow", line);
  strip.setAttribute(
      "aria-valuetext",
      byId("where").textContent + (line ? ": " + lines[line - 1] + (replies[line - 1] ? ", " + replies[line - 1] : "") : ""));
  byId("first").disabled = byId("back").disabled = line === 0;
  byId("next").disabled = byId("last").disabled = line === lines.length && !within;
  for (const part of ["state", "memory"]) {  // what is new is scrolled into view, and the page itself isn't
    const [all, own] = [byId(part), byId(part).querySelector(".new, .gone, .changed")];
    if (!own || all.scrollHeight <= all.clientHeight + 1) continue;
    const [a, b] = [all.getBoundingClientRect(), own.getBoundingClientRect()];
    if (b.top < a.top || b.bottom > a.bottom) all.scrollTop += b.top - a.top - 40;
  }
  clearTimeout(naming);
  naming = setTimeout(() => history.replaceState(null, "", "#" + line + (within ? "." + step : "")), 200);
  drawArrows();
}

// To this line, and in it to this step, or to its end.
function go(toLine, toStep) {
  line = Math.max(0, Math.min(lines.length, toLine));
  const most = line ? groups[line - 1].length : 0;
  step = Math.max(0, Math.min(most, toStep === undefined ? most : toStep));
  show();
}

// Steps don't stop at comments, files and the first line: a comment is read with the line after it.
function forward() {
  const fine = byId("fine").checked;
  if (fine && line && step < groups[line - 1].length) return go(line, step + 1);
  let to = line + 1;
  while (to < lines.length && isQuiet(to - 1)) to += 1;
  return go(to, fine ? Math.min(1, to <= lines.length ? groups[to - 1].length : 0) : undefined);
}
function backward() {
  if (byId("fine").checked && step > 1) return go(line, step - 1);
  let to = line - 1;
  while (to > 0 && isQuiet(to - 1)) to -= 1;
  return go(to);
}

// The event has the link's own place: the address may have got another name since.
function follow(event) {
  const hash = (event ? new URL(event.newURL).hash : location.hash).slice(1);
  if (!/^\d+(\.\d+)?$/.test(hash)) return event ? undefined : go(0);
  const [toLine, toStep] = hash.split(".").map(Number);
  if (Number.isInteger(toStep)) byId("fine").checked = true;
  return go(toLine, toStep);
}

// Up and down scroll, as everywhere; on the strip, which is a slider, they step.
const ends = {
  Home: () => go(0),
  End: () => go(lines.length)
};
const keys = {
  ArrowRight: forward,
  j: forward,
  ArrowLeft: backward,
  k: backward,
  ...ends
};
document.addEventListener("keydown", (event) => {
  if (event.ctrlKey || event.altKey || event.metaKey || event.target.matches("input:not([type=checkbox]), textarea")) return;
  const onStrip = event.target === strip;
  const does = keys[event.key] ||
      (onStrip && {ArrowUp: forward, ArrowDown: backward, PageUp: () => go(line + 5), PageDown: () => go(line - 5)}[event.key]) ||
      (event.key === " " && !event.target.closest("button, input, a, summary") && forward);
  if (event.key === "s") {
    byId("fine").checked = !byId("fine").checked;
    go(line);
  } else if (does) {
    event.preventDefault();
    does();
  }
});
strip.setAttribute("aria-valuemax", lines.length);
byId("first").onclick = ends.Home;
byId("back").onclick = backward;
byId("next").onclick = forward;
byId("last").onclick = ends.End;
byId("fine").onchange = () => go(line);
window.addEventListener("hashchange", follow);
window.addEventListener("resize", drawArrows);
byId("state").addEventListener("scroll", drawArrows);

// For paper: all lines with their words, made when it is printed.
function makeHandout() {
  const all = element("ol");
  lines.forEach((text, index) => {
    if (isQuiet(index)) return;
    const [item, words] = [element("li"), element("div")];
    const {does, also} = tellLine(index);
    put(words, [does, also].filter(Boolean).join(" "));
    item.append(element("code", "", `${index + 1}  ${text}${replies[index] ? " = " + replies[index] : ""}`), words);
    all.append(item);
  });
  byId("handout").replaceChildren(element("h2", "", "All lines"), all);
}
window.addEventListener("beforeprint", makeHandout);
const first = authorOf(lines.findIndex((text) => text.startsWith("#")));
const name = /^([^.]*)\./.exec(lines[0].startsWith("#") ? lines[0].replace(/^#\s*/, "") : "");
if (name && name[1].length < 60) {
  byId("title").textContent = name[1];
  document.title = name[1] + " \u00b7 RadixVM";
}
follow();
