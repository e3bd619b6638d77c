"use strict";
// The run, and the state of the network after any of its steps.

const run = JSON.parse(document.getElementById("run").textContent);
const {nodes, links, sites, vpns, steps, flights, packets, sessions} = run;
const {told} = run;  // "flood" or "reflect" for a page of messages; nothing for a run, or two that are joined
const FIRST = run.first;  // how many steps of the run stand before those of the page
const $ = id => document.getElementById(id);
const EVERY = Math.max(250, Math.ceil(steps.length / 100));  // steps between states that are kept

// Two networks stand beside each other, or one below the other where they are larger so.
if (run.nets) {
  const all = [...nodes, ...sites], {width, height} = $("stage").getBoundingClientRect();
  const span = (key, more) => Math.max(...all.map(one => one[key])) - Math.min(...all.map(one => one[key])) + more;
  const room = (x, y) => Math.min(width / span(x, 130), height / span(y, 130));
  if (room("tall_x", "tall_y") > room("x", "y")) for (const one of all) [one.x, one.y] = [one.tall_x, one.tall_y];
}

// What stands before the first step.
function start() {
  if (told) return toldStart();
  const none = {
    tick: 0, up: links.map(() => false), switched: links.map(() => true), changes: links.map(() => 0), learned: new Uint32Array(nodes.length * links.length),
    behind: nodes.map(() => 0), living: {}, heard: new Uint32Array(2 * sessions.length), attached: sites.map(() => true), queues: {}, ways: [],
    sent: 0, delivered: 0, dropped: 0, refused: 0, ticks: [0, 0],
  };
  if (!run.start) return none;
  const state = {...none, ...run.start, learned: none.learned, heard: Uint32Array.from(run.start.heard)};
  for (const [place, count] of run.start.learned) state.learned[place] = count;
  state.behind = nodes.map((_, n) => links.reduce((sum, _, l) => sum + state.changes[l] - state.learned[n * links.length + l], 0));
  return state;
}

// What a step changes is put in anew, so that a copy need not go deeper than this.
function copy(state) {
  if (told) return toldCopy(state);
  return {
    ...state, up: [...state.up], switched: [...state.switched], changes: [...state.changes], learned: state.learned.slice(), behind: [...state.behind],
    living: {...state.living}, heard: state.heard.slice(), attached: [...state.attached], queues: {...state.queues}, ways: [...state.ways],
  };
}

// The clock of a node: its network's, where two are joined.
const tickAt = (state, n) => (run.nets ? state.ticks[nodes[n].net] : state.tick);

// How a site is called: with its network's number, where two are joined.
const siteName = site => (run.nets ? `${site.net + 1} ${site.name}` : site.name);

// The key of a session, by its ends.
const pair = (kind, a, b) => `${kind} ${Math.min(a, b)} ${Math.max(a, b)}`;

// A frame or message is on its way no longer.
function leave(state, flight) {
  const key = `${flights[flight].a} ${flights[flight].b}`, left = state.queues[key].filter(one => one !== flight);
  if (left.length) state.queues[key] = left;
  else delete state.queues[key];
}

// A packet ends.
function end(state, packet, kind, words, step) {
  state.ways[packet] = {...state.ways[packet], end: kind, words, step};
  state[kind] += 1;
}

// What a step changes.
function apply(state, step, number) {
  if (told) { toldApply(state, step); return; }
  state.tick = step.t + (step.ticks || 0);
  if (run.nets) state.ticks = state.ticks.map((tick, net) => (net === step.net ? state.tick : tick));
  if (step.ends !== undefined) delete state.living[pair(...sessions[step.ends])];
  if (step.begins !== undefined) state.living[pair(...sessions[step.begins])] = step.begins;
  if (step.k === "link") {
    state.up[step.l] = step.on;
    state.changes[step.l] += 1;
    state.behind = state.behind.map((left, n) => left + (nodes[n].net === step.net));
  }
  if (step.k === "ldp") state.switched[step.l] = step.on;
  if (step.k === "learn") { state.learned[step.n * links.length + step.l] += 1; state.behind[step.n] -= 1; }
  if (step.k === "hear") state.heard[2 * step.s + (step.f === sessions[step.s][1] ? 1 : 0)] += 1;
  if (step.k === "site") state.attached[step.i] = step.on;
  for (const flight of step.cut || []) {
    const {p, a} = flights[flight];
    leave(state, flight);
    end(state, p, "dropped", `${step.rule} at ${nodes[a].name}`, number);
  }
  if (step.k === "inject" && !step.leg) { state.ways[step.p] = {path: [step.n]}; state.sent += 1; }
  if (step.f !== undefined && (step.k === "carry" || step.k === "lose")) leave(state, step.f);
  if (step.k === "carry" || step.leg) state.ways[step.p] = {...state.ways[step.p], path: [...state.ways[step.p].path, step.n]};
  if (step.k === "lose") end(state, step.p, "dropped", `Lost at ${nodes[flights[step.f].a].name}`, number);
  if (step.send !== undefined) { const {a, b} = flights[step.send], key = `${a} ${b}`; state.queues[key] = [...(state.queues[key] || []), step.send]; }
  if (step.refused) end(state, step.p, "refused", step.refused, number);
  else if (step.ttl !== undefined && !step.over) end(state, step.p, "delivered", `${step.to == null ? "" : siteName(sites[step.to])} TTL ${step.ttl}`, number);
  if (step.drop !== undefined) end(state, step.p, "dropped", `${step.drop === "dropped" ? "" : step.drop} at ${nodes[step.n].name}`, number);
}

// Some states are kept, so that one can go back without doing all steps again.
const kept = [start()];
let last = {count: 0, state: kept[0]};
// The state after so many steps.
function stateAfter(count) {
  const slot = Math.min(Math.floor(count / EVERY), kept.length - 1), near = last.count <= count && last.count >= slot * EVERY;
  const from = near ? last.count : slot * EVERY, state = copy(near ? last.state : kept[slot]);
  for (let number = from; number < count; number++) {
    apply(state, steps[number], number);
    if ((number + 1) % EVERY === 0 && kept.length === (number + 1) / EVERY) kept.push(copy(state));
  }
  last = {count, state};
  return state;
}

// States of sessions, by the messages that each end has received and the table that the run's data has.
function ends(state, kind, a, b) {
  const session = state.living[pair(kind, a, b)];
  if (session === undefined) return [run.none[kind], run.none[kind]];
  const opener = sessions[session][1], byOpener = state.heard[2 * session], byOther = state.heard[2 * session + 1];
  const [one, other] = [byOpener, byOther].map((count, end) => run.states[kind][end][Math.min(count, 2)]);
  return opener === a ? [one, other] : [other, one];
}
// The states of a line's two ends, as its two dots show them.
const lineEnds = (state, link) => (told ? toldEnds(state, link) : ends(state, "ldp", link.a, link.b));

// How a state is coloured.
const grade = name => name === "operational" || name === "established" ? "full" : ["none", "idle", ""].includes(name) ? "" : "open";

// Packets: the steps of each, how it ends in the page, and those that are sought.

const stepsOf = packets.map(() => []);
steps.forEach((step, number) => {
  if (step.p !== undefined) stepsOf[step.p].push(number);
  if (!told) for (const flight of step.cut || []) stepsOf[flights[flight].p].push(number);
});
const finals = stateAfter(steps.length).ways;
// How a packet ends: its rule where it is dropped.
const verdictOf = p => finals[p].end === "dropped" ? finals[p].words.split(" at ")[0] || "dropped" : finals[p].end || "flying";
const verdicts = [...new Set(packets.map((_, p) => verdictOf(p)))].sort();

// All words that a packet is found by; each word of what is sought begins one of them.
const vpnOf = p => vpns[sites[packets[p].s].vpn];
const wordsOf = packets.map((packet, p) => {
  const {end = "flying", words = "", path} = finals[p];
  return ` ${[`#${packet.n}`, `${packet.n}`, packet.site, vpnOf(p), packet.ip || "", end, words, ...path.map(n => nodes[n].name)].join(" ").toLowerCase()}`;
});
// The packets that are sought.
function found({site = "", vpn = "", verdict = "", words = ""}) {
  const sought = words.toLowerCase().split(/\s+/).filter(Boolean).map(word => ` ${word}`);
  const fits = p => (!site || packets[p].site === site || (finals[p].end === "delivered" && finals[p].words.split(" TTL ")[0] === site))
    && (!vpn || vpnOf(p) === vpn) && (!verdict || verdictOf(p) === verdict || (verdict === "dropped" && finals[p].end === "dropped"))
    && sought.every(word => wordsOf[p].includes(word));
  return packets.map((_, p) => p).filter(fits);
}
