// The panels, the way through the journal, the keys, and what of the drawing is seen.

// Makes an element of the page.
function node(name, attributes = {}, ...inner) {
  const element = document.createElement(name);
  for (const [key, value] of Object.entries(attributes)) {
    if (key === "class") element.className = value;
    else if (key === "click") element.addEventListener("click", value);
    else element.setAttribute(key, value);
  }
  element.append(...inner.filter(one => one != null));
  return element;
}
// A table; the first of each row says whether it is marked.
function table(heads, rows) {
  const body = rows.map(([hot, ...cells]) => node("tr", {class: hot ? "hot" : ""}, ...cells.map(cell => node("td", {}, cell))));
  return node("table", {}, node("thead", {}, node("tr", {}, ...heads.map(head => node("th", {}, head)))), node("tbody", {}, ...body));
}
// A state of a session.
const pill = name => node("span", {class: `state ${grade(name)}`}, name);
// A remark.
const muted = (...words) => node("p", {class: "muted"}, ...words);
const MOST = 200;  // rows of a table
const FEW = 60;  // sessions that are all told
let followed = null;  // the packet whose steps are gone through

const runPanels = {
  Packets(state, step) {
    if (!packets.length) return [muted("No packet is sent in these steps.")];
    const isSought = Object.values(sought).some(Boolean);
    const some = isSought ? matches : state.ways.map((_, p) => p), rows = isSought ? some.slice(0, MOST) : some.slice(-MOST);
    const more = some.length > rows.length ? [muted(`${isSought ? "the first" : "the last"} ${rows.length} of ${some.length}`)] : [];
    if (isSought) more.unshift(muted(`${some.length} of ${packets.length} packets fit. Enter or n goes to the next, N to the one before it, Esc shows all.`));
    else if (!rows.length) more.push(muted("No packet was sent yet."));
    const body = rows.map(p => {
      const row = node("tr", {class: p === followed || step && step.p === p ? "hot" : "", click: () => follow(p)});
      const way = state.ways[p] || finals[p], later = state.ways[p] ? "" : "later: ";
      const number = node("button", {class: "packet", title: "follow this packet"}, `${packets[p].n}`);
      const path = way.path.map(n => nodes[n].name).join(" \u2192 ");
      row.append(node("td", {}, number), node("td", {}, packetWords(p)), node("td", {}, path), node("td", {}, later, outcome(way)));
      return row;
    });
    const head = node("thead", {}, node("tr", {}, ...["", "from", "path", "state"].map(one => node("th", {}, one))));
    return [...followedSteps(), ...more, ...(body.length ? [node("table", {class: "packets"}, head, node("tbody", {}, ...body))] : [])];
  },
  Sessions(state, step) {
    const touched = step ? [step.k === "hear" ? step.s : undefined, step.begins, step.ends].filter(s => s !== undefined).map(s => pair(...sessions[s])) : [];
    const hot = (kind, a, b) => touched.includes(pair(kind, a, b));
    const row = (kind, a, b) => { const [x, y] = ends(state, kind, a, b); return [hot(kind, a, b), nodes[a].name, pill(x), nodes[b].name, pill(y)]; };
    const pairs = [...bgpPairs].map(one => one.split(" ").slice(1).map(Number)).sort((x, y) => x[0] - y[0] || x[1] - y[1]);
    const isLong = links.length + pairs.length > FEW, of = isLong ? picked ?? 0 : null;
    const shown = (a, b, kind) => of === null || a === of || b === of || hot(kind, a, b);
    const off = (a, b) => [hot("ldp", a, b), nodes[a].name, "switched off", nodes[b].name, ""];
    const none = of => muted(bgpPairs.size ? `${nodes[of].name} has no session of BGP in this run.` : "No session begins in this run.");
    const some = (heads, rows, otherwise) => (rows.length ? table(heads, rows) : otherwise);
    const parts = (run.nets || [null]).flatMap((name, net) => {
      const isHere = n => !run.nets || nodes[n].net === net, where = name === null ? "" : `Network ${net + 1}: `;
      const near = links.map((link, l) => [link, l]).filter(([{a, b}]) => isHere(a) && shown(a, b, "ldp"));
      const ldp = near.map(([{a, b}, l]) => (state.switched[l] ? row("ldp", a, b) : off(a, b)));
      const bgp = pairs.filter(([a, b]) => isHere(a) && shown(a, b, "bgp")).map(([a, b]) => row("bgp", a, b));
      return [
        node("h2", {}, `${where}LDP, by link`),
        some(["", "", "", ""], ldp, muted(links.length ? `${nodes[of ?? 0].name} has no link here.` : "There is no link.")),
        node("h2", {}, `${where}BGP, by pair of edges`), some(["", "", "", ""], bgp, none(of ?? 0)),
      ];
    });
    const counts = `${links.length} sessions of LDP and ${pairs.length} of BGP: those of `;
    return [...(isLong ? [muted(counts, node("b", {}, nodes[of].name), ". Choose another node in the drawing, or by Tab.")] : []), ...parts];
  },
  Node(state) {
    if (!nodes.length) return [muted("There is no node.")];
    const at = picked ?? 0, one = nodes[at], here = sites.filter(site => site.node === at), own = links.filter((_, l) => nodes[links[l].a].net === one.net);
    const isFew = own.length <= FEW, isNear = link => link.a === at || link.b === at;
    const isTold = (link, learned, l) => nodes[link.a].net === one.net && (isFew || isNear(link) || learned !== state.changes[l] || learned % 2 === 0);
    const views = links.map((link, l) => [link, state.learned[at * links.length + l], l]).filter(view => isTold(...view)).map(([link, learned, l]) => {
      const left = state.changes[l] - learned, up = is => (is ? "up" : "down");
      return [left > 0, `${nodes[link.a].name} ${nodes[link.b].name}`, up(learned % 2), up(state.up[l]), left > 0 ? `${left} to learn` : ""];
    });
    return [
      node("h2", {}, `${run.nets ? `Network ${one.net + 1}: ` : ""}${one.name} ${one.loopback}`), ...one.vrfs.map(vrf => node("div", {class: "line"}, vrf)),
      ...here.map(site => node("div", {class: "line"}, `site ${site.name}, VRF ${site.vrf}: ${site.prefixes.join(" ")}`)),
      node("h2", {}, links.length > FEW ? "Links by its view: its own, and those that aren't up or have changed" : "Links by its view"),
      table(["link", "its view", "is", ""], views),
      node("h2", {}, "Labels that it gives in this run"), table(["label", "for"], one.labels.map(([label, what]) => [false, `${label}`, what])),
    ];
  },
  Journal(state, step, at) {
    const from = Math.max(0, at - 60), lines = [];
    for (let s = from; s < Math.min(steps.length, at + 140); s++) {
      const words = told ? `line ${steps[s].t}: ${steps[s].w}` : `${steps[s].t} ${steps[s].w}`;
      lines.push(node("div", {class: `line step ${s === at - 1 ? "hot" : s < at ? "done" : "later"}`, click: () => go(s + 1)}, words));
    }
    return lines.length ? lines : [muted("The journal is empty.")];
  },
  Report(state, step, at) {
    if (!run.report.length) return [muted("The report wasn't given: --report FILE.")];
    const place = step && step.p !== undefined ? Math.max(0, run.report.findIndex(line => line.startsWith(`packet ${packets[step.p].n} `)) - MOST / 2) : 0;
    const some = run.report.slice(place, place + MOST);
    const lines = some.map(line => {
      const found = /^packet (\d+) /.exec(line), way = found && state.ways[placeOf[found[1]]];
      const kind = !found ? (line.startsWith("total ") && at < steps.length ? "later" : "") : way?.end ? (way.step === at - 1 ? "hot" : "") : "later";
      return node("div", {class: `line ${kind}`}, line);
    });
    return some.length < run.report.length ? [muted(`lines ${place + 1} to ${place + some.length} of ${run.report.length}`), ...lines] : lines;
  },
};
const panels = told ? toldPanels(runPanels) : runPanels;
const placeOf = Object.fromEntries(packets.map((packet, p) => [packet.n, p]));

// Where a packet came from.
function packetWords(p) {
  const {site, record, ip} = packets[p];
  return node("span", {}, `site ${site}`, node("br"), node("span", {class: "muted"}, ip || `record ${record}`));
}
// What became of a packet so far.
function outcome(way) {
  if (way.end === "delivered") return node("span", {class: "good"}, `\u2713 delivered ${way.words}`);
  if (way.end) return node("span", {class: "poor"}, `\u2715 ${way.words}`);
  return "flying";
}
// The steps of the packet that is followed.
function followedSteps() {
  if (followed === null) return [];
  const {n, why} = packets[followed];
  const when = s => (s === at - 1 ? "hot" : s < at ? "done" : "later");
  const lines = stepsOf[followed].map(s => node("div", {class: `line step ${when(s)}`, click: () => go(s + 1)}, `step ${FIRST + s + 1}: ${steps[s].w}`));
  const all = node("button", {class: "plain", click: () => follow(null)}, "all packets");
  const head = node("h2", {}, `Packet ${n}: `, outcome(finals[followed]), " ", all), reason = why ? [node("p", {class: "why"}, why)] : [];
  return [node("section", {class: "followed"}, head, ...reason, ...lines)];
}

// What is sought: a site, a VPN, a verdict, and words.
const sought = {site: "", vpn: "", verdict: "", words: ""};
let matches = [];
const boxOf = {site: $("by-site"), vpn: $("by-vpn"), verdict: $("by-verdict"), words: $("search")};
const kinds = ["delivered", "dropped", "flying"];
// The order of names, with numbers in them by their size.
const byName = (one, other) => one.localeCompare(other, "en", {numeric: true});
const offered = {
  site: [...new Set(packets.map(packet => packet.site))].sort(byName), vpn: [...new Set(packets.map(packet => vpns[sites[packet.s].vpn]))].sort(byName),
  verdict: [...kinds.filter(kind => finals.some(way => (way?.end || "flying") === kind)), ...verdicts.filter(name => !kinds.includes(name))],
};
for (const [key, values] of Object.entries(offered)) boxOf[key].append(...values.map(value => node("option", {}, value)));
for (const [key, box] of Object.entries(boxOf)) {
  const word = () => (key === "words" ? box.value : box.selectedIndex ? box.value : "");
  box.addEventListener(key === "words" ? "input" : "change", () => { sought[key] = word(); seek(); });
}
// Finds the packets that are sought.
function seek() { matches = found(sought); $("panel").dataset.tab = ""; show(); }
// Lets go of what was sought and of the packet that is followed.
function clear() {
  for (const [key, box] of Object.entries(boxOf)) { sought[key] = ""; key === "words" ? box.value = "" : box.selectedIndex = 0; }
  follow(null);
}
// Goes to the next or last packet of those that fit.
function next(way) {
  const some = Object.values(sought).some(Boolean) ? matches : packets.map((_, p) => p), here = some.indexOf(followed);
  if (some.length) follow(some[here < 0 ? 0 : (here + way + some.length) % some.length]);
}
// Follows a packet, from its first step.
function follow(p) {
  followed = p;
  if (p !== null) { halt(); tab = "Packets"; chosen = true; at = (stepsOf[p][0] ?? at - 1) + 1; }
  $("panel").dataset.tab = "";
  show();
}
// Goes to a box in which packets are sought.
function ask(key) { if (told) return; choose("Packets"); boxOf[key].focus(); }

// Sessions until a packet is sent, unless the reader has chosen.
const NAMES = Object.keys(panels);
let tab = told ? NAMES[0] : "Sessions", chosen = false;
for (const name of NAMES) {
  const button = node("button", {role: "tab", title: `${NAMES.indexOf(name) + 1}`}, name);
  button.addEventListener("click", event => { if (event.detail) button.blur(); choose(name); });
  $("tabs").append(button);
}
// Shows a panel.
function choose(name) { tab = name; chosen = true; $("panel").dataset.tab = ""; show(); }
// Chooses a node, and tells of it.
function pick(at, stay) {
  picked = at;
  shape();
  if (stay) show();
  else choose(tab === "Sessions" ? "Sessions" : "Node");
}

// Fills the panel and the head of the page.
function drawPanels(state, step, at) {
  if (!chosen && (state.ways.length || run.start)) tab = "Packets";
  [...$("tabs").children].forEach(button => button.setAttribute("aria-selected", button.textContent === tab));
  $("filters").hidden = tab !== "Packets" || !packets.length;
  const scrolled = $("panel").scrollTop, kind = $("panel").dataset.tab;
  $("panel").replaceChildren(...panels[tab](state, step, at));
  $("panel").dataset.tab = tab;
  const hot = tab !== "Sessions" && $("panel").querySelector(tab === "Packets" && followed !== null ? ".followed .hot" : ".hot");
  $("panel").scrollTop = kind === tab ? scrolled : 0;
  if (hot) hot.scrollIntoView({block: "nearest"});
  $("words").textContent = step ? step.w : FIRST ? `after step ${FIRST} of the run` : "before the first step";
  const atStart = `${told ? run.begun : "All links are down, LDP is switched on for each, and every site is attached."} Press Play, or the key to the right.`;
  const begun = FIRST ? "The page begins here: what came before has left the network as it is drawn." : atStart;
  $("said").textContent = step ? saidOf(step) : begun;
  const [clock, time] = told ? ["line", state.line] : run.nets ? ["ticks", state.ticks.join(" and ")] : ["tick", state.tick];
  $("where").replaceChildren("step ", node("b", {}, `${FIRST + at}`), ` of ${run.total} \u00b7 ${clock} `, node("b", {}, `${time}`));
  $("counts").textContent = told ? toldCounts(state) : runCounts(state);
}
// What became of the packets so far, for the page's head.
function runCounts(state) {
  const {sent, delivered, dropped, refused} = state;
  const flying = sent - delivered - dropped - refused;
  return `packets ${sent} \u00b7 delivered ${delivered} \u00b7 dropped ${dropped} \u00b7 flying ${flying}${refused ? ` \u00b7 refused ${refused}` : ""}`;
}
// The sentence of a step, with why a packet fell.
function saidOf(step) { return step.drop !== undefined && packets[step.p].why ? `${step.x} ${packets[step.p].why}` : step.x; }

// Going through the journal.

let at = 0, moving = null, playing = false;
// How many times faster than usual it plays.
const pace = () => +$("pace").value;
const still = matchMedia("(prefers-reduced-motion: reduce)").matches;
// Whether the long keys stop at a step.
const isPacket = step => (told ? step.k !== "hear" : step.p !== undefined || (step.cut || []).length > 0);
// How long a step's motion takes, in milliseconds.
const length = step => (step.p !== undefined || told && step.k === "hear" ? (told ? 1000 : 1500) : step.k === "hear" ? 650 : 450) / pace();

// Shows the state after the present step.
function show() {
  const step = steps[at - 1], before = at ? stateAfter(at - 1) : null, state = stateAfter(at);
  drawState(state, step);
  drawFlying(state, new Set());
  drawMove(before || state, state, step, 1);
  drawPanels(state, step, at);
  $("slider").value = at;
  history.replaceState(null, "", `#${FIRST + at}`);
}
// Ends a motion.
function rest() { if (moving) cancelAnimationFrame(moving); moving = null; }
// Goes to a step.
function go(to) { rest(); at = Math.max(0, Math.min(steps.length, to)); show(); }

// One step on, with its motion; then what follows.
function stepOn(then) {
  rest();
  if (at >= steps.length) { stop(); return; }
  const step = steps[at], time = length(step);
  if (still || time < 30) { go(at + 1); if (then) moving = requestAnimationFrame(then); return; }
  const before = stateAfter(at), after = stateAfter(at + 1);
  at += 1;
  const gone = new Set(told ? step.send : [step.f, step.send].filter(one => one !== undefined && typeof step.p === "number"));
  drawState(after, step);
  drawFlying(after, gone);
  drawPanels(after, step, at);
  $("slider").value = at;
  const begun = performance.now();
  const frame = now => {
    const share = Math.min(1, Math.max(0, (now - begun) / time)), eased = share < .5 ? 2 * share * share : 1 - 2 * (1 - share) * (1 - share);
    if (share === 1) { moving = null; show(); if (then) moving = setWait(then, step.p !== undefined ? 350 / pace() : 90 / pace()); return; }
    drawMove(before, after, step, eased);
    moving = requestAnimationFrame(frame);
  };
  moving = requestAnimationFrame(frame);
}
// A wait that rest() can end.
function setWait(then, time) {
  const begun = performance.now();
  const look = now => { if (now - begun >= time) then(); else moving = requestAnimationFrame(look); };
  return requestAnimationFrame(look);
}
// Plays on from the present step, from the start where that is the last.
function play() {
  if (at >= steps.length) go(0);
  playing = true;
  $("play").textContent = "Stop";
  const next = () => { if (playing) stepOn(next); };
  next();
}
// Plays no further.
function stop() { playing = false; $("play").textContent = "Play"; }
// Stops at once, with the step that was under way done.
function halt() { const was = playing; stop(); if (was || moving) { rest(); show(); } }
// On or back to a step of the packet that is followed, or else of any.
function hop(way) {
  halt();
  let to = at + way;
  if (followed !== null) to = (way > 0 ? stepsOf[followed].find(s => s >= at) ?? steps.length - 1 : stepsOf[followed].findLast(s => s < at - 1) ?? -1) + 1;
  else while (to > 0 && to < steps.length && !isPacket(steps[to - 1])) to += way;
  go(to);
}
// A faster or slower pace.
function change(way) { const box = $("pace"); box.selectedIndex = Math.max(0, Math.min(box.options.length - 1, box.selectedIndex + way)); }

const act = {
  first: () => { halt(); go(0); }, last: () => { halt(); go(steps.length); }, back: () => { halt(); go(at - 1); }, on: () => { halt(); stepOn(); },
  "hop-back": () => hop(-1), "hop-on": () => hop(1), play: () => playing ? halt() : play(),
  help: () => $("keys").open ? $("keys").close() : $("keys").showModal(),
};
// A button keeps the focus only where the keyboard brought it there, so that the blank plays.
for (const [id, does] of Object.entries(act)) $(id).addEventListener("click", event => { if (event.detail) $(id).blur(); does(); });
$("slider").max = steps.length;
$("slider").addEventListener("input", () => { const to = +$("slider").value; halt(); go(to); });
const KEYS = {
  "+": () => change(1), "-": () => change(-1), "0": () => whole(), "[": () => zoom(1.25), "]": () => zoom(.8), "?": act.help, "/": () => ask("words"),
  s: () => ask("site"), v: () => ask("vpn"), d: () => ask("verdict"), n: () => next(1), N: () => next(-1), Escape: () => { picked = null; shape(); clear(); },
};
addEventListener("keydown", event => {
  if (event.ctrlKey || event.altKey || event.metaKey || $("keys").open) return;
  const target = event.target, isBox = target.tagName === "SELECT" || target.id === "search";
  if (isBox && event.key === "Enter") { target.blur(); next(1); event.preventDefault(); return; }
  if (isBox && event.key === "Escape") { target.blur(); clear(); return; }
  if (isBox) return;
  if (event.key === " " && target.tagName === "BUTTON") return;
  const key = event.key, [on, back] = event.shiftKey ? ["hop-on", "hop-back"] : ["on", "back"];
  const keys = {ArrowRight: on, ArrowLeft: back, " ": "play", Home: "first", End: "last"};
  if (key === "Enter" && drawn.nodes.includes(target)) pick(drawn.nodes.indexOf(target));
  else if (keys[key]) act[keys[key]]();
  else if (KEYS[key]) KEYS[key]();
  else if (NAMES[key - 1]) choose(NAMES[key - 1]);
  else return;
  event.preventDefault();
});
addEventListener("hashchange", () => { halt(); go((+location.hash.slice(1) || 0) - FIRST); });

// The marks under the slider: steps of packets, and links that change.
const PARTS = Math.min(600, steps.length);
$("marks").setAttribute("viewBox", `0 0 ${PARTS || 1} 6`);
const marked = Array(PARTS).fill(null);
steps.forEach((step, number) => {
  const part = Math.floor(number * PARTS / steps.length);
  if (step.k === "link") marked[part] = "link";
  else if (!told && isPacket(step)) marked[part] ||= "inner";
});
marked.forEach((kind, part) => { if (kind) make("rect", {x: part + .1, y: 0, width: .8, height: 6, fill: `var(--${kind})`}, $("marks")); });

// What of the drawing is in view: all of it, or what keys, wheel, mouse and fingers choose.
let view, dragged = false, isWhole = true;
// Shows all of the drawing.
function whole() {
  const bottom = $("legend").open ? 46 : 26, frame = run.nets ? 56 : 0, whole = fit(true, bottom, frame);
  // Names alone where whole boxes have no room; not so large that boxes would be whole again, and out of view.
  const short = whole.isFull ? whole : fit(false, bottom, frame);
  view = (short.isFull && !whole.isFull ? whole : short).view;
  look();
  isWhole = true;
}
// The view that takes in all boxes, whole or with their names alone. How far these reach goes by the scale, which goes by how far they reach.
function fit(isFull, bottom, frame) {
  const {width, height} = net.getBoundingClientRect();
  let pixels = 1, view;
  for (let turn = 0; turn < 5; turn++) {
    const reach = (one, which) => (isFull ? one.full[which] * Math.max(1, .82 / pixels) : one.short[which] * .85 / pixels);
    const ends = (axis, which, way) => all.map(one => one[axis] + way * reach(one, which));
    const span = (axis, which) => [Math.min(0, ...ends(axis, which, -1)), Math.max(0, ...ends(axis, which, 1))];
    const [left, right] = span("x", 0), [top, below] = span("y", 1), most = all.length > 30 ? 2 : 1.1;
    pixels = Math.max(.01, Math.min((width - 20 - frame) / (right - left || 1), (height - 24 - bottom - frame) / (below - top || 1), most));
    const wide = width / pixels, high = (height - bottom) / pixels;
    view = {x: (left + right - wide) / 2, y: (top + below - high) / 2, w: wide, h: height / pixels};
  }
  return {view, isFull: formAt(pixels).full};
}
// Shows what is to be seen, with names as large as it takes.
function look() {
  net.setAttribute("viewBox", `${view.x} ${view.y} ${view.w} ${view.h}`);
  const {width, height} = net.getBoundingClientRect(), was = scale;
  scale = Math.min(width / view.w, height / view.h) || 1;
  isWhole = false;
  if (Math.abs(scale / was - 1) < .005 && shaped) return;
  shaped = true;
  shape();
  if (started) show();
}
let shaped = false, started = false;
// The place in the drawing where the mouse or a finger is.
function inView(event) {
  const place = new DOMPoint(event.clientX, event.clientY).matrixTransform(net.getScreenCTM().inverse());
  return {x: place.x, y: place.y};
}
// Shows more or less around a place.
function zoom(share, here = {x: view.x + view.w / 2, y: view.y + view.h / 2}) {
  const most = 8 / scale, least = .04 / scale;
  share = 1 / Math.max(least, Math.min(most, 1 / share));
  view = {x: here.x - (here.x - view.x) * share, y: here.y - (here.y - view.y) * share, w: view.w * share, h: view.h * share};
  look();
}
net.addEventListener("wheel", event => { event.preventDefault(); zoom(Math.exp(Math.sign(event.deltaY) * .15), inView(event)); }, {passive: false});
// One finger, or the mouse, moves the drawing; two also change how large it is.
const held = new Map();
// The mean of numbers.
const mean = numbers => numbers.reduce((sum, one) => sum + one, 0) / numbers.length;
// The middle of the fingers.
const centre = () => ({clientX: mean([...held.values()].map(one => one.clientX)), clientY: mean([...held.values()].map(one => one.clientY))});
// How far two fingers are apart.
const spread = () => { const [one, other] = [...held.values()]; return other ? Math.hypot(one.clientX - other.clientX, one.clientY - other.clientY) : 0; };
net.addEventListener("pointerdown", event => { if (!held.size) dragged = false; held.set(event.pointerId, event); });
net.addEventListener("pointermove", event => {
  if (!held.has(event.pointerId)) return;
  if (!event.buttons) { held.delete(event.pointerId); return; }
  const from = inView(centre()), wide = spread();
  held.set(event.pointerId, event);
  const to = inView(centre()), now = spread();
  if (Math.hypot(to.x - from.x, to.y - from.y) * scale > 3) dragged = true;
  view = {...view, x: view.x + from.x - to.x, y: view.y + from.y - to.y};
  if (wide && now) { dragged = true; zoom(wide / now, from); }
  else look();
});
for (const kind of ["pointerup", "pointercancel", "pointerleave"]) net.addEventListener(kind, event => held.delete(event.pointerId));
net.addEventListener("dblclick", () => whole());
net.addEventListener("click", () => { if (!dragged && picked !== null) { picked = null; shape(); show(); } });
new ResizeObserver(() => { if (started) isWhole ? whole() : look(); }).observe($("stage"));

const runLegend = [
  ["var(--outer)", "LDP label, TTL"], ["var(--inner)", "VPN label, TTL"], ["var(--ip)", "IPv4 packet, TTL"], ["var(--ok)", "LDP operational", "round"],
  ["var(--wait)", "LDP opening", "round"], ["var(--stale)", STALE_WORDS, "round"],
  ["var(--bgp)", bgpPairs.size > FEW_SESSIONS ? "BGP session of the chosen node" : "BGP session", "flat"],
  ...(run.nets ? [["var(--joint)", "joint of two sites", "flat"]] : []),
];
for (const [colour, words, shape] of told ? toldLegend() : runLegend) {
  $("legend").append(node("span", {}, node("i", {class: shape || "", style: `background:${colour}`}), words));
}
if (links.length > 1 && common) $("legend").append(node("span", {}, `links without words: ${common}`));
if (told) {
  $("keys").querySelectorAll("[data-run]").forEach(row => row.remove());
  $("hop-keys").textContent = "on or back to a step that isn't a reception";
  $("hop-back").title = "back to a step that isn't a reception (Shift and left)";
  $("hop-on").title = "on to a step that isn't a reception (Shift and right)";
}
$("tab-keys").lastChild.textContent = NAMES.length;
$("tab-names").textContent = NAMES.join(", ").toLowerCase();
$("legend").open = matchMedia("(min-width: 901px)").matches;
$("title").textContent = run.title;
document.title = `mplsnet: ${run.title}`;
whole();
started = true;
if (run.follow != null) { followed = run.follow; tab = "Packets"; chosen = true; }
go((location.hash.length > 1 ? +location.hash.slice(1) || 0 : FIRST) - FIRST);
