// The drawing. Places are units of the drawing; how large nodes, sites, frames and words are goes by the zoom, so that
// they can be read at any: `form.size` is how many units one of their own takes.

const SVG = "http://www.w3.org/2000/svg";
// Makes an element of the drawing.
function make(name, attributes = {}, parent, text) {
  const element = document.createElementNS(SVG, name);
  for (const [key, value] of Object.entries(attributes)) element.setAttribute(key, value);
  if (text !== undefined) element.textContent = text;
  if (parent) parent.append(element);
  return element;
}
// Sets what has changed alone: a browser works on an attribute that is set, also to what it was.
function put(element, values) {
  element.known ||= {};
  for (const [key, value] of Object.entries(values)) if (element.known[key] !== value) element.setAttribute(key, element.known[key] = value);
}
const COLOURS = ["#0f766e", "#b45309", "#9333ea", "#be185d", "#4d7c0f", "#0369a1", "#a16207", "#7f1d1d", "#0e7490", "#6d28d9"];
const net = $("net");
const LAYERS = ["frames", "arcs", "joints", "spokes", "links", "costs", "specks", "sites", "nodes", "dots", "flying", "moving"];
const layer = Object.fromEntries(LAYERS.map(name => [name, make("g", {id: name}, net)]));

// Sizes: half the width and half the height, in their own units, in full or with the name alone. A name is 15 or 12 of them high.

for (const one of nodes) Object.assign(one, {full: [Math.max(52, 4.4 * one.name.length + 12), 23], short: [3.6 * one.name.length + 7, 11]});
for (const one of sites) {
  const wide = Math.max(58, 3.7 * (one.name.length + 5) + 8, 3.4 * (one.vrf.length + 4) + 8);
  Object.assign(one, {full: [wide, 27], short: [3.5 * one.name.length + 6, 9]});
}
const all = [...nodes, ...sites];
const SMALLEST = 9.6 / 12;  // of the screen: names of 9.6 pixels
let form = {full: true, size: 1}, scale = 1;

// Whether two boxes lie on each other.
function clash(one, other) {
  const far = Math.abs(one.y - other.y) - (one.half[1] + other.half[1]);
  return far < 0 && Math.abs(one.x - other.x) - (one.half[0] + other.half[0]) < 0;
}
// The boxes of nodes or sites, whole or with their names alone, at a size.
function boxes(some, kind, size) { return some.map(one => ({x: one.x, y: one.y, half: one[kind].map(half => (half + 1.5) * size)})); }
// Whether no box lies on another at this size.
function isClear(kind, size) {
  const placed = boxes(all, kind, size).sort((one, other) => one.x - other.x), widest = Math.max(0, ...placed.map(one => one.half[0]));
  return placed.every((one, at) => {
    for (let next = at + 1; next < placed.length && placed[next].x - one.x < one.half[0] + widest; next++) if (clash(one, placed[next])) return false;
    return true;
  });
}
// The form for a scale: whole where there is room, else names as large as there is room for.
function formAt(pixels) {
  for (const size of [Math.max(1, .82 / pixels), .82 / pixels]) if (isClear("full", size)) return {full: true, size};
  for (const name of [13, 12, 11, 10]) if (isClear("short", name / 12 / pixels)) return {full: false, size: name / 12 / pixels};
  return {full: false, size: SMALLEST / pixels, crowded: !isClear("short", SMALLEST / pixels)};
}
// Where there is no room for all names, those that would lie on others aren't shown: the chosen node's comes first, then nodes', then sites'.
function crowd() {
  const dots = boxes(nodes.map(one => ({...one, short: [6, 6]})), "short", form.size), placed = [];
  const rank = at => (at === picked ? 0 : at >= nodes.length ? 3 : nodes[at].edge ? 2 : 1);
  for (const at of all.map((_, at) => at).sort((one, other) => rank(one) - rank(other))) {
    const [box] = boxes([all[at]], "short", form.size);
    all[at].bare = placed.some(other => clash(box, other)) || dots.some((dot, node) => node !== at && clash(box, dot));
    if (!all[at].bare) placed.push(box);
  }
}

// A place between two.
function between(a, b, share) { return {x: a.x + (b.x - a.x) * share, y: a.y + (b.y - a.y) * share}; }
// The direction across the way from one place to another.
function normal(a, b) {
  const length = Math.hypot(b.x - a.x, b.y - a.y) || 1;
  return {x: -(b.y - a.y) / length, y: (b.x - a.x) / length};
}
// Above a level link where it goes from left to right, below it where it goes back.
function side(a, b) { const n = normal(a, b); return {x: -n.x, y: -n.y}; }
// Where the way to another node leaves the node's box, and somewhat farther.
function rim(from, to, more) {
  const dx = to.x - from.x, dy = to.y - from.y, length = Math.hypot(dx, dy) || 1;
  const reach = Math.min(from.wide / (Math.abs(dx / length) || 1e-9), from.high / (Math.abs(dy / length) || 1e-9)) + more * form.size;
  return {x: from.x + dx / length * Math.min(reach, length * .45), y: from.y + dy / length * Math.min(reach, length * .45)};
}
// A place on a link, a share of the way from a to b.
function onLink(a, b, share) { return between(rim(a, b, 12), rim(b, a, 12), share); }
const linkBetween = {};
links.forEach((link, at) => { linkBetween[`${link.a} ${link.b}`] = linkBetween[`${link.b} ${link.a}`] = at; });

// What is written at a link; nothing where costs and delays say nothing.
const linkWords = link => (told === "reflect" ? "" : told ? `cost ${link.cost}` : runWords(link));
// What a run's link has: cost, delay and loss.
const runWords = link => `cost ${link.cost} \u00b7 delay ${link.delay}${link.loss ? ` \u00b7 loses 1 in ${link.loss}` : ""}`;
const counted = {};
for (const link of links) counted[linkWords(link)] = (counted[linkWords(link)] || 0) + 1;
const common = Object.keys(counted).sort((one, other) => counted[other] - counted[one])[0];  // what most links have isn't written at each

const STALE_WORDS = told ? "how many nodes' newest advert the node lacks" : "changes of links that the node hasn't learned";
let picked = null;  // the chosen node
const drawn = {links: [], dots: [], nodes: [], sites: [], stale: [], spokes: [], costs: []};
links.forEach((link, at) => {
  const a = nodes[link.a], b = nodes[link.b], words = linkWords(link);
  const line = make("line", {x1: a.x, y1: a.y, x2: b.x, y2: b.y, class: "link"}, layer.links);
  make("title", {}, line, `${a.name} ${b.name}${words && `: ${words}`}`);
  drawn.links.push(line);
  if (words !== common || words && links.length === 1) {
    const group = make("g", {}, layer.costs), flat = Math.abs(b.y - a.y) < .5 * Math.abs(b.x - a.x), parts = flat ? [words] : words.split(" \u00b7 ");
    const drop = flat ? 18 + Math.abs((b.y - a.y) / (b.x - a.x)) * 18 : 4;
    parts.forEach((part, row) => make("text", {y: drop + (row - (parts.length - 1) / 2) * 15, class: "cost"}, group, part));
    drawn.costs.push({group, place: between(a, b, Math.hypot(b.x - a.x, b.y - a.y) > 520 ? .25 : .5)});
  }
  drawn.dots.push([0, 1].map(() => make("circle", {class: "dot"}, layer.dots)));
});
sites.forEach(site => {
  const home = nodes[site.node], colour = `color-mix(in srgb, ${COLOURS[site.vpn % COLOURS.length]} 72%, var(--ink))`;
  drawn.spokes.push(make("line", {x1: home.x, y1: home.y, x2: site.x, y2: site.y, class: "spoke"}, layer.spokes));
  const group = make("g", {class: "site"}, layer.sites);
  make("rect", {style: `stroke:${colour}`}, group);
  make("text", {class: "name", y: -11}, group, `site ${site.name}`);
  make("text", {class: "short", y: 4, style: `fill:${colour}`}, group, site.name);
  make("text", {class: "under", y: 4, style: `fill:${colour}`}, group, `VRF ${site.vrf}`);
  const more = site.prefixes.length > 1 ? ` +${site.prefixes.length - 1}` : "";
  make("text", {class: "under", y: 19}, group, (site.prefixes[0] || "") + more);
  make("title", {}, group, `site ${site.name}, VRF ${site.vrf}, VPN ${vpns[site.vpn]}: ${site.prefixes.join(" ") || "no prefix"}`);
  drawn.sites.push(group);
});
nodes.forEach((one, at) => {
  const group = make("g", {class: "node", tabindex: 0, role: "button", "aria-label": `node ${one.name} ${one.loopback}`}, layer.nodes);
  make("rect", {}, group);
  make("text", {class: "name", y: -2}, group, one.name);
  make("text", {class: "short", y: 4}, group, one.name);
  make("text", {class: "under", y: 14}, group, one.loopback);
  make("title", {}, group, `${one.name} ${one.loopback}`);
  group.addEventListener("click", event => { if (!dragged) pick(at); event.stopPropagation(); });
  group.addEventListener("focus", () => { if (group.matches(":focus-visible")) pick(at, true); });
  drawn.nodes.push(group);
  const stale = make("g", {class: "stale"}, layer.dots);
  make("circle", {r: 9}, stale);
  make("text", {y: 4}, stale);
  make("title", {}, stale, STALE_WORDS);
  drawn.stale.push(stale);
});

// Everything takes the form of the present zoom.
function shape() {
  form = formAt(scale);
  all.forEach(one => { one.bare = false; });
  if (form.crowded) crowd();
  net.setAttribute("class", form.full ? "in-full" : "in-short");
  all.forEach((one, at) => {
    const isNode = at < nodes.length, group = isNode ? drawn.nodes[at] : drawn.sites[at - nodes.length];
    const [wide, high] = one.bare ? (isNode ? [6, 6] : [4, 4]) : form.full ? one.full : one.short;
    Object.assign(one, {wide: wide * form.size, high: high * form.size});
    group.setAttribute("transform", `translate(${one.x} ${one.y}) scale(${form.size})`);
    const round = isNode ? (one.edge ? Math.min(9, high / 2.4) : high) : Math.min(8, high);
    for (const [key, value] of Object.entries({x: -wide, y: -high, width: 2 * wide, height: 2 * high, rx: round})) group.firstChild.setAttribute(key, value);
    group.classList.toggle("bare", one.bare);
  });
  links.forEach(({a, b}, at) => [[a, b], [b, a]].forEach(([one, other], which) => {
    const place = rim(nodes[one], nodes[other], form.full ? 10 : 5);
    for (const [key, value] of Object.entries({cx: place.x, cy: place.y, r: (form.full ? 6.5 : 4) * form.size})) drawn.dots[at][which].setAttribute(key, value);
  }));
  nodes.forEach((one, at) => {
    // Above the name, never on it; where there is no room for all names a mark without its number.
    const [x, y, r] = form.full ? [-4, 2, 9] : form.crowded ? [0, 0, 3.5] : [-2, -7, 8];
    drawn.stale[at].setAttribute("transform", `translate(${one.x + one.wide + x * form.size} ${one.y - one.high + y * form.size}) scale(${form.size})`);
    put(drawn.stale[at].firstChild, {r});
  });
  frameNets();
  layer.costs.style.display = form.full ? "" : "none";
  for (const {group, place} of drawn.costs) group.setAttribute("transform", `translate(${place.x} ${place.y}) scale(${form.size})`);
}

// Two networks: a frame round each with its name, and a line from each joined site to the other.
function frameNets() {
  layer.frames.replaceChildren();
  layer.joints.replaceChildren();
  for (const [a, b] of run.joints || []) {
    const line = make("line", {x1: sites[a].x, y1: sites[a].y, x2: sites[b].x, y2: sites[b].y, class: "joint"}, layer.joints);
    make("title", {}, line, `site ${sites[a].name} of network 1 is joined to site ${sites[b].name} of network 2`);
  }
  (run.nets || []).forEach((name, net) => {
    const some = all.filter(one => one.net === net), gap = 18 * form.size;
    const edge = (axis, half, way) => (Math.max(...some.map(one => way * one[axis] + one[half])) + gap) * way;
    if (!some.length) return;
    const [left, right, top, below] = [edge("x", "wide", -1), edge("x", "wide", 1), edge("y", "high", -1), edge("y", "high", 1)];
    make("rect", {x: left, y: top, width: right - left, height: below - top, rx: 14 * form.size, class: "net"}, layer.frames);
    const place = {x: left + 12 * form.size, y: top - 7 * form.size, class: "net-name", style: `font-size:${12.5 * form.size}px`};
    make("text", place, layer.frames, `network ${net + 1}: ${name}`);
  });
}

// Sessions of BGP, as arcs that keep away from the middle: all of a small network, and else the chosen node's.
const FEW_SESSIONS = 15;
const bgpPairs = new Set(sessions.filter(([kind]) => kind === "bgp").map(one => pair(...one)));
// The mean of the nodes' places.
const meanOf = axis => nodes.reduce((sum, one) => sum + one[axis], 0) / (nodes.length || 1);
const middle = {x: meanOf("x"), y: meanOf("y")};
// Where the arc between two nodes bends to.
function bend(a, b) {
  const mid = between(a, b, .5), n = normal(a, b), length = Math.hypot(b.x - a.x, b.y - a.y);
  const away = (mid.x - middle.x) * n.x + (mid.y - middle.y) * n.y;
  const sign = Math.abs(away) > 8 ? Math.sign(away) : n.y < 0 ? 1 : -1;
  return {x: mid.x + n.x * sign * (60 + length * .22), y: mid.y + n.y * sign * (60 + length * .22)};
}
// A place on the way of a message, a share of it.
function along(kind, a, b, share) {
  if (kind === "ldp") return between(rim(a, b, 16), rim(b, a, 16), share);
  const c = bend(a, b);
  return between(between(a, c, share), between(c, b, share), share);
}
const arcs = {};
// Draws the sessions of BGP that are shown.
function drawArcs(state, step) {
  const shown = {};
  for (const [key, session] of Object.entries(state.living)) {
    const [kind, a, b] = sessions[session];
    if (kind !== "bgp" || !(picked === null ? bgpPairs.size <= FEW_SESSIONS : a === picked || b === picked) && !(step && step.s === session)) continue;
    const c = bend(nodes[Math.min(a, b)], nodes[Math.max(a, b)]);
    shown[key] = arcs[key] || make("path", {d: `M${nodes[a].x} ${nodes[a].y} Q${c.x} ${c.y} ${nodes[b].x} ${nodes[b].y}`}, layer.arcs);
    put(shown[key], {class: `arc${ends(state, "bgp", a, b).every(name => name === "established") ? " full" : ""}`});
  }
  for (const key of Object.keys(arcs)) if (!shown[key]) { arcs[key].remove(); delete arcs[key]; }
  Object.assign(arcs, shown);
}

// Frames: a pile of labels, the top one first, over the packet.

const CHIP = {w: 78, h: 19};
// A frame over its place: its labels with their TTLs, and the packet.
function chip(parent, place, away, stack, packet, ttl) {
  const rows = stack.length + 1, high = rows * CHIP.h, number = packets[packet].n;
  const reach = 11 + Math.abs(away.x) * CHIP.w / 2 + Math.abs(away.y) * high / 2;
  const x = away.x * reach - CHIP.w / 2, y = away.y * reach - high / 2;
  const group = make("g", {class: `chip${packet === followed ? " followed" : ""}`, transform: `translate(${place.x} ${place.y}) scale(${form.size})`}, parent);
  make("circle", {cx: 0, cy: 0, r: 5, class: "ip"}, group);
  [...stack, null].forEach((entry, row) => {
    const kind = entry === null ? "ip" : row === stack.length - 1 ? "inner" : "outer";
    make("rect", {x, y: y + row * CHIP.h, width: CHIP.w, height: CHIP.h, rx: 4, class: kind}, group);
    make("text", {x: x + 7, y: y + row * CHIP.h + 14}, group, entry === null ? `${number < 100 ? "IP " : ""}#${number}` : entry[0]);
    make("text", {x: x + CHIP.w - 7, y: y + row * CHIP.h + 14, class: "end"}, group, entry === null ? ttl ?? "" : entry[1]);
  });
  return group;
}
// Where the frames of a direction stand: the first on the way is the farthest; those for whom there is no room share a place.
function spots(state, key) {
  const queue = state.queues[key] || [], [a, b] = key.split(" ").map(Number), link = links[linkBetween[key]];
  const from = onLink(nodes[a], nodes[b], 0), to = onLink(nodes[a], nodes[b], 1), length = Math.hypot(to.x - from.x, to.y - from.y) || 1;
  const wide = 6 + (told ? Math.max(0, ...queue.map(flight => wordChipWide(flights[flight].rows))) : CHIP.w);
  const gap = Math.min(told ? .67 : .5, form.size * (Math.abs(to.x - from.x) * wide + Math.abs(to.y - from.y) * (3 * CHIP.h + 5)) / length / length);
  const room = Math.min(queue.length - 1, Math.floor(.66 / gap));
  let place = null;
  return queue.map(flight => {
    const wanted = .3 + .48 * Math.min(1, told ? 0 : (tickAt(state, a) - flights[flight].t) / link.delay);
    if (place === null) place = Math.min(.83, Math.max(wanted, .17 + room * gap));
    else if (place - gap >= .165) place = Math.max(.17, Math.min(wanted, place - gap));
    return {flight, share: place, a: nodes[a], b: nodes[b]};
  });
}
const FEW_FRAMES = 8;
// Where many fly over a large network a frame is a dot, but for those of the packet that is followed.
function drawFlying(state, without) {
  layer.flying.replaceChildren();
  layer.specks.replaceChildren();
  const isDots = !form.full && Object.values(state.queues).reduce((sum, queue) => sum + queue.length, 0) > FEW_FRAMES;
  for (const key of Object.keys(state.queues)) {
    const shown = spots(state, key), held = {};
    for (const {flight, share, a, b} of shown) {
      if (without.has(flight)) continue;
      if (isDots && flights[flight].p !== followed) { dot(onLink(a, b, share), flights[flight]); continue; }
      const stands = share.toFixed(2);
      held[stands] = (held[stands] || 0) + 1;
      if (held[stands] > 1) continue;
      const frame = flights[flight];
      if (told) { wordChip(layer.flying, onLink(a, b, share), side(a, b), frame); continue; }
      chip(layer.flying, onLink(a, b, share), side(a, b), frame.st, frame.p, frame.ttl);
    }
    for (const [share, count] of Object.entries(held)) {
      if (count === 1) continue;
      const [a, b] = key.split(" ").map(at => nodes[at]), place = onLink(a, b, +share), away = side(a, b);
      mark({x: place.x - away.x * 16 * form.size, y: place.y - away.y * 16 * form.size}, `+${count - 1}`, "", layer.flying);
    }
  }
}
// A frame as a dot, which covers no node.
function dot(place, frame) {
  const circle = make("circle", {cx: place.x, cy: place.y, r: 4 * form.size, class: `frame ${told ? CHIP_KINDS[frame.kind] : ""}`}, layer.specks);
  make("title", {}, circle, told ? frame.rows.join(" ") : `packet ${packets[frame.p].n}: labels ${frame.st.map(entry => entry[0]).join(" ")}`);
}
// Where a frame stands.
function spotOf(state, flight) {
  const key = `${flights[flight].a} ${flights[flight].b}`;
  return spots(state, key).find(one => one.flight === flight);
}

// How far what reaches half so wide from a place has to move so that all of it is seen.
function inSight(x, half) {
  return Math.max(view.x + half - x, Math.min(view.x + view.w - half - x, 0));
}

// What moves in a step, a share of the way through it.

// Words at a place, in sight.
function mark(place, words, kind, parent = layer.moving) {
  const x = inSight(place.x, words.length * 4.4 * form.size) / form.size;
  make("text", {class: `mark ${kind}`, x, y: 5}, make("g", {transform: `translate(${place.x} ${place.y}) scale(${form.size})`}, parent), words);
}
// A place below a node or site.
function below(one) { return {x: one.x, y: one.y + one.high + 16 * form.size}; }

// Draws what moves in a step, a share of the way through it.
function drawMove(before, after, step, share) {
  layer.moving.replaceChildren();
  if (!step) return;
  if (told) { toldMove(before, step, share); return; }
  if (step.k === "link") {
    const {a, b} = links[step.l], place = between(nodes[a], nodes[b], .5), cut = (step.cut || []).map(flight => `#${packets[flights[flight].p].n}`);
    const words = `\u2715 ${step.rule}: ${cut.slice(0, 6).join(" ")}${cut.length > 6 ? " \u2026" : ""}`;
    if (cut.length) mark({x: place.x, y: place.y - 14 * form.size}, words, "poor");
  } else if (step.k === "tick") {
    drawOverdue(step.rule, step.cut || []);
  } else if (step.k === "learn") {
    ring(nodes[step.n], share);
  } else if (step.k === "hear") {
    const kind = sessions[step.s][0], place = along(kind, nodes[step.f], nodes[step.o], .12 + .66 * share);
    const group = make("g", {class: `pill ${kind}`, transform: `translate(${place.x} ${place.y - 40 * form.size}) scale(${form.size})`}, layer.moving);
    const words = step.m.split(" next hop ")[0], half = words.length * 3.3 + 12, x = inSight(place.x, half * form.size) / form.size;
    make("path", {d: "M-5 11 L0 35 L5 11 Z", fill: `var(--${kind === "ldp" ? "ok" : "bgp"})`}, group);
    make("rect", {x: x - half, y: -13, width: 2 * half, height: 25, rx: 12}, group);
    make("text", {x, y: 4}, group, words);
  } else if (step.p !== undefined) {
    drawPacket(before, after, step, share);
  }
}

// A ring round a node that learns something.
function ring(one, share) {
  const more = (4 + 14 * share) * form.size, [wide, high] = [one.wide + more, one.high + more];
  const place = {x: one.x - wide, y: one.y - high, width: 2 * wide, height: 2 * high, rx: 14 * form.size + more};
  make("rect", {...place, class: "ring", opacity: 1 - share * .55}, layer.moving);
}

// Marks the links whose frames time has passed.
function drawOverdue(rule, late) {
  const ends = flight => `${flights[flight].a} ${flights[flight].b}`;
  for (const way of new Set(late.map(ends))) {
    const [a, b] = way.split(" ").map(at => nodes[at]), place = between(a, b, .45), away = side(a, b);
    const names = late.filter(flight => ends(flight) === way).map(flight => `#${packets[flights[flight].p].n}`);
    const words = `\u2715 ${rule}: ${names.slice(0, 6).join(" ")}${names.length > 6 ? " \u2026" : ""}`;
    mark({x: place.x + away.x * 22 * form.size, y: place.y + away.y * 22 * form.size}, words, "poor");
  }
}

// Draws a packet's step: it comes to a node, and then goes on or ends.
function drawPacket(before, after, step, share) {
  const turn = .45, up = {x: 0, y: -1}, one = nodes[step.n], name = `#${packets[step.p].n}`;
  const first = Math.min(1, share / turn), second = Math.max(0, (share - turn) / (1 - turn));
  if (step.k === "lose") {
    const {a, b, share: at} = spotOf(before, step.f), frame = flights[step.f];
    if (share < 1) chip(layer.moving, onLink(a, b, at), side(a, b), frame.st, frame.p, frame.ttl).setAttribute("opacity", 1 - share);
    mark(onLink(a, b, at), `\u2715 ${name} Lost`, "poor");
    return;
  }
  if (share < turn && step.k === "inject") {
    chip(layer.moving, between(sites[step.i], one, first), up, [], step.p, null);
    return;
  }
  if (share < turn) {
    const {a, b, share: at} = spotOf(before, step.f), frame = flights[step.f];
    chip(layer.moving, onLink(a, b, at + (1 - at) * first), side(a, b), frame.st, frame.p, frame.ttl);
    return;
  }
  if (step.send !== undefined) {
    if (share === 1) return;
    const {a, b, share: at} = spotOf(after, step.send), frame = flights[step.send];
    chip(layer.moving, onLink(a, b, at * second), side(a, b), frame.st, frame.p, frame.ttl);
  } else if (step.ttl !== undefined && step.to != null) {
    const site = sites[step.to];
    if (share < 1) chip(layer.moving, between(one, site, second * .8), up, [], step.p, step.ttl);
    else if (step.refused) mark(below(site), `\u2715 ${name} refused: ${step.refused}`, "poor");
    else if (step.over) mark(below(site), `\u2192 ${name} over the joint, TTL ${step.ttl}`, "good");
    else mark(below(site), `\u2713 ${name} delivered, TTL ${step.ttl}`, "good");
  } else if (step.ttl !== undefined) {
    mark(below(one), `\u2713 ${name} delivered, TTL ${step.ttl}`, "good");
  } else {
    mark(below(one), `\u2715 ${name} ${step.drop}`, "poor");
  }
}

// One state on the page.

// Draws links, nodes and sites as they stand after a step.
function drawState(state, step) {
  const way = followed === null ? null : state.ways[followed], used = new Set();
  if (way) way.path.slice(1).forEach((to, hop) => used.add(linkBetween[`${way.path[hop]} ${to}`]));
  links.forEach((link, at) => {
    const hot = step && (told || ["link", "ldp", "learn"].includes(step.k)) && step.l === at;
    const seen = told === "flood" && picked !== null && state.rows[picked][`view ${at}`];
    put(drawn.links[at], {class: `link${state.up[at] ? "" : " down"}${hot ? " hot" : ""}${used.has(at) ? " way" : ""}${seen ? " seen" : ""}`});
    lineEnds(state, link).forEach((name, end) => put(drawn.dots[at][end], {class: `dot ${told === "flood" ? "none" : grade(name)}`}));
  });
  nodes.forEach((one, at) => {
    const behind = told === "flood" ? toldBehind(state, at) : told ? 0 : state.behind[at];
    const number = drawn.stale[at].children[1], words = form.crowded || !behind ? "" : `${behind}`;
    put(drawn.stale[at], {visibility: behind ? "visible" : "hidden"});
    if (number.textContent !== words) number.textContent = words;
    const kind = run.reflectors?.includes(at) ? " reflector" : one.edge ? " edge" : "";
    put(drawn.nodes[at], {class: `node${kind}${at === picked ? " picked" : ""}${one.bare ? " bare" : ""}`});
  });
  sites.forEach((one, at) => put(drawn.sites[at], {class: `site${told || state.attached[at] ? "" : " off"}${one.bare ? " bare" : ""}`}));
  if (!told) drawArcs(state, step);
}
