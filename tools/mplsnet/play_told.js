// Pages of messages alone: a flood, where nodes send each other adverts, and reflected routes, where edges and reflectors do
// UPDATEs. Each step says what it sends, takes and cuts, and which rows of the nodes' tables it changes.

// What stands before the first step.
function toldStart() {
  return {line: 0, up: links.map(() => false), rows: run.tables, queues: {}, ways: [], flying: 0};
}

// Rows of a node are put in anew where a step changes them.
function toldCopy(state) {
  return {...state, up: [...state.up], rows: [...state.rows], queues: {...state.queues}};
}

// A message is on its way no longer.
function toldLeave(state, flight) {
  leave(state, flight);
  state.flying -= 1;
}

// What a step changes.
function toldApply(state, step) {
  state.line = step.t;
  if (step.k === "link") state.up[step.l] = step.on;
  for (const flight of step.cut || []) toldLeave(state, flight);
  if (step.f !== undefined) toldLeave(state, step.f);
  for (const flight of step.send) {
    const key = `${flights[flight].a} ${flights[flight].b}`;
    state.queues[key] = [...(state.queues[key] || []), flight];
    state.flying += 1;
  }
  for (const [n, changes] of Object.entries(step.rows || {})) {
    const rows = state.rows[n] = {...state.rows[n]};
    for (const [key, row] of Object.entries(changes)) if (row) rows[key] = row; else delete rows[key];
  }
}

// The key of a table's row that is about one node.
const keyOf = (section, n) => `${section} ${`${n}`.padStart(4, "0")}`;

// Of how many origins a node has no advert, or an older one than its origin.
function toldBehind(state, n) {
  const number = (node, origin) => state.rows[node][keyOf("db", origin)]?.[1] ?? -1;
  return nodes.filter((_, origin) => number(origin, origin) > Math.max(0, number(n, origin))).length;
}

// The states of a line's two ends: those of a session of reflected routes.
function toldEnds(state, link) {
  if (run.told === "flood") return ["", ""];
  return [[link.a, link.b], [link.b, link.a]].map(([n, peer]) => (state.rows[n][keyOf("session", peer)] || ["", ""])[1].toLowerCase());
}

// How much is on its way, for the page's head.
function toldCounts(state) {
  const what = run.told === "flood" ? "advert" : "message";
  const lines = run.told === "flood" ? "links up" : "sessions";
  return `${lines} ${state.up.filter(Boolean).length} of ${links.length} \u00b7 ${what}s in flight ${state.flying}`;
}

// The words of a message, in one line.
function toldWords(flight) {
  const {rows, words} = flights[flight];
  return words || `${rows[0]} {${rows[1]}}`;
}

// A row of a table of the page, marked where the step has changed it.
function toldRows(state, step, n, section) {
  const changes = step?.rows?.[n] || {};
  return Object.keys(state.rows[n]).filter(key => key.startsWith(`${section} `)).sort().map(key => [changes[key] !== undefined, ...state.rows[n][key]]);
}

// The panels of the page: what is in flight, a node's tables, sessions, and what a run's page has too.
function toldPanels(runPanels) {
  const what = run.told === "flood" ? "Adverts" : "Messages";
  const sessions = {
    Sessions(state, step) {
      const rows = links.map((link, l) => {
        const [x, y] = toldEnds(state, link);
        return [step?.l === l, nodes[link.a].name, pill(x), nodes[link.b].name, pill(y)];
      });
      return [node("h2", {}, "BGP, by pair of nodes"), rows.length ? table(["", "", "", ""], rows) : muted("No session comes up in this script.")];
    },
  };
  return {
    Node: toldNode,
    [what](state, step) {
      const some = Object.values(state.queues).flat().sort((one, other) => one - other), shown = some.slice(0, MOST);
      const rows = shown.map(flight => [(step?.send || []).includes(flight), nodes[flights[flight].a].name, nodes[flights[flight].b].name, toldWords(flight)]);
      const more = some.length > shown.length ? [muted(`the first ${shown.length} of ${some.length}`)] : [];
      return [node("h2", {}, "In flight, in the order of sending"), ...more, rows.length ? table(["from", "to", ""], rows) : muted("Nothing is in flight.")];
    },
    ...(run.told === "reflect" ? sessions : {}),
    Journal: runPanels.Journal,
    Report(state, step, at) {
      const lines = run.report.map((line, place) => node("div", {class: `line ${run.put[place] <= at ? "" : "later"}`}, line));
      return [...lines.slice(0, 10 * MOST), muted("Worked out by examples/reference.py; mplsnet puts the same.")];
    },
  };
}

// The tables of the chosen node, or else of the one that the step is about.
function toldNode(state, step) {
  if (!nodes.length) return [muted("There is no node.")];
  const n = toldShown(step), one = nodes[n], parts = run.sections.map(([section, head, heads]) => [head, heads, toldRows(state, step, n, section)]);
  const what = run.told === "flood" ? "" : run.reflectors.includes(n) ? ", a reflector" : ", an edge";
  const shown = parts.filter(([, , rows]) => rows.length).flatMap(([head, heads, rows]) => {
    return [node("h2", {}, head), table(heads, rows.slice(0, MOST)), ...(rows.length > MOST ? [muted(`the first ${MOST} of ${rows.length}`)] : [])];
  });
  const chosen = picked === null ? muted("The node of the step. Choose another in the drawing, or by Tab.") : null;
  const vrfs = one.vrfs.map(vrf => node("div", {class: "line"}, vrf));
  return [node("h2", {}, `${one.name} ${one.loopback}${what}`), ...(chosen ? [chosen] : []), ...vrfs, ...shown];
}

// Which node's tables are shown.
function toldShown(step) {
  return picked ?? step?.n ?? (step && step.k === "link" ? links[step.l].a : 0);
}

// Draws what moves in a step, a share of the way through it.
function toldMove(before, step, share) {
  if (step.k === "link" && (step.cut || []).length) {
    const place = between(nodes[links[step.l].a], nodes[links[step.l].b], .5);
    mark({x: place.x, y: place.y - 14 * form.size}, `\u2715 ${step.cut.length} gone`, "poor");
  }
  if (step.n !== undefined) ring(nodes[step.n], share);
  if (step.k !== "hear") return;
  if (share < 1) {
    const {a, b, share: at} = spotOf(before, step.f);
    wordChip(layer.moving, onLink(a, b, at + (1 - at) * share), side(a, b), flights[step.f]);
  } else if (step.kept !== undefined) {
    const [sign, words, kind] = step.kept ? ["\u2713", "kept", "good"] : ["\u2715", "passed over", "poor"];
    mark(below(nodes[step.n]), `${sign} ${flights[step.f].rows[0]} ${words}`, kind);
  }
}

// How a message is coloured.
const CHIP_KINDS = {advert: "outer", announce: "outer", withdraw: "gone", open: "ip", keepalive: "ip"};
// The rows of a message as they are shown.
const wordRows = rows => rows.map(row => (row.length > 20 ? `${row.slice(0, 18)}\u2026` : row)).filter(Boolean);
// How wide a message is, in its own units.
const wordChipWide = rows => Math.max(...wordRows(rows).map(rowWide)) + 14;
// How wide a row is, where capitals are wider than other signs.
const rowWide = row => [...row].reduce((wide, sign) => wide + (/[A-Z]/.test(sign) ? 9 : 6.9), 0);
// A message as a chip: its rows of words over its place.
function wordChip(parent, place, away, {kind, rows}) {
  const few = wordRows(rows), wide = wordChipWide(rows), high = few.length * CHIP.h;
  const reach = 11 + Math.abs(away.x) * wide / 2 + Math.abs(away.y) * high / 2, x = away.x * reach - wide / 2, y = away.y * reach - high / 2;
  const group = make("g", {class: "chip", transform: `translate(${place.x} ${place.y}) scale(${form.size})`}, parent);
  make("circle", {cx: 0, cy: 0, r: 5, class: "ip"}, group);
  few.forEach((row, at) => {
    make("rect", {x, y: y + at * CHIP.h, width: wide, height: CHIP.h, rx: 4, class: at ? "ip" : CHIP_KINDS[kind]}, group);
    make("text", {x: x + 7, y: y + at * CHIP.h + 14}, group, row);
  });
}

// The legend.
function toldLegend() {
  if (run.told === "flood") {
    return [
      ["var(--outer)", "advert (origin#number), and the links that it lists"], ["var(--inner)", "link that the chosen node takes for up", "flat"],
      ["var(--stale)", STALE_WORDS, "round"],
    ];
  }
  return [
    ["var(--reflector)", "reflector"], ["var(--node-edge)", "edge"], ["var(--ok)", "BGP Established", "round"], ["var(--wait)", "BGP opening", "round"],
    ["var(--outer)", "UPDATE that announces"], ["var(--bad)", "UPDATE that withdraws"], ["var(--ip)", "OPEN, KEEPALIVE"],
  ];
}
