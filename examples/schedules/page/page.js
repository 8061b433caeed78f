// Plays the schedules of the page: everything that it shows stands in the data.

const { steps, schedules } = JSON.parse(document.getElementById("data").textContent);
const PHASES = ["Idle", "Marking", "Drain", "Sweep", "Clear", "Full"];
const part = (id) => document.getElementById(id);
let played = null, states = [], at = 0;

// The state after each event: what the one before had, with what changed.
function statesOf(schedule) {
  const all = [];
  for (const turn of schedule.turns) {
    const state = { ...(all[all.length - 1] || {}) };
    for (const [key, it] of Object.entries(turn.changes)) {
      if (it === null) delete state[key];
      else state[key] = it;
    }
    all.push(state);
  }
  return all;
}

function item(list, name, text, changed, attributes = {}) {
  list.append(element("dt", {}, name), element("dd", { ...attributes, ...(changed ? { class: "changed" } : {}) }, text));
}

function seatName(number, state) {
  const section = (state[`seat${number}`] || {}).section;
  return section === null || section === undefined ? `seat ${number}, tracer` : section === 0 ? `seat ${number}, catalogue` : `seat ${number}, section ${section}`;
}

function showRefusal(box, why) {
  const told = element("div", { class: "refusal", role: "alert", "data-rule": why.rule, "data-part": why.part });
  told.append(element("h3", {}, `Refused by rule ${why.rule}, part ${why.part}`));
  told.append(element("p", { id: "asks" }, `The rule asks: ${why.asks}.`), element("p", { id: "lost" }, `What would be lost: ${why.lost}`));
  if (why.objects.length) {
    const list = element("ul", {});
    for (const it of why.objects) {
      const ways = it.ways.length ? `Ways to it: ${it.ways.join("; ")}.` : "Nothing else names it.";
      list.append(element("li", { "data-stake": it.cell }, `cell ${it.cell}, ${it.colour}: ${it.why}. ${ways}`));
    }
    told.append(element("p", {}, "In question, with ! in the picture:"), list);
  }
  box.append(told);
}

function showWhat(turn) {
  const box = part("what");
  box.className = turn.refused ? "what bad" : "what";
  if (!turn.line) box.replaceChildren("The start: nothing has happened.");
  else box.replaceChildren(`${seatName(turn.seat, states[at])}: `, element("code", {}, turn.text), ` (line ${turn.line})${turn.refused ? ": refused" : ""}`);
}

function showStep(turn) {
  const box = part("step");
  box.replaceChildren();
  if (turn.note) box.append(element("p", { class: "note" }, turn.note));
  if (!turn.line) return;
  const list = element("dl", {}), step = steps[turn.step];
  item(list, "kind", `${step.kind} ${step.name}`, false, { id: "kind" });
  if (turn.given.length) item(list, "parameters", turn.given.join(", "), false, { id: "parameters" });
  item(list, "operation", step.operation + (turn.word ? `; here ${turn.word}` : ""), false, { id: "operation" });
  const parts = element("ul", { class: "parts" });
  for (const [number, text] of step.parts)
    parts.append(element("li", turn.refused && turn.refused.part === number ? { class: "failed" } : {}, `${number}: ${text}`));
  item(list, "condition", step.parts.length ? parts : "none", false, { id: "condition" });
  item(list, "effect", turn.refused ? "none: it isn't allowed" : step.effect, false, { id: "effect" });
  box.append(list);
  if (turn.refused) showRefusal(box, turn.refused);
}

function showWords(state, before, shape) {
  const list = part("word-list"), flagged = ([count, up], one, many) => `${count} ${count === 1 ? one : many}${up ? ", and the flag is up" : ""}`;
  list.replaceChildren();
  const put = (name, text, key) => item(list, name, text, before && JSON.stringify(state[key]) !== JSON.stringify(before[key]), { "data-word": key });
  put("WORLD", flagged(state.WORLD, "seat counted", "seats counted"), "WORLD");
  put("PHASE", PHASES[state.PHASE], "PHASE");
  put("EMPTY", `${state.EMPTY}, that is ${state.EMPTY - 64} of ${shape.packets} packets`, "EMPTY");
  put("NEXTCARD", `${state.NEXTCARD}`, "NEXTCARD");
  put("NEXTBLOCK", `${state.NEXTBLOCK}`, "NEXTBLOCK");
  put("HELP", flagged(state.HELP, "helper counted", "helpers counted"), "HELP");
  put("SEASON", `${state.SEASON}, ${state.SEASON % 2 ? "the warehouses' turn" : "the catalogue's turn"}`, "SEASON");
  put("owners", state.owners.map((it, b) => `block ${b}: ${it ? `seat ${it - 1}` : "nobody"}`).join(", "), "owners");
}

function showHeap() {
  const { refused } = played.turns[at], state = states[at], before = at ? states[at - 1] : null;
  const stakes = new Set((refused ? refused.objects : []).map((it) => it.cell));
  drawHeap(part("graph"), state, before, played.shape, stakes);
  part("cards").replaceChildren(...[...state.cards].map((_, k) => cardRow(k, state, before, stakes)));
}

function showPackets(state, before) {
  const list = part("pool-list");
  list.replaceChildren();
  state.packets.forEach(([place, cells], p) => {
    const changed = before && JSON.stringify(before.packets[p]) !== JSON.stringify(state.packets[p]);
    const where = /^seat/.test(place) ? `in the hand of ${place}` : place ? `in the ${place} pool` : "nowhere";
    item(list, `packet ${p}`, `${where}: ${cells.length ? cells.map((it) => `cell ${it}`).join(", ") : "no entry"}`, changed, { "data-packet": p });
  });
}

function showSeats(state, before, mine) {
  const made = [];
  for (let n = 0; state[`seat${n}`]; n++) {
    const seat = state[`seat${n}`], old = before && before[`seat${n}`], list = element("dl", {});
    const known = new Map(old ? old.facts : []);
    for (const [name, text] of seat.facts) item(list, name, text, before && known.get(name) !== text);
    made.push(element("div", { class: `seat${n === mine ? " mine" : ""}`, "data-seat": n }, element("h3", {}, `${seatName(n, state)} `, element("small", {}, seat.standing)), list));
  }
  part("seat-list").replaceChildren(...made);
}

function showLanes() {
  const many = played.turns.length, rows = [];
  const seats = Math.max(...states.map((it) => Object.keys(it).filter((key) => /^seat\d/.test(key)).length));
  for (let n = 0; n < seats; n++) {
    const svg = drawn("svg", { viewBox: `0 0 ${many} 10`, preserveAspectRatio: "none", role: "img", "aria-label": `events of seat ${n}` });
    played.turns.forEach((turn, k) => {
      if (turn.line && turn.seat === n)
        svg.append(drawn("rect", { x: k + 0.1, y: turn.refused ? 0 : 2, width: 0.8, height: turn.refused ? 10 : 6, class: (turn.refused ? "bad" : "") + (k === at ? " now" : "") }));
    });
    svg.append(drawn("line", { x1: at + 0.5, x2: at + 0.5, y1: 0, y2: 10, "stroke-width": Math.min(0.25, many / 400) }));
    svg.addEventListener("click", (event) => {
      const box = svg.getBoundingClientRect();
      go(Math.floor(((event.clientX - box.left) / box.width) * many));
    });
    rows.push(element("div", { class: `lane${played.turns[at].seat === n && at ? " mine" : ""}` }, element("span", {}, seatName(n, states[states.length - 1])), svg));
  }
  part("lane-rows").replaceChildren(...rows);
}

function markEvent() {
  const list = part("event-list"), old = list.querySelector("[aria-current]"), now = list.children[at].firstChild;
  if (old) old.removeAttribute("aria-current");
  now.setAttribute("aria-current", "step");
  list.scrollTop = Math.max(0, now.offsetTop - list.clientHeight / 2);
}

// Shows the state after event `to`, or the refused event.
function go(to) {
  at = Math.max(0, Math.min(played.turns.length - 1, to));
  const turn = played.turns[at], state = states[at], before = at ? states[at - 1] : null;
  part("slider").value = at;
  part("at").textContent = turn.refused ? `event ${at}: refused` : `event ${at} of ${played.turns.length - 1}`;
  part("first").disabled = part("back").disabled = at === 0;
  part("last").disabled = part("next").disabled = at === played.turns.length - 1;
  showWhat(turn);
  showStep(turn);
  showLanes();
  showWords(state, before, played.shape);
  showHeap();
  showPackets(state, before);
  showSeats(state, before, turn.seat);
  markEvent();
  history.replaceState(null, "", `#${played.name}/${at}`);
}

function play(name, to) {
  played = schedules.find((it) => it.name === name) || schedules[0];
  states = statesOf(played);
  part("schedule").value = played.name;
  part("title").textContent = `${played.title} ${played.turns.some((it) => it.refused) ? "Refused." : "Accepted."}`;
  part("slider").max = played.turns.length - 1;
  part("event-list").replaceChildren(...played.turns.map((turn, k) => {
    const button = element("button", { type: "button", class: turn.refused ? "bad" : "" }, turn.line ? `${turn.line}: ${turn.seat} ${turn.text}${turn.refused ? " (refused)" : ""}` : "the start");
    button.addEventListener("click", () => go(k));
    return element("li", {}, button);
  }));
  go(to);
}

const KEYS = { ArrowRight: () => go(at + 1), ArrowLeft: () => go(at - 1), Home: () => go(0), End: () => go(Infinity), PageDown: () => go(at + 10), PageUp: () => go(at - 10), "]": () => turnTo(1), "[": () => turnTo(-1) };

function turnTo(by) {
  const n = schedules.indexOf(played) + by;
  if (schedules[n]) play(schedules[n].name, 0);
}

function listen() {
  for (const it of schedules) part("schedule").append(element("option", { value: it.name }, `${it.name} (${it.turns.some((turn) => turn.refused) ? "refused" : "accepted"})`));
  part("schedule").addEventListener("change", (event) => play(event.target.value, 0));
  part("slider").addEventListener("input", (event) => go(Number(event.target.value)));
  for (const [id, key] of [["first", "Home"], ["back", "ArrowLeft"], ["next", "ArrowRight"], ["last", "End"]]) part(id).addEventListener("click", KEYS[key]);
  addEventListener("keydown", (event) => {
    if (!KEYS[event.key] || event.ctrlKey || event.altKey || event.metaKey || event.target.id === "schedule") return;
    event.preventDefault();
    KEYS[event.key]();
  });
  addEventListener("resize", showHeap);
  addEventListener("hashchange", fromHash);
}

function fromHash() {
  const [name, to] = decodeURIComponent(location.hash.slice(1)).split("/");
  play(name, to === "end" ? Infinity : Number(to) || 0);
}

listen();
fromHash();
