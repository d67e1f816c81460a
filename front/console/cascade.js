// Uses as bars over the steps, and each step's revocations as a cascade: down from the step, in their order.

const SVG = "http://www.w3.org/2000/svg";
const STEPS = 40;
const ROWS = 18;
const LEFT = 210;
const RIGHT = 40;
const ROW = 22;
const TOP = 26;
// How far each revocation of a step stands behind the one before, so that their order is seen.
const STAIR = 7;

function element(name, attributes, text) {
  const made = document.createElementNS(SVG, name);
  for (const [key, value] of Object.entries(attributes)) made.setAttribute(key, value);
  if (text !== undefined) made.textContent = text;
  return made;
}

export class Cascades {
  constructor(place) {
    this.place = place;
    // Each use: session, subject, right, object, from, to, how it ended, label, and the how-manieth of its step's revocations it was.
    this.uses = new Map();
    this.last = 0;
  }

  begin(session, use, from) {
    this.uses.set(session, { ...use, session, from, to: null, how: null, label: null, nth: 0 });
  }

  end(session, place, how, label, nth) {
    const use = this.uses.get(session);
    if (use) Object.assign(use, { to: place, how, label, nth });
  }

  draw(last) {
    this.last = Math.max(this.last, last);
    const first = Math.max(1, this.last - STEPS + 1);
    const shown = [...this.uses.values()].filter((use) => use.to === null || use.to >= first).slice(-ROWS);
    for (const [session, use] of this.uses) if (use.to !== null && use.to < first) this.uses.delete(session);
    const width = 960;
    const height = TOP + Math.max(shown.length, 1) * ROW + 14;
    const x = (step) => LEFT + ((Math.max(step, first) - first + 0.5) / STEPS) * (width - LEFT - RIGHT);
    const svg = element("svg", { viewBox: `0 0 ${width} ${height}`, role: "img", "aria-label": this.says(shown, first) });
    for (let step = first; step <= this.last; step++) {
      if (step % 5 && step !== this.last) continue;
      svg.append(element("line", { class: "grid", x1: x(step), x2: x(step), y1: TOP - 6, y2: height - 8 }));
      svg.append(element("text", { class: "axis", x: x(step), y: 13, "text-anchor": "middle" }, String(step)));
    }
    shown.forEach((use, row) => this.bar(svg, use, TOP + row * ROW, x));
    this.stairs(svg, shown, x);
    this.place.replaceChildren(svg);
  }

  bar(svg, use, y, x) {
    const name = [use.subject, use.right, use.object].filter(Boolean).join(" ");
    svg.append(element("text", { x: 4, y: y + 13 }, `#${use.session} ${name}`.slice(0, 34)));
    const from = x(use.from);
    const to = use.to === null ? x(this.last) + 12 : x(use.to) + use.nth * STAIR;
    const kind = use.to === null ? "going" : "use";
    const bar = element("rect", { class: kind, x: from, y: y + 3, width: Math.max(to - from, 3), height: ROW - 10, rx: 3 });
    bar.append(element("title", {}, `session ${use.session}: ${name}, ${use.how ?? "goes on"}${use.label ? ` by ${use.label}` : ""}`));
    svg.append(bar);
    const middle = y + 3 + (ROW - 10) / 2;
    if (use.how === "ended") svg.append(element("circle", { class: "ended", cx: to, cy: middle, r: 5 }));
    if (use.how === "revoked") {
      svg.append(element("path", { class: "revoked", d: `M${to - 5} ${middle - 5}l10 10m0-10l-10 10` }));
      svg.append(element("text", { class: "label", x: to + 9, y: middle + 4 }, use.label ?? ""));
    }
  }

  // One line for each step that revoked: from the step's place down, and on to each revocation in its order.
  stairs(svg, shown, x) {
    const places = new Map();
    shown.forEach((use, row) => {
      if (use.how === "revoked") places.set(use.to, [...(places.get(use.to) ?? []), { use, y: TOP + row * ROW + 3 + (ROW - 10) / 2 }]);
    });
    for (const [step, ends] of places) {
      ends.sort((a, b) => a.use.nth - b.use.nth);
      const points = ends.map((end) => `H${x(step) + end.use.nth * STAIR}V${end.y}`).join("");
      svg.append(element("path", { class: "cascade", d: `M${x(step)} ${TOP - 8}${points}` }));
    }
  }

  says(shown, first) {
    const going = shown.filter((use) => use.to === null).length;
    const revoked = shown.filter((use) => use.how === "revoked").length;
    return `Steps ${first} to ${this.last}: ${going} uses go on, ${revoked} were revoked. The list below has each step in words.`;
  }
}
