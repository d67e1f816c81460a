// The console: who signs in sees its own, an administrator all.

import { Api, Refused } from "./api.js";
import { Cascades } from "./cascade.js";
import { Policy } from "./policy.js";

const KEPT = "ucon-token";
const MOST_STEPS = 200;
// How many steps of before are shown.
const BEFORE = 40;
// The least time between two readings of all attributes, in milliseconds.
const READ = 1000;
const at = (id) => document.getElementById(id);

function row(cells, heads = 0) {
  const made = document.createElement("tr");
  cells.forEach((cell, n) => {
    const name = document.createElement(n < heads ? "th" : "td");
    if (n < heads) name.scope = "row";
    name.textContent = cell;
    made.append(name);
  });
  return made;
}

function table(title, columns, rows) {
  const made = document.createElement("table");
  made.append(Object.assign(document.createElement("caption"), { textContent: title }));
  const head = document.createElement("thead");
  const names = row(columns);
  for (const cell of [...names.children]) {
    cell.replaceWith(Object.assign(document.createElement("th"), { scope: "col", textContent: cell.textContent }));
  }
  head.append(names);
  const body = document.createElement("tbody");
  body.append(...rows.map((cells) => row(cells, 1)));
  made.append(head, body);
  return made;
}

const spelled = (value) => (Array.isArray(value) ? `{${value.join(", ")}}` : String(value));

class Console {
  constructor(api, me) {
    this.api = api;
    this.me = me;
    this.isAdmin = me.role === "admin";
    this.cascades = new Cascades(at("chart"));
    this.uses = new Map();
    this.stop = new AbortController();
    this.isAsked = false;
  }

  async begin() {
    document.body.classList.toggle("is-admin", this.isAdmin);
    at("enter").hidden = true;
    at("signed").hidden = false;
    at("leave").hidden = false;
    at("who").textContent = this.isAdmin ? `${this.me.user}, administrator` : `${this.me.user}, subject ${this.me.subject}`;
    const said = await this.api.get(this.isAdmin ? "/admin/using" : "/using");
    // Steps of before come as those of now do, and uses that began before them are there from the first one on.
    this.begun = said.place;
    this.first = Math.max(said.place - BEFORE, 0);
    for (const use of said.using) this.takeUse(use, this.first);
    this.at(said.place);
    this.drawUses();
    this.cascades.draw(said.place);
    this.api.events(this.first, (...it) => this.hear(...it), (it) => this.linked(it), this.stop.signal);
    await this.readValues();
    if (this.isAdmin) await this.beginPolicy();
  }

  async beginPolicy() {
    const page = { text: at("text"), fault: at("fault"), would: at("would"), reload: at("reload"), tryOut: at("try-out"), amend: at("amend") };
    this.policy = new Policy(this.api, page);
    await this.policy.load();
  }

  // ---- events

  hear(kind, place, said) {
    this.at(place);
    if (kind !== "step") return;
    let nth = 0;
    for (const it of said.sessions) {
      if (it.outcome === "permitted") this.takeUse(it, place);
      if (it.outcome === "ended" || it.outcome === "revoked") {
        this.uses.delete(it.session);
        if (!this.cascades.uses.has(it.session)) this.cascades.begin(it.session, it, this.first);
        this.cascades.end(it.session, place, it.outcome, it.label, it.outcome === "revoked" ? nth++ : 0);
      }
    }
    this.addStep(said);
    this.drawUses();
    this.cascades.draw(place);
    this.readSoon();
  }

  takeUse(use, place) {
    this.uses.set(use.session, { ...use, since: place });
    this.cascades.begin(use.session, use, place);
  }

  at(place) {
    at("place").textContent = `step ${place}`;
  }

  linked(state) {
    // What is shown may not have been: all is read again.
    if (state === "lost") return location.reload();
    at("link").textContent = { live: "live", waiting: "no connection; trying again", refused: "no longer let in" }[state];
  }

  // ---- what is shown

  drawUses() {
    const rows = [...this.uses.values()].map((use) => {
      const made = row([use.session, use.subject ?? "", use.right, use.object, use.since > this.first ? use.since : `${this.first} or before`], 1);
      made.children[1].className = "admin";
      made.dataset.session = use.session;
      return made;
    });
    at("uses").replaceChildren(...rows);
    at("nobody").hidden = rows.length > 0;
  }

  addStep(said) {
    const made = Object.assign(document.createElement("li"), { value: said.place });
    const now = said.place > this.begun ? new Date().toLocaleTimeString() : "";
    const time = Object.assign(document.createElement("time"), { textContent: now });
    const what = Object.assign(document.createElement("code"), { textContent: said.command ?? "another's step" });
    made.append(time, " ", this.isAdmin ? `client ${said.client} ` : "", what, " ", this.outcome(said));
    const revoked = said.sessions.filter((it) => it.outcome === "revoked");
    if (revoked.length) made.append(this.revocations(revoked));
    at("steps").prepend(made);
    while (at("steps").children.length > MOST_STEPS) at("steps").lastElementChild.remove();
    if (!revoked.length || said.place <= this.begun) return;
    at("heard").textContent = `Step ${said.place} revoked ${revoked.map((it) => this.named(it)).join(", then ")}`;
  }

  outcome(said) {
    const first = said.sessions[0];
    const made = document.createElement("span");
    if (first && first.outcome !== "revoked") {
      made.textContent = `${first.outcome} ${first.session}${first.label ? ` by ${first.label}` : ""}`;
      made.className = first.outcome === "denied" ? "denied" : "";
    } else made.textContent = (said.reply ?? "").split(" ")[0];
    return made;
  }

  revocations(revoked) {
    const list = document.createElement("ol");
    list.append(...revoked.map((it) => Object.assign(document.createElement("li"), { textContent: `✕ revoked ${this.named(it)}` })));
    return list;
  }

  named(it) {
    return `${it.session} (${[it.subject, it.right, it.object].filter(Boolean).join(" ")})${it.label ? ` by ${it.label}` : ""}`;
  }

  // Reads attributes again, but not more often than is good for whoever is asked.
  readSoon() {
    if (this.isAsked) return;
    this.isAsked = true;
    setTimeout(() => {
      this.isAsked = false;
      this.readValues().catch(() => {});
    }, READ);
  }

  async readValues() {
    const tables = [];
    if (this.isAdmin) {
      const state = await this.api.get("/admin/state");
      tables.push(this.entities("Subjects", state.subjects), this.entities("Objects", state.objects));
      const variables = Object.entries(state.env).map(([name, it]) => [name, spelled(it)]);
      tables.push(table("Variables, and the tick", ["Name", "Value"], [...variables, ["tick", String(state.tick)]]));
    } else {
      const me = await this.api.get("/me");
      tables.push(table("Your attributes", ["Name", "Value"], Object.entries(me.attributes)));
    }
    at("tables").replaceChildren(...tables);
  }

  entities(title, all) {
    const columns = [...new Set(Object.values(all).flatMap((it) => Object.keys(it)))].sort();
    const rows = Object.entries(all).map(([name, values]) => [name, ...columns.map((it) => (it in values ? spelled(values[it]) : ""))]);
    return table(title, ["Name", ...columns], rows);
  }

  async explain(form) {
    const query = new URLSearchParams([...new FormData(form)].filter(([name]) => this.isAdmin || name !== "subject"));
    const place = at("because");
    try {
      const said = await this.api.get(`${this.isAdmin ? "/admin/explain" : "/explain"}?${query}`);
      place.replaceChildren(Object.assign(document.createElement("pre"), { textContent: said.lines.join("\n") }));
    } catch (why) {
      place.replaceChildren(Object.assign(document.createElement("p"), { className: "bad", textContent: why.message }));
    }
  }
}

let shown = null;

async function enter(token) {
  const api = new Api(token);
  const me = await api.get("/me");
  sessionStorage.setItem(KEPT, token);
  shown = new Console(api, me);
  await shown.begin();
}

async function tryEnter(token) {
  at("refused").textContent = "";
  try {
    await enter(token);
  } catch (why) {
    sessionStorage.removeItem(KEPT);
    at("refused").textContent = why instanceof Refused && why.status === 401 ? "This token isn't known." : `It didn't work: ${why.message}`;
  }
}

at("enter").addEventListener("submit", (event) => {
  event.preventDefault();
  tryEnter(at("token").value.trim());
  at("token").value = "";
});
at("ask").addEventListener("submit", (event) => {
  event.preventDefault();
  shown?.explain(event.target);
});
at("leave").addEventListener("click", () => {
  shown?.stop.abort();
  sessionStorage.removeItem(KEPT);
  location.reload();
});
const kept = sessionStorage.getItem(KEPT);
if (kept) tryEnter(kept);
