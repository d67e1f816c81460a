// The policy: checked while one edits, tried before it is in force.

const QUIET = 500;

export class Policy {
  constructor(api, page) {
    this.api = api;
    this.page = page;
    this.names = [];
    this.tried = null;
    page.text.addEventListener("input", () => this.changed());
    page.reload.addEventListener("click", () => this.load());
    page.tryOut.addEventListener("click", () => this.tryOut());
    page.amend.addEventListener("click", () => this.amend());
  }

  async load() {
    this.page.text.value = (await this.api.get("/admin/policy")).policy;
    this.page.fault.replaceChildren();
    this.page.would.replaceChildren();
    this.page.amend.disabled = true;
  }

  changed() {
    this.page.amend.disabled = true;
    clearTimeout(this.timer);
    this.timer = setTimeout(() => this.check(), QUIET);
  }

  async check() {
    const text = this.page.text.value;
    const said = await this.api.post("/admin/policy/check", { policy: text }).catch((why) => ({ accepted: false, fault: { text: why.message } }));
    if (text !== this.page.text.value) return;
    if (said.accepted) return this.say(this.page.fault, "good", `The program takes it: ${said.models.join(", ") || "no right"}.`);
    this.say(this.page.fault, "bad", said.fault.line ? `Line ${said.fault.line}, column ${said.fault.column}:` : "It isn't taken:", said.fault.text);
    if (said.fault.line) this.page.fault.append(this.button("Go to it", () => this.go(said.fault)));
  }

  // Puts the cursor where the fault is.
  go({ line, column }) {
    const before = this.page.text.value.split("\n").slice(0, line - 1).reduce((sum, it) => sum + it.length + 1, 0);
    this.page.text.focus();
    this.page.text.setSelectionRange(before + column - 1, before + column);
  }

  async tryOut() {
    const text = this.page.text.value;
    this.say(this.page.would, "hint", "It is tried on a copy of the journal ..");
    const said = await this.api.post("/admin/policy/dry-run", { policy: text }).catch((why) => ({ would_do: [], refused: { text: why.message } }));
    this.names = said.would_do.filter((it) => it.startsWith("loses its values: ")).map((it) => it.slice(18));
    this.page.would.replaceChildren();
    const list = document.createElement("ul");
    list.append(...said.would_do.map((it) => this.item(it)));
    if (said.would_do.length) this.page.would.append(list);
    else this.say(this.page.would, "hint", said.refused ? "It wouldn't be put in force." : "Nobody is revoked, and no value is lost.");
    const isLoss = said.refused && this.names.length > 0 && said.refused.text.includes("would lose all values");
    if (said.refused && !isLoss) return this.append(this.page.would, "pre", said.refused.text);
    this.tried = text;
    if (isLoss) this.page.would.append(this.consent());
    else this.page.amend.disabled = false;
  }

  // Values go only where somebody says so.
  consent() {
    const label = document.createElement("label");
    const box = Object.assign(document.createElement("input"), { type: "checkbox" });
    box.style.width = "auto";
    box.addEventListener("change", () => (this.page.amend.disabled = !box.checked));
    label.append(box, ` Let the values of ${this.names.join(", ")} go`);
    return label;
  }

  async amend() {
    if (this.tried !== this.page.text.value) return this.say(this.page.would, "bad", "It was changed since the dry run: try it again.");
    this.page.amend.disabled = true;
    try {
      const said = await this.api.post("/admin/amend", { policy: this.tried, drop: this.names });
      this.say(this.page.would, "good", `In force since step ${said.place}; ${said.revoked.length} uses were revoked.`);
    } catch (why) {
      this.say(this.page.would, "bad", `It isn't in force: ${why.message}.`);
    }
  }

  item(text) {
    const made = document.createElement("li");
    made.textContent = text;
    if (text.startsWith("revokes")) made.className = "bad";
    return made;
  }

  button(text, call) {
    const made = Object.assign(document.createElement("button"), { type: "button", textContent: text });
    made.addEventListener("click", call);
    return made;
  }

  say(place, kind, text, more) {
    place.replaceChildren();
    this.append(place, "p", text).className = kind;
    if (more) this.append(place, "pre", more);
  }

  append(place, name, text) {
    const made = Object.assign(document.createElement(name), { textContent: text });
    place.append(made);
    return made;
  }
}
