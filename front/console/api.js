// What is asked of the front end, always with the token, and its events as they come.

// Whoever was refused.
export class Refused extends Error {
  constructor(status, said) {
    super(said?.error ?? `status ${status}`);
    this.status = status;
    this.said = said;
  }
}

export class Api {
  constructor(token) {
    this.token = token;
  }

  async ask(method, path, body) {
    const headers = { Authorization: `Bearer ${this.token}` };
    if (body !== undefined) headers["Content-Type"] = "application/json";
    const given = body === undefined ? undefined : JSON.stringify(body);
    const answer = await fetch(path, { method, headers, body: given, signal: AbortSignal.timeout(200_000) });
    const said = await answer.json().catch(() => null);
    if (!answer.ok) throw new Refused(answer.status, said);
    return said;
  }

  get(path) {
    return this.ask("GET", path);
  }

  post(path, body) {
    return this.ask("POST", path, body);
  }

  // Calls `hear(kind, place, said)` for each message from a place on, and comes back where the stream ends, without missing one. `state`
  // hears whether there is a stream. Ends once `signal` is aborted, the token is refused, or the journal has lost the place.
  async events(behind, hear, state, signal) {
    let place = behind;
    for (let wait = 250; !signal.aborted; wait = Math.min(2 * wait, 5000)) {
      try {
        const headers = { Authorization: `Bearer ${this.token}`, "Last-Event-ID": String(place) };
        const answer = await fetch("/events", { headers, signal });
        if (answer.status === 401 || answer.status === 403) return state("refused");
        if (answer.status === 409) return state("lost");
        if (answer.ok) {
          state("live");
          wait = 250;
          for await (const message of messages(answer.body)) {
            place = message.place;
            hear(message.kind, message.place, message.said);
          }
        }
      } catch (why) {
        if (signal.aborted) return;
      }
      state("waiting");
      await new Promise((go) => setTimeout(go, wait));
    }
  }
}

// The messages of a stream of server-sent events.
async function* messages(body) {
  const reader = body.pipeThrough(new TextDecoderStream()).getReader();
  let text = "";
  for (;;) {
    const { done, value } = await reader.read();
    if (done) return;
    text += value;
    const parts = text.split("\n\n");
    text = parts.pop();
    for (const part of parts) {
      const fields = Object.fromEntries(part.split("\n").filter((line) => line && !line.startsWith(":")).map((line) => line.split(/: (.*)/s, 2)));
      if (fields.data) yield { kind: fields.event, place: Number(fields.id), said: JSON.parse(fields.data) };
    }
  }
}
