#!/usr/bin/env node
// The door: it is opened only for an answer 200, and shut once the use is over. Words: OBJECT SECONDS
const url = process.env.UCON_URL ?? "http://127.0.0.1:8080";
const sleep = (seconds) => new Promise((go) => setTimeout(go, 1000 * seconds));

// A status and an answer. A reply that is lost is asked for again under the same key, so nothing is done twice.
async function ask(path, body) {
  const headers = { Authorization: `Bearer ${process.env.UCON_TOKEN}`, "Content-Type": "application/json", "Idempotency-Key": crypto.randomUUID() };
  for (let n = 0; n < 5; n++) {
    try {
      const how = body ? { method: "POST", body: JSON.stringify(body) } : {};
      const answer = await fetch(url + path, { ...how, headers, signal: AbortSignal.timeout(15000) });
      if (![429, 503, 504].includes(answer.status)) return [answer.status, await answer.json()];
    } catch {}
    await sleep(1);
  }
  throw new Error("no answer");
}

const [thing, seconds] = [process.argv[2], Number(process.argv[3])];
const [status, said] = await ask("/try", { right: "enter", object: thing });
if (status !== 200) {
  console.log(`shut: ${said.label ?? said.error}`);
  process.exit(1);
}
console.log("open");
for (let n = 0; n < seconds; n++) {
  await sleep(1);
  const [, now] = await ask(`/sessions/${said.session}`);
  if (!now.accessing) {
    console.log(`shut: ${now.state}`);
    process.exit(1);
  }
}
await ask("/end", { session: said.session });
console.log("shut: left");
