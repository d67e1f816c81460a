#!/usr/bin/env node
// A data room: a file is shown only while its use goes on; who hasn't signed signs first. Words: FILE SECONDS
const url = process.env.UCON_URL ?? "http://127.0.0.1:8080";
const sleep = (seconds) => new Promise((go) => setTimeout(go, 1000 * seconds));

// A status and an answer. A reply that is lost is asked for again under the same key, so nothing is done twice.
async function ask(path, body) {
  const headers = { Authorization: `Bearer ${process.env.UCON_TOKEN}`, "Content-Type": "application/json", "Idempotency-Key": crypto.randomUUID() };
  for (let n = 0; n < 5; n++) {
    try {
      const how = body ? { method: "POST", body: JSON.stringify(body) } : {};
      const answer = await fetch(url + path, { ...how, headers, signal: AbortSignal.timeout(15000) });
      if (![429, 503, 504].includes(answer.status)) return [answer.status, await answer.json()];
    } catch {}
    await sleep(1);
  }
  throw new Error("no answer");
}

const [thing, seconds] = [process.argv[2], Number(process.argv[3])];
let [status, said] = await ask("/try", { right: "read", object: thing });
if (status === 202) {
  console.log("signing the agreement");
  await ask("/act", { action: "sign", object: "agreement" });
  [status, said] = await ask("/again", { session: said.session });
}
if (status !== 200) {
  console.log(`hidden: ${said.label ?? said.error}`);
  process.exit(1);
}
console.log(`${thing} is shown`);
for (let n = 0; n < seconds; n++) {
  await sleep(1);
  const [, now] = await ask(`/sessions/${said.session}`);
  if (!now.accessing) {
    console.log(`hidden: ${now.state}`);
    process.exit(1);
  }
}
await ask("/end", { session: said.session });
console.log("hidden: done");
