#!/usr/bin/env python3
"""A data room: a file is shown only while its use goes on; who hasn't signed signs first. Words: FILE SECONDS"""
import json, os, sys, time, urllib.error, urllib.request, uuid

URL, TOKEN = os.environ.get("UCON_URL", "http://127.0.0.1:8080"), os.environ["UCON_TOKEN"]


def ask(path, body=None):
    """A status and an answer. A reply that is lost is asked for again under the same key, so nothing is done twice."""
    headers = {"Authorization": f"Bearer {TOKEN}", "Content-Type": "application/json", "Idempotency-Key": str(uuid.uuid4())}
    for _ in range(5):
        try:
            request = urllib.request.Request(URL + path, json.dumps(body).encode() if body else None, headers)
            with urllib.request.urlopen(request, timeout=15) as answer:
                return answer.status, json.load(answer)
        except urllib.error.HTTPError as refused:
            if refused.code not in (429, 503, 504):
                return refused.code, json.load(refused)
        except OSError:
            pass
        time.sleep(1)
    sys.exit("no answer")


thing, seconds = sys.argv[1], int(sys.argv[2])
status, said = ask("/try", {"right": "read", "object": thing})
if status == 202:
    print("signing the agreement", flush=True)
    ask("/act", {"action": "sign", "object": "agreement"})
    status, said = ask("/again", {"session": said["session"]})
if status != 200:
    sys.exit(f"hidden: {said.get('label') or said.get('error')}")
print(f"{thing} is shown", flush=True)
for _ in range(seconds):
    time.sleep(1)
    status, now = ask(f"/sessions/{said['session']}")
    if not now.get("accessing"):
        sys.exit(f"hidden: {now.get('state')}")
ask("/end", {"session": said["session"]})
print("hidden: done")
