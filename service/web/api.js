// Requests to the service, with the token of this tab if one was given.
const TOKEN = "relkvanu-token";
const SILENT = 40_000; // milliseconds after which a stream without a word counts as lost

export class Failed extends Error {
  // `leader` is the address of the process that leads, if the one that answered stands by.
  constructor(status, text, leader = null) {
    super(text);
    this.status = status;
    this.leader = leader;
  }
}

export function keepToken(text) {
  sessionStorage.setItem(TOKEN, text);
}

export function hasToken() {
  return Boolean(sessionStorage.getItem(TOKEN));
}

// Makes a request below /v1; an error has the answer's status, or 0 if there was none.
async function asked(path, given) {
  const token = sessionStorage.getItem(TOKEN);
  const headers = { ...given.headers, ...(token ? { Authorization: `Bearer ${token}` } : {}) };
  let answer;
  try {
    answer = await fetch(`/v1${path}`, { ...given, headers, cache: "no-store" });
  } catch (error) {
    throw error.name === "AbortError" ? error : new Failed(0, "the service does not answer");
  }
  if (!answer.ok) {
    const body = parsed(await answer.text());
    throw new Failed(answer.status, body.error || `status ${answer.status}`, answer.headers.get("relkvanu-leader"));
  }
  return answer;
}

function parsed(text) {
  try {
    return JSON.parse(text);
  } catch {
    return { error: text };
  }
}

export async function get(path, signal) {
  return parsed(await (await asked(path, { signal })).text());
}

// A key under which a request is made once, however often it is sent.
export function newKey() {
  return [...crypto.getRandomValues(new Uint8Array(16))].map((byte) => byte.toString(16).padStart(2, "0")).join("");
}

// Sends a body, or asks without one, as with DELETE.
export async function send(method, path, body, key) {
  const headers = { "Content-Type": "application/json", ...(key ? { "Idempotency-Key": key } : {}) };
  const given = { method, headers, ...(body === null ? {} : { body: JSON.stringify(body) }) };
  return parsed(await (await asked(path, given)).text());
}

function silence() {
  return new Promise((_, reject) => setTimeout(() => reject(new Failed(0, "the stream is silent")), SILENT));
}

// Reads a stream of events until it ends. `heard` gets the name and the data of each.
export async function stream(path, heard, signal) {
  const reader = (await asked(path, { signal })).body.pipeThrough(new TextDecoderStream()).getReader();
  let rest = "";
  for (;;) {
    const { value, done } = await Promise.race([reader.read(), silence()]);
    if (done) return;
    const messages = (rest + value).split("\n\n");
    rest = messages.pop();
    for (const message of messages) {
      const field = (name) => message.split("\n").find((line) => line.startsWith(`${name}: `))?.slice(name.length + 2);
      if (field("event")) heard(field("event"), parsed(field("data") ?? "{}"));
    }
  }
}
