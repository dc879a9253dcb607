// What a user does to a job: a dialog asks, shows the call that will be made, and makes it once.
import { Failed, keepToken, newKey, send } from "./api.js";
import { element, fill } from "./views.js";

const FINAL = "This can't be taken back.";

const at = (id) => document.getElementById(id);

function calls(job, call) {
  return { method: "POST", path: `/jobs/${job.name}/calls`, body: { calls: [call] } };
}

export function checkpoint(job) {
  return {
    title: `Trigger a checkpoint of ${job.name} now`,
    question: "The job triggers a checkpoint now, whatever its interval and its pause. The interval counts from it.",
    button: "Trigger it",
    request: () => ({ method: "POST", path: `/jobs/${job.name}/checkpoints`, body: {} }),
    outcome: (told) => [`Checkpoint ${told.id} is triggered, as call ${told.seq}.`, true],
  };
}

export function savepoint(job) {
  return {
    title: `Trigger a savepoint of ${job.name}`,
    question: "The job triggers a savepoint now, beside its checkpoints. Its files stay until you dispose of it.",
    button: "Trigger it",
    request: () => calls(job, { call: "savepoint" }),
  };
}

export function stop(job) {
  return {
    title: `Stop ${job.name}`,
    question: "The job triggers a savepoint and no checkpoint any more. Once each task has acknowledged it, the job has stopped there, and its engine ends. Nothing expires until you begin it again.",
    button: `Stop ${job.name}`,
    request: () => ({ method: "POST", path: `/jobs/${job.name}/stop`, body: {} }),
    outcome: (told) => [`The job stops: savepoint ${told.id} is triggered, as call ${told.seq}.`, true],
  };
}

export function begin(job) {
  return {
    title: `Begin ${job.name} again`,
    question: `The job begins again from savepoint ${job.stop?.savepoint}, with which it has stopped. Then start its engine, if it does not wait for this.`,
    button: `Begin ${job.name}`,
    request: () => ({ method: "POST", path: `/jobs/${job.name}/begin`, body: {} }),
    outcome: begun,
  };
}

// The numbers of a job's settings, and what each is called here.
const NUMBERS = [
  ["interval", "Interval, in milliseconds"],
  ["pause", "Pause, in milliseconds"],
  ["at_once", "Pending at once, at most"],
  ["timeout", "Timeout, in milliseconds"],
  ["tolerable", "Failures in a row that are tolerated"],
  ["retained", "Checkpoints that are retained"],
];

export function settings(job) {
  const numbers = NUMBERS.map(([name, words]) => {
    const input = element("input", { id: `set-${name}`, type: "number", min: 0, step: 1, required: "", value: job.settings[name] });
    return { name, words, input };
  });
  const keep = element("input", { id: "set-keep", type: "checkbox" });
  keep.checked = job.settings.keep_on_cancel;
  const given = () => [...numbers.map(({ name, input }) => [name, Number(input.value)]), ["keep_on_cancel", keep.checked]];
  return {
    title: `Change settings of ${job.name}`,
    question: "The job has them from its next tick on. If it retains fewer checkpoints, the older ones end at once.",
    button: "Change them",
    fields: [
      ...numbers.map(({ name, words, input }) => element("p", {}, element("label", { for: `set-${name}` }, `${words} `), input)),
      element("p", {}, keep, element("label", { for: "set-keep" }, " checkpoints are kept when the job is cancelled")),
    ],
    // those that differ
    request: () => ({ method: "PATCH", path: `/jobs/${job.name}/settings`, body: Object.fromEntries(given().filter(([name, value]) => value !== job.settings[name])) }),
    outcome: (told) => [`The settings are changed, as call ${told.seq}.`, true],
  };
}

export function dispose(job, id) {
  return {
    title: `Dispose of savepoint ${id} of ${job.name}`,
    question: `Savepoint ${id} ends, and the files that nothing else uses are deleted. ${FINAL}`,
    button: `Dispose of savepoint ${id}`,
    isFinal: true,
    request: () => calls(job, { call: "dispose", id }),
  };
}

export function cancel(job) {
  const kept = job.settings.keep_on_cancel ? "Its checkpoints are kept." : "The files of its checkpoints are deleted.";
  return {
    title: `Cancel ${job.name}`,
    question: `The job ends for good: it triggers and restores nothing any more. ${kept} ${FINAL}`,
    button: `Cancel ${job.name}`,
    isFinal: true,
    request: () => calls(job, { call: "cancel" }),
  };
}

export function remove(job) {
  const abandon = element("input", { id: "delete-abandon", type: "checkbox" });
  return {
    title: `Delete ${job.name}`,
    question: `The job is deleted with its log and its history. The service refuses it while files of the job are left. ${FINAL}`,
    button: `Delete ${job.name}`,
    isFinal: true,
    fields: [element("p", {}, abandon, element("label", { for: "delete-abandon" }, " though files are left, which nobody deletes then"))],
    request: () => ({ method: "DELETE", path: `/jobs/${job.name}${abandon.checked ? "?abandon=1" : ""}`, body: null }),
    outcome: (told) => [`Job ${told.deleted} is deleted.`, true],
  };
}

// The numbers of a shape, as `2 3`; nothing if the field is empty.
function shape(text) {
  const words = text.split(/[\s,·]+/).filter((word) => word !== "");
  return words.length === 0 ? {} : { shape: words.map(Number) };
}

// The complete checkpoints but for the latest, which a restore begins from anyway.
function older(job) {
  const latest = job.choice.kind === "checkpoint" ? job.choice.id : null;
  return job.live.filter((one) => one.done && one.kind === "checkpoint" && one.id !== latest).reverse();
}

// What a restore begins from, as a request says it. An older checkpoint needs the consent.
function begins(from, consent) {
  if (from.value === "latest") return { from: "latest" };
  const [id, kind] = from.value.split(" ");
  return kind === undefined ? { from: Number(id) } : { from: { checkpoint: Number(id) }, accept_published: consent.checked };
}

export function restore(job, savepoints) {
  const choice = job.choice.kind === "fresh" ? "from nothing" : `${job.choice.kind} ${job.choice.id}`;
  const from = element("select", { id: "restore-from" }, element("option", { value: "latest" }, `the latest: ${choice}`));
  from.append(...savepoints.map((one) => element("option", { value: one.id }, `savepoint ${one.id}`)));
  from.append(...older(job).map((one) => element("option", { value: `${one.id} checkpoint` }, `checkpoint ${one.id}, an older one`)));
  const consent = element("input", { id: "restore-consent", type: "checkbox" });
  const accept = element("p", { hidden: "" }, consent, element("label", { for: "restore-consent" }, " I accept that what sinks published for records after it is not taken back"));
  const into = element("input", { id: "restore-shape", placeholder: job.shape.join(" "), pattern: "[0-9 ,·]*", "aria-describedby": "restore-help" });
  return {
    title: `Restore ${job.name}`,
    question: `The job begins again. Records that are pending end, and so does what was done after the record that it begins from. End all tasks of the job first. ${FINAL}`,
    button: `Restore ${job.name}`,
    isFinal: true,
    fields: [
      element("p", {}, element("label", { for: "restore-from" }, "Begin from "), from),
      accept,
      element("p", {}, `This page sees no files. Look first whether the record has all of its own: relkvanu savepoints ${job.name} --folder DIR.`),
      element("p", {}, element("label", { for: "restore-shape" }, "In the shape "), into, element("span", { id: "restore-help" }, " the parallelism of each vertex; empty: as it is")),
    ],
    request: () => {
      accept.hidden = !from.value.endsWith(" checkpoint");
      return calls(job, { call: "restore", ...begins(from, consent), ...shape(into.value) });
    },
  };
}

// What became of a call, in words, and whether it was made.
export function outcome(told) {
  const answer = told.answers[0];
  const refused = answer.refused ?? answer.fenced;
  if (refused) return [`The coordinator refuses it: ${refused}. Nothing has changed.`, false];
  if (answer.no_memory || answer.not_made) return ["The service has no memory for it now. Nothing has changed.", false];
  const seq = `, as call ${answer.seq}`;
  if (answer.savepoint) return [`Savepoint ${answer.id} is triggered${seq}.`, true];
  if (answer.dispose) return [`The savepoint is disposed of${seq}; ${answer.released} files wait for deletion now.`, true];
  if (answer.cancel) return [`The job is cancelled${seq}; ${answer.released} files wait for deletion now.`, true];
  return begun(answer);
}

// A restore in words.
function begun(answer) {
  const from = answer.restore === "fresh" ? "nothing" : `${answer.restore} ${answer.id}`;
  return [`The job begins again from ${from}, as call ${answer.seq}. The term is ${answer.term}.`, true];
}

const asking = { action: null, key: null, text: "", then: null, opener: null };

// The request as it will be made. While it says the same, it has the same key, so that a second try makes no second call.
function request() {
  const it = asking.action.request();
  const text = `${it.method} /v1${it.path}${it.body === null ? "" : `\n${JSON.stringify(it.body, null, 1)}`}`;
  if (text !== asking.text) [asking.text, asking.key] = [text, newKey()];
  return it;
}

function showRequest() {
  request();
  at("ask-call").textContent = asking.text;
}

function complain(text) {
  at("ask-wrong").textContent = text;
}

// Asks before an action. `then` gets the words of what was done.
export function ask(action, then) {
  Object.assign(asking, { action, then, text: "", opener: document.activeElement });
  at("ask-title").textContent = action.title;
  at("ask-question").textContent = action.question;
  fill(at("ask-fields"), action.fields ?? []);
  at("ask-yes").textContent = action.button;
  at("ask-yes").classList.toggle("bad", action.isFinal === true);
  at("ask-yes").disabled = false;
  at("ask-token-field").hidden = true;
  complain("");
  showRequest();
  at("ask").showModal();
  (action.isFinal ? at("ask-no") : at("ask-yes")).focus();
}

async function make() {
  const it = request();
  if (!at("ask-token-field").hidden && at("ask-token").value !== "") keepToken(at("ask-token").value);
  at("ask-yes").disabled = true;
  try {
    const [text, isDone] = (asking.action.outcome ?? outcome)(await send(it.method, it.path, it.body, it.body === null ? null : asking.key));
    if (!isDone) return complain(text);
    at("ask").close();
    asking.then(text);
  } catch (error) {
    if (!(error instanceof Failed)) throw error;
    wrong(error);
  } finally {
    at("ask-yes").disabled = false;
  }
}

function wrong(error) {
  const wantsToken = error.status === 401 || error.status === 403;
  at("ask-token-field").hidden = !wantsToken && at("ask-token-field").hidden;
  const lost = error.status === 0 ? " It may have been made or not: try again, and it is made once." : "";
  complain(wantsToken ? `${error.message}. Give a write token.` : error.message + lost);
  if (wantsToken) at("ask-token").focus();
}

at("ask-form").addEventListener("submit", (event) => {
  event.preventDefault();
  make();
});
at("ask-fields").addEventListener("input", showRequest);
at("ask-no").addEventListener("click", () => at("ask").close());
at("ask").addEventListener("close", () => {
  at("ask-token").value = "";
  // what was pressed may be gone, as the button of a savepoint that is disposed of
  (asking.opener?.isConnected ? asking.opener : at("job-name")).focus();
});
