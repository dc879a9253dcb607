// What the page shows, as elements. All text goes in as text, never as markup.

export function element(name, given = {}, ...children) {
  const made = document.createElement(name);
  for (const [key, value] of Object.entries(given)) {
    if (key === "onclick") {
      made.addEventListener("click", value);
    } else if (value !== undefined && value !== null) {
      made.setAttribute(key, value);
    }
  }
  made.append(...children.filter((child) => child !== null && child !== undefined).map((child) => (child instanceof Node ? child : String(child))));
  return made;
}

// Shows these children. One that is as it was stays, so it keeps the focus; one that changed gets the focus of its predecessor.
export function fill(parent, children) {
  const made = children.map((child) => (child instanceof Node ? child : document.createTextNode(String(child))));
  while (parent.childNodes.length > made.length) parent.lastChild.remove();
  made.forEach((child, place) => {
    const old = parent.childNodes[place];
    if (!old) {
      parent.append(child);
    } else if (!old.isEqualNode(child)) {
      const focus = old.contains(document.activeElement) ? [old, ...(old.querySelectorAll?.("*") ?? [])].indexOf(document.activeElement) : -1;
      old.replaceWith(child);
      if (focus >= 0) [child, ...(child.querySelectorAll?.("*") ?? [])][focus]?.focus();
    }
  });
}

// A duration of milliseconds in words.
export function duration(ms) {
  if (ms < 1000) return `${Math.round(ms)} ms`;
  if (ms < 60_000) return `${(ms / 1000).toFixed(1)} s`;
  if (ms < 3_600_000) return `${Math.floor(ms / 60_000)} min ${Math.round((ms % 60_000) / 1000)} s`;
  return `${Math.floor(ms / 3_600_000)} h ${Math.floor((ms % 3_600_000) / 60_000)} min`;
}

export function moment(ms) {
  return new Date(ms).toLocaleString([], { month: "short", day: "numeric", hour: "2-digit", minute: "2-digit", second: "2-digit" });
}

// The same in a table: of today the time alone.
function shortMoment(ms) {
  const it = new Date(ms);
  return it.toDateString() === new Date().toDateString() ? it.toLocaleTimeString() : moment(ms);
}

// A number of bytes in words.
export function bytes(number) {
  const units = ["B", "kB", "MB", "GB", "TB", "PB"];
  let place = 0;
  let rest = number;
  while (rest >= 1000 && place < units.length - 1) {
    rest /= 1000;
    place += 1;
  }
  return `${place === 0 || rest >= 100 ? Math.round(rest) : rest.toFixed(1)} ${units[place]}`;
}

const MODES = { running: "good", stopping: "other", stopped: "other", failed: "bad", cancelled: "other" };

// What a job is doing. One that stops or has stopped runs as far as its mode says.
export function doing(job) {
  return job.phase === "stopping" || job.phase === "stopped" ? job.phase : job.mode;
}

const TONES = { completed: "good", expired: "bad", declined: "bad", "failed over": "bad" };

export function tone(how) {
  return TONES[how] ?? "other";
}

function link(job, word, kind, isCurrent) {
  const made = element("a", { href: `#/jobs/${job.name}`, "aria-current": isCurrent ? "true" : null }, `${job.name} `);
  made.append(element("span", { class: `mode ${kind}` }, word));
  return element("li", {}, made);
}

export function jobLink(job, isCurrent) {
  return link(job, doing(job), MODES[doing(job)], isCurrent);
}

// One that is kept out, since its log can't be replayed.
export function damagedLink(job, isCurrent) {
  return link(job, "damaged", "bad", isCurrent);
}

function fact(name, value, kind) {
  return element("div", {}, element("dt", {}, name), element("dd", { class: kind, "data-fact": name }, value));
}

// A start makes the calls after the image again.
function image(job) {
  if (job.image === null) return "none yet";
  return `at call ${job.image.seq}, ${Math.max(1, Math.round(job.image.bytes / 1000))} kB`;
}

function choiceOf(job) {
  return job.choice.kind === "fresh" ? "from nothing" : `from ${job.choice.kind} ${job.choice.id}`;
}

// How a job goes on that does not run, or was to stop; nothing of one that runs as it should.
export function hint(job) {
  if (job.phase === "stopping") return `The job stops: it waits for the acknowledgements of savepoint ${job.stop.savepoint}, and triggers no checkpoint.`;
  if (job.phase === "stopped") return `The job has stopped at savepoint ${job.stop.savepoint}. It goes on from there once you begin it.`;
  if (job.mode === "running" && job.stop?.failed) return `The job was to stop and runs on: savepoint ${job.stop.savepoint} has ended (${job.stop.failed}).`;
  if (job.mode === "failed") return `The job failed. End its tasks, call restore, and start them again: it goes on ${choiceOf(job)}.`;
  if (job.mode === "cancelled") return "The job was cancelled. It does not go on; its files wait for deletion or are kept, as its settings say.";
  return "";
}

// When the next checkpoint is due, or what it waits for.
function next(job, pending) {
  if (doing(job) !== "running") return `not while it is ${doing(job)}`;
  if (job.due > job.now) return `in ${duration(job.due - job.now)}`;
  const most = job.settings.pause > 0 ? 1 : job.settings.at_once;
  const waiting = pending.filter((record) => record.kind === "checkpoint");
  if (waiting.length < most) return "at the next tick";
  return `when checkpoint ${waiting[0].id} ends`;
}

// How far the history has read the calls. It is some calls behind while the job runs: these are not worth a word.
const SMALL_LAG = 20;
const USUAL_LAG = 100;

export function lags(upto, seq) {
  return seq - upto > USUAL_LAG;
}

export function progress(upto, seq) {
  if (seq - upto <= SMALL_LAG) return "";
  return `The history has read ${upto} of ${seq} calls: the records, the files and the chart lack the rest.`;
}

// The samples, and the present state as the last one.
export function samples(known, job) {
  const present = { at: job.now, in_use: job.files.in_use, waiting: job.files.waiting, taken: job.files.taken };
  return [...known.filter((sample) => sample.at < job.now), present];
}

export function sampleRow(sample) {
  const cell = (text) => element("td", {}, text);
  return element("tr", {}, cell(moment(sample.at)), cell(sample.in_use), cell(sample.waiting), cell(sample.taken));
}

export function savepoint(one, choice, dispose) {
  const when = one.finished === null ? "" : `, complete since ${moment(one.finished)}`;
  const base = choice.kind === "savepoint" && choice.id === one.id ? "; a restart begins from it" : "";
  const button = element("button", { type: "button", class: "small", "aria-label": `Dispose of savepoint ${one.id}`, onclick: () => dispose(one.id) }, "Dispose…");
  return element("li", { "data-savepoint": one.id }, element("strong", {}, `savepoint ${one.id}`), when + base, " ", button);
}

// The bytes of files, if acknowledgements say them.
function sizes(job) {
  const it = job.bytes;
  if (it.files === 0) return [];
  const files = job.files.in_use + job.files.waiting + job.files.taken;
  const of = it.files < files ? ` (of ${it.files} files)` : "";
  return [fact("Size in use", bytes(it.in_use) + of), fact("To delete", bytes(it.waiting + it.taken) + of)];
}

export function facts(job, waiting) {
  const completed = job.last_completed === null ? "none yet" : `${duration(Math.max(0, job.now - job.last_completed))} ago`;
  return [
    fact("Mode", doing(job), `mode ${MODES[doing(job)]}`),
    fact("Last checkpoint", completed),
    fact("Next is due", next(job, waiting)),
    fact("Interval", duration(job.settings.interval)),
    fact("Would restart", choiceOf(job)),
    fact("Shape", job.shape.join(" · ")),
    fact("Files in use", job.files.in_use),
    fact("Files waiting", job.files.waiting),
    fact("Files taken", job.files.taken, job.files.taken > 0 ? "other" : null),
    ...sizes(job),
    fact("Next name", job.next_name),
    fact("Calls made", job.seq),
    fact("Last image", image(job)),
  ];
}

function missing(record) {
  return record.missing.join(", ") + (record.more_missing > 0 ? ` and ${record.more_missing} more` : "");
}

export function pending(record, now) {
  const come = record.subtasks - record.missing.length - record.more_missing;
  const item = element("li", { "data-record": record.id }, element("strong", {}, `${record.kind} ${record.id} `));
  item.append(element("progress", { max: record.subtasks, value: come, "aria-label": "acknowledged" }), ` ${come} of ${record.subtasks}, `);
  item.append(`for ${duration(Math.max(0, now - record.started))}; missing: `, element("span", { class: "missing" }, missing(record)));
  return item;
}

// For how long a record has been pending, in the table.
export function soFar(ms) {
  return `${duration(Math.max(0, ms))} so far`;
}

// From a record's trigger to a moment.
function after(record, moment) {
  return moment === null ? "" : duration(moment - record.started);
}

// The slowest acknowledgement, and the subtask that made it.
function slowest(record) {
  return record.last_ack === null ? "" : `${after(record, record.last_ack)} by ${record.slowest}`;
}

// What its tasks told of their snapshots: the sum of the bytes, and the longest time.
function snapshots(record) {
  // 0 is of tasks that told the time alone
  return [record.bytes ? bytes(record.bytes) : "", record.millis === null ? "" : `in ${duration(record.millis)}`].join(" ").trim();
}

// Why a record failed, or what it waits for; nothing of one that is complete.
function reason(record, live) {
  if (record.how === "declined") return record.reason ?? "";
  const lack = missing(live ?? record);
  if (lack === "") return "";
  return record.how === "pending" ? `waits for ${lack}` : `lacked ${lack}`;
}

// A pending record says what it lacks now, and since when it has been pending: the page fills in for how long.
export function recordRow(record, waiting, look) {
  const live = record.finished === null ? waiting.find((one) => one.id === record.id) : undefined;
  const how = record.how === "declined" ? record.why : record.how;
  const kept = record.how !== "completed" ? "" : record.gone === null ? "yes" : record.why;
  const cell = (text, kind) => element("td", { class: kind }, text);
  return element(
    "tr",
    { "data-record": record.id },
    element("td", {}, element("button", { type: "button", class: "small", "aria-label": `Record ${record.id}: why and when`, onclick: () => look(record.id) }, record.id)),
    cell(record.kind),
    cell(how, record.how === "pending" ? null : tone(record.how)),
    cell(reason(record, live), "many"),
    cell(shortMoment(record.started)),
    element("td", { "data-since": live?.started }, record.finished === null ? "" : duration(record.finished - record.started)),
    cell(`${record.acks} of ${record.shape.reduce((sum, width) => sum + width, 0)}`),
    cell(after(record, record.first_ack)),
    cell(record.median === null ? "" : duration(record.median)),
    cell(record.p99 === null ? "" : duration(record.p99)),
    cell(slowest(record)),
    cell(record.full_bytes === null ? "" : bytes(record.full_bytes)),
    cell(record.fresh_bytes === null ? "" : bytes(record.fresh_bytes)),
    cell(snapshots(record)),
    cell(kept, "many"),
  );
}

export function fileButtons(files, look) {
  if (files.length === 0) return ["none"];
  return files.map((row) => element("button", { type: "button", class: "file", onclick: () => look(row.file) }, row.file));
}

function step(word, entry, more) {
  return entry ? element("li", {}, element("strong", {}, word), ` ${moment(entry.at)}, call ${entry.seq}: ${entry.line.slice(0, 120)} → ${entry.answer.slice(0, 120)}`, more ?? null) : null;
}

// The text for a file of which no call is known. The log begins with the call `first`.
function unknown(told, first) {
  if (told.uses > 0) return "Who wrote it is not known any more.";
  return first > 1 ? `No call has named it, or it was deleted before call ${first}, with which the log begins.` : "No call has named it.";
}

export function fileHistory(told, first) {
  const size = told.bytes === null ? "" : `, ${bytes(told.bytes)}`;
  const uses = told.uses === null ? "memory ran out while its uses were counted" : `${told.uses} uses`;
  const pins = told.pins > 0 ? `, ${told.pins} of them by pending records that build on it` : "";
  const history = told.history;
  const by = told.used_by.map((use) => element("li", {}, `record ${use.record}, subtask ${use.subtask}`));
  const steps = history
    ? [
        step("Written", history.born),
        step("Released", history.released, history.why ? element("div", { class: "why" }, `Why: ${history.why}`) : null),
        step("Taken", history.taken),
        step("Deleted", history.deleted),
      ].filter(Boolean)
    : [];
  return [
    element("p", {}, element("strong", {}, `File ${told.file}: `), uses + pins + size),
    by.length > 0 ? element("ul", { class: "uses" }, ...by) : "",
    steps.length > 0 ? element("ol", { class: "steps" }, ...steps) : element("p", {}, unknown(told, first)),
  ];
}
