// The records of a job: their pages, a search, and one record with the times of its subtasks.
import { get } from "./api.js";
import { bytes, duration, element, fill, moment } from "./views.js";

const SUBTASKS = 20;

const at = (id) => document.getElementById(id);
// The pages before the one that is shown, by the numbers that their records are below.
const page = { job: null, before: null, newer: [], rows: null };

function search() {
  const word = (name) => (at(name).value === "" ? "" : `&${name}=${encodeURIComponent(at(name).value)}`);
  return word("how") + word("kind");
}

// How many rows a page has at most.
function most() {
  return Number(at("most").value);
}

// Whether the newest records of a look are the page that was asked for.
function isFirst(newest) {
  return page.before === null && search() === "" && most() <= newest;
}

// The records to show: of the newest ones of a look, which has at most so many, or those of the page that was asked for.
export async function rows(job, newest, looked) {
  if (page.job !== job.name) Object.assign(page, { job: job.name, before: null, newer: [] });
  if (isFirst(looked)) {
    page.rows = newest.slice(0, most());
  } else {
    const before = page.before === null ? "" : `&before=${page.before}`;
    page.rows = (await get(`/jobs/${job.name}/records?limit=${most()}${before}${search()}`)).records;
  }
  at("newer").disabled = page.newer.length === 0;
  at("older").disabled = page.rows.length < most();
  at("no-records").hidden = page.rows.length > 0;
  at("page-says").textContent = page.rows.length === 0 ? "" : `records ${page.rows[0].id} to ${page.rows[page.rows.length - 1].id}`;
  return page.rows;
}

// Sets up the buttons; `look` shows the page anew.
export function start(look) {
  at("older").addEventListener("click", () => {
    page.newer.push(page.before);
    page.before = page.rows[page.rows.length - 1].id;
    look();
  });
  at("newer").addEventListener("click", () => {
    page.before = page.newer.pop();
    look();
  });
  for (const name of ["how", "kind", "most"]) {
    at(name).addEventListener("change", () => {
      Object.assign(page, { before: null, newer: [] });
      look();
    });
  }
  at("record-form").addEventListener("submit", (event) => {
    event.preventDefault();
    showRecord(page.job, at("record-number").value);
  });
}

// Why a record ended as it did.
export function why(record, settings) {
  const lack = record.missing.join(", ") + (record.more_missing > 0 ? ` and ${record.more_missing} more` : "");
  switch (record.how) {
    case "pending":
      return "It waits for acknowledgements.";
    case "completed":
      return record.gone === null ? "Each subtask acknowledged it, and it is kept." : `Each subtask acknowledged it. It is no longer kept since ${moment(record.gone)}: ${record.why}.`;
    case "expired":
      return `It expired: within its timeout of ${duration(settings.timeout)} there was no acknowledgement of ${lack}.`;
    case "declined":
      return `Subtask ${(record.why ?? "").replace("declined by ", "")} declined it${record.reason === null ? "." : `: ${record.reason}`}`;
    case "failed over":
      return `Too many checkpoints failed in a row, so the job failed and dropped it. It lacked ${lack}.`;
    case "subsumed":
      return `A later checkpoint completed before it. It lacked ${lack}.`;
    case "restored":
      return `The job was restored meanwhile. It lacked ${lack}.`;
    default:
      return `The job was cancelled meanwhile. It lacked ${lack}.`;
  }
}

function ackRow(ack) {
  const cell = (text) => element("td", {}, text);
  const size = ack.full_bytes === null ? "" : `${bytes(ack.full_bytes)}, new ${bytes(ack.fresh_bytes)}`;
  return element("tr", {}, element("th", { scope: "row" }, ack.subtask), cell(duration(ack.took)), cell(ack.fresh), cell(ack.reused), cell(size));
}

// The times of a record's subtasks, from its trigger on.
function times(acks) {
  if (acks.count === 0) return [element("p", {}, "The log has no acknowledgement of it.")];
  const fact = (name, value) => element("div", {}, element("dt", {}, name), element("dd", { "data-time": name }, duration(value)));
  const head = ["Subtask", "Acknowledged after", "New files", "Used again", "Size"].map((name) => element("th", { scope: "col" }, name));
  return [
    element("dl", {}, fact("First", acks.first), fact("Median", acks.median), fact("99 of 100", acks.p99), fact("Slowest", acks.slowest)),
    acks.are_all ? null : element("p", { class: "other" }, "The log has cut some of its acknowledgements: these are those of the rest."),
    element("div", { class: "wide", role: "region", "aria-label": "Subtasks, the slowest first", tabindex: "0" },
      element("table", {}, element("caption", {}, `The slowest ${acks.acks.length} of ${acks.count} subtasks`), element("thead", {}, element("tr", {}, ...head)),
        element("tbody", { id: "acks" }, ...acks.acks.map(ackRow)))),
  ].filter(Boolean);
}

function details(record, settings, acks) {
  const size = record.full_bytes === null ? null : element("p", { id: "record-size" }, `Its files have ${bytes(record.full_bytes)}, of which ${bytes(record.fresh_bytes)} are new.`);
  return [
    element("h4", { id: "record-title", tabindex: "-1" }, `${record.kind} ${record.id}, triggered ${moment(record.started)}`),
    element("p", { id: "record-why" }, why(record, settings)),
    size,
    ...times(acks),
  ].filter(Boolean);
}

// Shows one record, and moves the focus there.
export async function showRecord(job, id) {
  try {
    const [told, acks, state] = await Promise.all([
      get(`/jobs/${job}/records/${id}`), get(`/jobs/${job}/records/${id}/acks?limit=${SUBTASKS}`), get(`/jobs/${job}`),
    ]);
    fill(at("record"), details(told.history, state.settings, acks));
    at("record-title").focus();
  } catch (error) {
    fill(at("record"), [element("p", { class: "bad" }, error.message)]);
  }
}
