// The page's loop: it reads the state of the jobs, shows it, and waits for what the job's stream tells.
import * as actions from "./actions.js";
import { get, hasToken, keepToken, stream } from "./api.js";
import * as charts from "./charts.js";
import * as records from "./records.js";
import * as views from "./views.js";

const SELDOM = 15_000; // milliseconds between two looks if nothing comes: other jobs are not in the stream
const SLOWEST = 2000; // if there is no stream
const FASTEST = 250;
const RECORDS = 60; // in the chart
const ROWS = 25; // in a table
const SAMPLES = 600;
const FILES = 40;

const at = (id) => document.getElementById(id);
// `told` is what is shown, of the moment `last`.
const shown = { job: null, first: 1, charts: null, wake: null, last: null, told: null, termAt: null };
// The stream of a job: its name, how to end it, and whether it told something since the last look, or a user wants one.
const heard = { job: null, ended: null, news: false };

function chosen() {
  return location.hash.startsWith("#/jobs/") ? location.hash.slice(7) : null;
}

function say(text, isBad) {
  // a reader of the screen tells each change
  if (at("status").textContent !== text) at("status").textContent = text;
  at("status").classList.toggle("bad", isBad);
}

// Shows a list, or the words for an empty one.
function list(name, items, empty) {
  views.fill(at(name), items);
  at(empty).hidden = items.length > 0;
}

// Has the next look come at once, also if one is under way.
function look() {
  heard.news = true;
  shown.wake?.();
}

// What changes while nothing is told.
function showTimes() {
  const { job, pending } = shown.told;
  const now = job.now + (Date.now() - shown.last);
  views.fill(at("facts"), views.facts({ ...job, now }, pending));
  list("pending", pending.map((record) => views.pending(record, now)), "nothing-pending");
  // the rows stay, so that a click on one is not lost
  for (const cell of at("records").querySelectorAll("td[data-since]")) cell.textContent = views.soFar(now - Number(cell.dataset.since));
  at("moment").textContent = `· ${new Date().toLocaleTimeString()}`;
}

function act(action) {
  actions.ask(action, (text) => {
    at("done").textContent = text;
    look();
  });
}

function showJob(told, rows) {
  const job = told.job;
  at("job-name").textContent = job.name;
  at("hint").textContent = views.hint(job);
  at("hint").hidden = at("hint").textContent === "";
  const doing = views.doing(job);
  for (const id of ["do-checkpoint", "do-savepoint"]) at(id).disabled = doing !== "running";
  at("do-stop").disabled = doing !== "running";
  at("do-begin").disabled = doing !== "stopped";
  at("do-settings").disabled = job.mode === "cancelled";
  at("do-restore").disabled = job.mode === "cancelled" || doing === "stopped";
  at("do-cancel").disabled = job.mode === "cancelled";
  at("do-delete").disabled = job.mode === "running";
  // an event since may have ended the term
  if (job.last_event !== shown.termAt) at("term").textContent = "";
  list("savepoints", told.savepoints.map((one) => views.savepoint(one, job.choice, (id) => act(actions.dispose(job, id)))), "no-savepoints");
  views.fill(at("records"), rows.map((record) => views.recordRow(record, told.pending, (id) => records.showRecord(job.name, id))));
  showTimes();
  views.fill(at("taken"), views.fileButtons(told.taken, lookUp));
  views.fill(at("deleted"), views.fileButtons(told.deleted, lookUp));
  at("upto").textContent = views.progress(told.upto, job.seq);
  at("upto").classList.toggle("bad", views.lags(told.upto, job.seq));
  at("job").hidden = false;
  shown.charts ??= { durations: charts.durations(at("durations")), counts: charts.counts(at("counts")) };
  charts.showDurations(shown.charts.durations, told.records);
  const samples = views.samples(told.samples, job);
  charts.showCounts(shown.charts.counts, samples);
  views.fill(at("count-rows"), samples.slice(-ROWS).reverse().map(views.sampleRow));
}

// A job that is kept out, if it was chosen.
function showDamage(job) {
  at("damaged").hidden = job === undefined;
  at("damaged-title").textContent = job?.name ?? "";
  at("damage").textContent = job?.why ?? "";
}

async function show() {
  const name = chosen();
  const told = await get(`/view${name === null ? "" : `/${name}`}?records=${RECORDS}&samples=${SAMPLES}&files=${FILES}`);
  const [job, last] = [told.job, Date.now()];
  const rows = job ? await records.rows(job, told.records, RECORDS) : [];
  Object.assign(shown, { told, last });
  at("no-jobs").hidden = told.jobs.length + told.damaged.length > 0 || told.replay !== null;
  const links = told.damaged.map((one) => views.damagedLink(one, one.name === name));
  views.fill(at("jobs"), [...links, ...told.jobs.map((one) => views.jobLink(one, job !== null && one.name === job.name))]);
  showDamage(told.damaged.find((one) => one.name === name));
  if (job) {
    if (shown.job !== job.name) for (const id of ["file", "record", "term"]) at(id).replaceChildren();
    shown.job = job.name;
    shown.first = job.first;
    showJob(told, rows);
  } else {
    at("job").hidden = true;
  }
  const started = told.replay === null ? "" : ` · the service has started: ${told.replay.replayed} of ${told.replay.jobs} jobs are replayed`;
  say(`live · epoch ${told.epoch}${started}`, false);
  return job;
}

async function lookUp(file) {
  at("file-number").value = file;
  try {
    at("file").replaceChildren(...views.fileHistory(await get(`/jobs/${shown.job}/files/${file}`), shown.first));
  } catch (error) {
    at("file").replaceChildren(views.element("p", { class: "bad" }, error.message));
  }
}

// The term is for whoever starts tasks, so it is asked for, with a write token, and is in nothing else that the page reads.
async function showTerm() {
  shown.termAt = shown.told.job.last_event;
  try {
    const told = await get(`/jobs/${shown.job}/term`);
    at("term").textContent = `The term is ${told.term}: each restore ends it. Tasks learn it where they are started.`;
  } catch (error) {
    at("term").textContent = error.status === 401 || error.status === 403 ? "The term needs a write token." : error.message;
  }
}

// Hears the stream of this job, if it is not heard already.
function hear(job) {
  if (heard.job === job.name) return;
  heard.ended?.abort();
  const ended = new AbortController();
  Object.assign(heard, { job: job.name, ended });
  const over = () => {
    if (heard.ended === ended) heard.job = null;
    shown.wake?.();
  };
  stream(`/jobs/${job.name}/stream?after=${job.seq}&log=${job.log}`, look, ended.signal).then(over, over);
}

function pause(milliseconds) {
  return new Promise((resolve) => setTimeout(resolve, milliseconds));
}

// Waits until the job's stream tells something, a user does, or a time is over.
async function waited(job) {
  const wake = new Promise((resolve) => (shown.wake = resolve));
  if (job) hear(job);
  if (!heard.news) await Promise.race([wake, pause(job && shown.told.replay === null ? SELDOM : SLOWEST)]);
  heard.news = false;
  // a stream that ended at once is not opened again at once
  if (job && heard.job === null) await pause(SLOWEST);
}

// What stands on the page is of an earlier look: it is greyed, and says so.
function showOld(error) {
  const old = shown.last === null ? "" : `; what is shown is of ${new Date(shown.last).toLocaleTimeString()}`;
  document.body.classList.toggle("old", shown.last !== null);
  at("moment").textContent = "";
  at("token").hidden = error.status !== 401;
  at("leader").hidden = error.leader === null || error.leader === undefined;
  if (!at("leader").hidden) {
    at("leader-link").textContent = error.leader;
    at("leader-link").href = /^https?:/.test(error.leader) ? error.leader : `${location.protocol}//${error.leader}`;
  }
  const wants = hasToken() ? "the service does not take this token" : "a token is needed: one to read shows, one to write also acts";
  say((error.status === 401 ? wants : error.message) + old, true);
}

async function live() {
  for (;;) {
    let job = null;
    try {
      job = await show();
      document.body.classList.remove("old");
      at("token").hidden = true;
      at("leader").hidden = true;
    } catch (error) {
      showOld(error);
    }
    await waited(job);
    await pause(FASTEST);
  }
}

at("token").addEventListener("submit", (event) => {
  event.preventDefault();
  keepToken(at("token-text").value);
  look();
});
at("file-form").addEventListener("submit", (event) => {
  event.preventDefault();
  lookUp(at("file-number").value);
});
const asked = { ...actions, delete: actions.remove };
for (const verb of ["checkpoint", "savepoint", "stop", "begin", "settings", "restore", "cancel", "delete"]) {
  at(`do-${verb}`).addEventListener("click", () => act(asked[verb](shown.told.job, shown.told.savepoints)));
}
at("do-term").addEventListener("click", showTerm);
addEventListener("hashchange", look);
matchMedia("(prefers-color-scheme: dark)").addEventListener("change", () => location.reload());
setInterval(() => {
  if (shown.told?.job && !document.body.classList.contains("old")) showTimes();
}, 1000);
records.start(look);
live();
