// The two charts, in the page's colours.
import { moment, tone } from "./views.js";

Chart.defaults.font.size = 14;

function colour(name) {
  return getComputedStyle(document.documentElement).getPropertyValue(`--${name}`).trim();
}

function axes(title) {
  const ticks = { color: colour("faint"), maxTicksLimit: 6, maxRotation: 0, autoSkipPadding: 24 };
  const grid = { color: colour("line") };
  return {
    x: { ticks: { ...ticks, autoSkip: true }, grid: { display: false } },
    y: { beginAtZero: true, ticks: { ...ticks, precision: title === "files" ? 0 : undefined }, grid, title: { display: true, text: title, color: colour("faint") } },
  };
}

function options(title, legend) {
  return {
    animation: false,
    responsive: true,
    maintainAspectRatio: false,
    interaction: { mode: "index", intersect: false },
    plugins: { legend: { display: legend, labels: { color: colour("text"), boxWidth: 14 } } },
    scales: axes(title),
  };
}

function clock(at) {
  return new Date(at).toLocaleTimeString();
}

// Pixels that a time takes under a chart.
const TIME_WIDTH = 120;

export function durations(canvas) {
  return new Chart(canvas, { type: "bar", data: { labels: [], datasets: [{ label: "seconds", data: [] }] }, options: options("seconds", false) });
}

// The time runs along the axis, so the lines are as long as what they show took.
export function counts(canvas) {
  const line = (label, name) => ({ label, data: [], borderColor: colour(name), backgroundColor: colour(name), borderWidth: 2, pointRadius: 0, stepped: true });
  const datasets = [line("in use", "accent"), line("waiting", "other"), line("taken", "bad")];
  const given = options("files", true);
  given.scales.x = { ...given.scales.x, type: "linear", ticks: { ...given.scales.x.ticks, callback: (at) => clock(at) } };
  given.plugins.tooltip = { callbacks: { title: (points) => moment(points[0].parsed.x) } };
  return new Chart(canvas, { type: "line", data: { datasets }, options: given });
}

// The records that ended, the oldest at the left.
export function showDurations(chart, records) {
  const ended = records.filter((record) => record.finished !== null).reverse();
  chart.data.labels = ended.map((record) => `${record.kind === "savepoint" ? "S" : ""}${record.id}`);
  const bars = chart.data.datasets[0];
  bars.data = ended.map((record) => (record.finished - record.started) / 1000);
  bars.backgroundColor = ended.map((record) => colour(tone(record.how)));
  chart.options.plugins.tooltip = {
    callbacks: { label: (bar) => `${ended[bar.dataIndex].kind} ${ended[bar.dataIndex].how}, ${bar.formattedValue} s` },
  };
  chart.update();
}

// The samples from the oldest to the present state.
export function showCounts(chart, samples) {
  ["in_use", "waiting", "taken"].forEach((name, place) => {
    chart.data.datasets[place].data = samples.map((sample) => ({ x: sample.at, y: sample[name] }));
  });
  const axis = chart.options.scales.x;
  [axis.min, axis.max] = [samples[0].at, samples[samples.length - 1].at];
  // as many times as fit beside each other
  axis.ticks.maxTicksLimit = Math.min(6, Math.max(2, Math.floor(chart.width / TIME_WIDTH)));
  chart.update();
}
