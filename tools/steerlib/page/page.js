"use strict";

// Places are whole numbers along the axis: ticks of `unit` nanoseconds, or packet numbers.
// A view is a part of the axis, [low, high), in columns of one size.

const DROPPED = 1, MOVED = 2, PULL = 32, ARRIVAL = 64;
const COLUMN_WIDTH = 4, MOST_COLUMNS = 400, FEWEST_COLUMNS = 8, ROWS_OF_AN_AXIS = 8;

const find = (id) => document.getElementById(id);

function add(parent, tag, name, text) {
  const element = document.createElement(tag);
  if (name) element.className = name;
  if (text !== undefined) element.textContent = text;
  parent.append(element);
  return element;
}

async function unpack(text) {
  const letters = atob(text), packed = new Uint8Array(letters.length);
  for (let at = 0; at < packed.length; at++) packed[at] = letters.charCodeAt(at);
  const stream = new Blob([packed]).stream().pipeThrough(new DecompressionStream("deflate"));
  return new Uint8Array(await new Response(stream).arrayBuffer());
}

// The places of packets, from the bytes of their distances: the lowest bytes of all come first.
function placesOf(bytes, count) {
  const places = new Float64Array(count);
  for (let packet = 0, place = 0; packet < count; packet++) {
    place += bytes[packet] + bytes[count + packet] * 256
      + (bytes[2 * count + packet] + bytes[3 * count + packet] * 256) * 65536;
    places[packet] = place;
  }
  return places;
}

async function load() {
  const data = JSON.parse(find("data").textContent);
  for (const name of Object.keys(data.columns)) {
    data.columns[name] = await unpack(data.columns[name]);
  }
  const time = data.columns.time;
  data.places = time ? placesOf(time, data.packets)
    : Float64Array.from({length: data.packets}, (_, packet) => packet);
  return data;
}

// The first packet at a place or behind it.
function firstAt(places, place) {
  let low = 0, high = places.length;
  while (low < high) {
    const middle = (low + high) >> 1;
    if (places[middle] < place) low = middle + 1; else high = middle;
  }
  return low;
}

// The numbers of 1, 2 and 5 times powers of ten next to a number: not below it, and not above it.
function roundUp(value) {
  const power = 10 ** Math.floor(Math.log10(value));
  return power * [1, 2, 5, 10].find((factor) => factor * power >= value * (1 - 1e-9));
}

function roundDown(value) {
  const power = 10 ** Math.floor(Math.log10(value) + 1e-9);
  return power * [5, 2, 1].find((factor) => factor * power <= value * (1 + 1e-9));
}

function viewOf(data, low, high, width) {
  const most = Math.min(Math.max(Math.floor(width / COLUMN_WIDTH), 40), MOST_COLUMNS);
  const unit = data.unit || 1;
  const least = Math.min(FEWEST_COLUMNS, data.end);
  if (high - low < least) high = low + least;
  if (high > data.end) { low -= high - data.end; high = data.end; }
  low = Math.max(low, 0);
  const size = Math.max(roundUp((high - low) * unit / most) / unit, 1);
  const first = Math.floor(low / size);
  return {low, high, size, first, columns: Math.max(Math.ceil(high / size) - first, 1)};
}

const columnOf = (view, place) => Math.floor(place / view.size) - view.first;

// Counts of the packets in each column: of processors, queues and moves, by `flow` where it is set.
function count(data, view, flow) {
  const {cpu, queue, mark} = data.columns, flows = data.columns.flow;
  const zeros = () => new Uint32Array(view.columns);
  const fresh = (numbers) => new Map(numbers.map((of) => [of, {all: zeros(), dropped: zeros()}]));
  const counts = {cpu: fresh(data.cpus), queue: fresh(data.queues), drops: fresh([0]),
    moves: fresh([0])};
  const cpus = Array.from({length: 256}, (_, of) => counts.cpu.get(of));
  const queues = Array.from({length: 256}, (_, of) => counts.queue.get(of));
  const drops = counts.drops.get(0).all, moves = counts.moves.get(0).all;
  const last = firstAt(data.places, (view.first + view.columns) * view.size);
  for (let packet = firstAt(data.places, view.first * view.size); packet < last; packet++) {
    if (flow >= 0 && flows[packet] !== flow) continue;
    const column = Math.min(Math.max(columnOf(view, data.places[packet]), 0), view.columns - 1);
    const ofCpu = cpus[cpu[packet]], ofQueue = queues[queue[packet]];
    if (ofCpu) ofCpu.all[column]++;
    ofQueue.all[column]++;
    if (mark[packet] & DROPPED) {
      ofCpu.dropped[column]++;
      ofQueue.dropped[column]++;
      drops[column]++;
    }
    if (mark[packet] & MOVED) moves[column]++;
  }
  if (data.columns.events) counts.backlog = longest(data, view);
  return counts;
}

// The longest backlog of each processor in each column, which begins as the one before it ended.
function longest(data, view) {
  const lengths = new Int32Array(PULL);
  const series = new Map(data.cpus.map((cpu) => [cpu, {all: new Uint32Array(view.columns)}]));
  const lists = Array.from({length: PULL}, (_, cpu) => series.has(cpu) && series.get(cpu).all);
  let packet = 0, column = -1;
  for (const event of data.columns.events) {
    if (event === ARRIVAL) {
      const next = Math.min(columnOf(view, data.places[packet++]), view.columns);
      while (column < next) {
        if (++column >= 0 && column < view.columns) {
          for (const [cpu, found] of series) found.all[column] = lengths[cpu];
        }
      }
      if (column >= view.columns) break;
    } else if (event >= PULL) {
      lengths[event - PULL]--;
    } else if (++lengths[event] && column >= 0) {
      if (lists[event][column] < lengths[event]) lists[event][column] = lengths[event];
    }
  }
  while (column < view.columns - 1) {
    if (++column >= 0) for (const [cpu, found] of series) found.all[column] = lengths[cpu];
  }
  return series;
}

const number = new Intl.NumberFormat("en");
const counted = (value, word) => number.format(value) + " " + word + (value === 1 ? "" : "s");

// A place as text: a time with digits down to `size`, or a packet number.
function placeText(data, place, size) {
  if (!data.unit) return number.format(Math.ceil(place));
  const digits = Math.max(0, Math.min(9, -Math.floor(Math.log10(size * data.unit / 1e9) + 1e-9)));
  return (place * data.unit / 1e9).toFixed(digits) + " s";
}

// A part of the axis as text, such as `0.1 s to 0.2 s` or `packets 3 to 5`.
function rangeText(data, low, high, size) {
  const first = placeText(data, low, size);
  const last = placeText(data, data.unit ? high : high - 1, size);
  if (data.unit) return first + " to " + last;
  return first === last ? "packet " + first : "packets " + first + " to " + last;
}

function lengthText(data, size) {
  if (!data.unit) return counted(Math.round(size), "packet");
  const length = size * data.unit;
  for (const [unit, name] of [[1e9, "s"], [1e6, "ms"], [1e3, "\u00b5s"], [1, "ns"]]) {
    if (length >= unit) return Number((length / unit).toPrecision(3)) + " " + name;
  }
  return length + " ns";
}

const GROUPS = [
  {kind: "cpu", title: "Packets of each processor", label: "cpu ", color: "accepted",
    keys: [["accepted", "not dropped"], ["dropped", "dropped"]]},
  {kind: "backlog", title: "Longest backlog of each processor, all flows", label: "cpu ",
    color: "backlog", keys: []},
  {kind: "queue", title: "Packets of each receive queue", label: "queue ", color: "queue",
    keys: [["queue", "not dropped"], ["dropped", "dropped"]]},
  {kind: "drops", title: "Dropped packets of all processors", label: "drops", color: "dropped",
    unit: "packet", keys: []},
  {kind: "moves", title: "Moves of flows to another processor", label: "moves", color: "moved",
    unit: "move", keys: []},
];

class Charts {
  constructor(data) {
    this.data = data;
    this.flow = -1;
    this.column = null;
    this.rows = [];
    this.pending = false;
    this.place = find("charts");
    this.seen = new IntersectionObserver((entries) => this.see(entries), {rootMargin: "200px"});
    for (const group of GROUPS) this.addGroup(group);
    this.listen();
    this.show(0, data.end);
  }

  numbersOf(kind) {
    if (kind === "drops" || kind === "moves") return [0];
    if (kind === "queue") return this.data.queues;
    return kind === "cpu" || this.data.columns.events ? this.data.cpus : [];
  }

  addGroup(group) {
    const numbers = this.numbersOf(group.kind);
    if (!numbers.length) return;
    const heading = add(this.place, "h3", "", group.title + " ");
    for (const [name, text] of group.keys) {
      add(heading, "span", "key", text).style.setProperty("--of", "var(--" + name + ")");
    }
    numbers.forEach((of, index) => {
      const below = index + 1;
      const hasAxis = below === numbers.length || below % ROWS_OF_AN_AXIS === 0;
      const element = add(this.place, "div", hasAxis ? "row axis" : "row");
      add(element, "div", "name", group.label + (group.unit ? "" : of));
      const chart = add(element, "div", "chart");
      const row = {group, of, hasAxis, chart, value: add(element, "div", "value"), near: false,
        stacked: group.keys.length > 0};
      chart.setAttribute("aria-hidden", "true");
      row.plot = add(chart, "div");
      row.plot.style.cssText = "width:100%;height:100%";
      row.band = add(chart, "div", "band");
      row.band.hidden = true;
      chart.addEventListener("pointermove", (event) => this.point(row, event));
      chart.addEventListener("pointerleave", () => this.mark(null));
      this.rows.push(row);
      this.seen.observe(chart);
    });
  }

  see(entries) {
    for (const entry of entries) {
      const row = this.rows.find((candidate) => candidate.chart === entry.target);
      row.near = entry.isIntersecting;
      if (row.near && row.stale) this.draw(row);
    }
    this.placeBands();
  }

  // Shows a part of the axis; all charts follow.
  show(low, high) {
    const width = this.rows[0].chart.clientWidth - 60;
    this.view = viewOf(this.data, low, high, width);
    this.counts = count(this.data, this.view, this.flow);
    this.tops = {};
    for (const {kind} of GROUPS) {
      this.tops[kind] = 1;
      for (const series of (this.counts[kind] || new Map()).values()) {
        for (const value of series.all) this.tops[kind] = Math.max(this.tops[kind], value);
      }
    }
    for (const row of this.rows) {
      row.stale = true;
      if (row.near) this.draw(row);
    }
    const {view, data} = this;
    find("window").textContent = rangeText(data, view.low, view.high, view.size)
      + "; a column is " + lengthText(data, view.size);
    this.mark(null);
  }

  seriesOf(row) {
    return this.counts[row.group.kind].get(row.of);
  }

  // The points of a row; the last one ends the last column.
  pointsOf(row) {
    const {view} = this, series = this.seriesOf(row), points = [];
    for (let column = 0; column <= view.columns; column++) {
      const x = (view.first + column) * view.size;
      const all = column < view.columns ? series.all[column] : 0;
      const dropped = series.dropped && column < view.columns ? series.dropped[column] : 0;
      points.push(row.stacked ? [x, dropped, all - dropped] : [x, all]);
    }
    return points;
  }

  optionsOf(row) {
    const style = getComputedStyle(document.documentElement);
    const color = (name) => style.getPropertyValue("--" + name).trim();
    const {view, data} = this, top = this.tops[row.group.kind];
    return {
      file: this.pointsOf(row),
      dateWindow: [view.low, view.high],
      colors: (row.stacked ? ["dropped", row.group.color] : [row.group.color]).map(color),
      axisLineColor: color("line"),
      gridLineColor: color("grid"),
      axes: {
        x: {drawAxis: row.hasAxis, axisLabelFormatter: (place) => data.unit
          ? Number((place * data.unit / 1e9).toPrecision(10)) + " s" : number.format(place),
        axisLabelWidth: 80, pixelsPerLabel: 80, ticker: (low, high, pixels, get) =>
          this.ticks(low, high, pixels, get)},
        y: {valueRange: [0, top * 1.08], axisLabelWidth: 46, ticker: () =>
          [0, roundDown(top)].map((value) => ({v: value, label: number.format(value)}))},
      },
    };
  }

  // Ticks at round times and not at round ticks of the clock.
  ticks(low, high, pixels, get) {
    const unit = (this.data.unit || 1e9) / 1e9;
    return Dygraph.numericLinearTicks(low * unit, high * unit, pixels, (name) =>
      name === "axisLabelFormatter" ? (value) => get(name)(value / unit) : get(name))
      .map((tick) => tick.v === undefined ? tick : {...tick, v: tick.v / unit});
  }

  draw(row) {
    row.stale = false;
    const options = this.optionsOf(row);
    if (row.graph) {
      row.graph.updateOptions(options);
      return;
    }
    const {file, ...others} = options;
    row.graph = new Dygraph(row.plot, file, {
      ...others, labels: row.stacked ? ["x", "dropped", "accepted"] : ["x", "count"],
      stackedGraph: row.stacked, stepPlot: true, fillGraph: true, fillAlpha: .85,
      strokeWidth: 1, legend: "never", highlightCircleSize: 0, xRangePad: 0, rightGap: 2,
      xAxisHeight: 20, drawCallback: (graph, isInitial) => isInitial || this.follow(graph),
      zoomCallback: (low, high) => this.show(low, high),
      interactionModel: {...Dygraph.defaultInteractionModel,
        dblclick: () => this.show(0, this.data.end)},
    });
  }

  // A chart was moved by pointer: the others follow in the next frame.
  follow(graph) {
    const differs = () => graph.xAxisRange().some((place, end) =>
      Math.abs(place - (end ? this.view.high : this.view.low)) > 1e-6);
    if (this.pending || !differs()) return;
    this.pending = true;
    requestAnimationFrame(() => {
      this.pending = false;
      if (differs()) this.show(...graph.xAxisRange());
    });
  }

  // Zooms at the mark, which stays where it is, or else at the middle.
  zoom(factor) {
    const {view} = this, {low, high} = view, width = (high - low) * factor;
    const marked = this.column !== null;
    const at = marked ? (view.first + this.column + .5) * view.size : (low + high) / 2;
    const start = Math.max(Math.min(at - width * (at - low) / (high - low),
      this.data.end - width), 0);
    this.show(start, Math.min(start + width, this.data.end));
    if (marked) this.mark(Math.max(0, Math.min(columnOf(this.view, at), this.view.columns - 1)));
  }

  move(part) {
    const {low, high} = this.view, width = high - low;
    const start = Math.max(Math.min(low + part * width, this.data.end - width), 0);
    this.show(start, start + width);
  }

  point(row, event) {
    if (!row.graph || event.buttons) return;
    const x = event.clientX - row.chart.getBoundingClientRect().left;
    const place = row.graph.toDataXCoord(x);
    const {view} = this;
    this.mark(place < view.low || place >= view.high ? null : columnOf(view, place));
  }

  // Marks a column in all charts and shows its numbers, or those of the whole view.
  mark(column) {
    this.column = column;
    for (const row of this.rows) {
      const series = this.seriesOf(row);
      const [all, dropped] = [series.all, series.dropped].map((values) => !values ? 0
        : column !== null ? values[column] : row.group.kind === "backlog" ? Math.max(...values)
          : values.reduce((sum, value) => sum + value, 0));
      this.say(row, all, dropped);
    }
    this.placeBands();
    find("mark").textContent = column === null ? "" : this.columnText();
  }

  say(row, all, dropped) {
    if (row.group.kind === "backlog") {
      row.value.textContent = "longest " + number.format(all) + " of "
        + number.format(this.data.limit);
      return;
    }
    row.value.textContent = counted(all, row.group.unit || "packet");
    if (dropped) add(row.value, "span", "dropped", ", " + number.format(dropped) + " dropped");
  }

  columnText() {
    const {view, data} = this, low = (view.first + this.column) * view.size;
    const {drops, moves, queue} = this.counts;
    let all = 0;
    for (const series of queue.values()) all += series.all[this.column];
    const rate = data.unit ? " (" + number.format(Math.round(
      all * 1e9 / view.size / data.unit)) + "/s)" : "";
    return rangeText(data, low, low + view.size, view.size) + ": " + counted(all, "packet")
      + rate + ", " + number.format(drops.get(0).all[this.column]) + " dropped, "
      + counted(moves.get(0).all[this.column], "move");
  }

  placeBands() {
    const {view, column} = this;
    for (const row of this.rows) {
      row.band.hidden = column === null || !row.graph || !row.near;
      if (row.band.hidden) continue;
      const low = Math.max((view.first + column) * view.size, view.low);
      const high = Math.min((view.first + column + 1) * view.size, view.high);
      const left = row.graph.toDomXCoord(low);
      row.band.style.left = left + "px";
      row.band.style.width = Math.max(row.graph.toDomXCoord(high) - left, 1) + "px";
    }
  }

  // Moves the mark by keyboard; the first step begins at an end of the view.
  step(by) {
    const last = this.view.columns - 1;
    const from = this.column === null ? (by > 0 ? -1 : last + 1) : this.column;
    this.mark(Math.max(0, Math.min(from + by, last)));
    this.speak();
  }

  speak() {
    find("spoken").textContent = this.column === null ? find("window").textContent
      : find("mark").textContent + "; " + this.rows.filter((row) => row.group.kind === "cpu"
        || row.group.kind === "backlog").map((row) => row.group.label + row.of + " "
        + row.value.textContent).join("; ");
  }

  listen() {
    const all = () => this.show(0, this.data.end);
    const actions = {in: () => this.zoom(1 / 2), out: () => this.zoom(2),
      earlier: () => this.move(-1 / 2), later: () => this.move(1 / 2), all};
    for (const name of Object.keys(actions)) {
      find(name).addEventListener("click", () => { actions[name](); this.speak(); });
    }
    const keys = {"+": actions.in, "=": actions.in, "-": actions.out, "0": all, Escape: all,
      PageUp: actions.earlier, PageDown: actions.later};
    this.place.addEventListener("keydown", (event) => {
      if (event.ctrlKey || event.altKey || event.metaKey) return;
      const steps = {ArrowLeft: -1, ArrowRight: 1, Home: -Infinity, End: Infinity};
      if (event.key in steps) this.step(steps[event.key]);
      else if (event.key in keys) { keys[event.key](); this.speak(); }
      else return;
      event.preventDefault();
    });
    this.choose();
    matchMedia("(prefers-color-scheme: dark)").addEventListener("change", () => this.again());
    addEventListener("resize", () => this.again());
  }

  again() {
    this.show(this.view.low, this.view.high);
  }

  choose() {
    const list = find("flow");
    ["all flows", ...this.data.flows].forEach((name, index) => {
      add(list, "option", "", name).value = String(index - 1);
    });
    find("choice").hidden = !this.data.flows.length;
    list.addEventListener("change", () => { this.flow = Number(list.value); this.again(); });
  }
}

(async () => {
  try {
    const data = await load();
    find("over").hidden = false;
    window.steerPage = new Charts(data);
  } catch (fault) {
    find("over").hidden = true;
    find("fault").hidden = false;
    find("fault").textContent = "The charts cannot be drawn here (" + fault.message
      + "); the tables have their numbers.";
  }
})();
