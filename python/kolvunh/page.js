"use strict";
window.onerror = (message, _, line) => { document.body.dataset.fault = `${message} (${line})`; };

const data = JSON.parse(document.getElementById("data").textContent);
const find = (id) => document.getElementById(id);
const END = data.seconds, LEFT = 74, RIGHT = 24;
const SERIES = ["#0072b2", "#d55e00", "#009e73", "#cc79a7", "#e69f00", "#56b4e9"];
// Of phases, of the two ways along a street, and of links: none is that of a report
const PHASES = ["#5b3f8c", "#a06cd5", "#c9a7e8", "#8a7f99"];
const WAYS = ["#3b3b3b", "#b8860b"];
const LINKS = ["#1b6e6e", "#c2571a", "#7a7a00", "#9c2c77", "#555555", "#2c8c3c"];
// How lines are broken of the seventh link on, and of the thirteenth on
const BREAKS = ["", "6 3", "2 3"];
// Seconds a vehicle up to which a level of service goes, its name and its colour
const COLOURS = ["#1a9850", "#91cf60", "#d9ef8b", "#fee08b", "#fc8d59", "#d73027"];
const LEVELS = [...data.levels, [Infinity, "F"]].map((each, at) => [...each, COLOURS[at]]);
const GREEN = "#009e73", RED = "#e8a58f";
const chosen = { report: 0, from: 0, to: END, node: 0, link: -1, street: 0, route: null, back: true, rows: "nodes", sort: -1 };

const escape = (text) => String(text).replace(/[&<>"]/g, (mark) => ({ "&": "&amp;", "<": "&lt;", ">": "&gt;", '"': "&quot;" })[mark]);
const cut = (text, most) => (text.length > most ? `${text.slice(0, most - 1)}\u2026` : text);
const clock = (second) => `${Math.floor(second / 60)}:${String(Math.round(second % 60)).padStart(2, "0")}`;
// The level of service of measures: of a single link, to which more comes than it lets through, the last one
const level = ({ each, full, isSingle }) => (each === null ? null : isSingle && full > 1 ? LEVELS[LEVELS.length - 1] : LEVELS.find(([most]) => each <= most));
const fixed = (value, digits) => (value === null ? "-" : value === Infinity ? "inf" : value.toFixed(digits));
const share = (value) => (value === null ? "-" : `${Math.round(100 * value)} %`);
const inkOn = (at) => ("AF".includes(at[1]) ? "#fff" : "#222");
const divided = (amount, of) => (of ? amount / of : null);
const sum = (values) => values.reduce((total, value) => total + value, 0);

// Running totals from pairs of an amount and for how many seconds it comes in each.
function totals(pairs) {
  const all = new Int32Array(END + 1);
  let moment = 0;
  for (let at = 0; at < pairs.length; at += 2)
    for (let count = 0; count < pairs[at + 1]; count++, moment++) all[moment + 1] = all[moment] + pairs[at];
  for (; moment < END; moment++) all[moment + 1] = all[moment];
  return all;
}

class Run {
  constructor(report) {
    this.name = report.name;
    this.greens = report.greens;
    this.none = report.none;
    this.lights = report.lights;
    this.entered = report.entered.map(totals);
    this.left = report.left.map(totals);
    this.lets = report.lets.map(totals);
    this.kept = new Map();
  }
  keep(key, make) {
    if (!this.kept.has(key)) this.kept.set(key, make());
    return this.kept.get(key);
  }
  reached(link, moment) { return this.entered[link][Math.max(0, moment - data.links[link].travel)]; }
  queue(link) {
    return this.keep(`queue ${link}`, () => this.left[link].map((left, moment) => this.reached(link, moment) - left));
  }
  // Who reaches the end of a link first leaves it first: triples of the second of reaching it, of leaving it (-1: never), and the amount.
  passages(link) {
    return this.keep(`passages ${link}`, () => {
      const all = [], left = this.left[link];
      let out = 0, gone = 0;
      for (let second = 0; second < END; second++) {
        let amount = this.reached(link, second + 1) - this.reached(link, second);
        while (amount && out < END) {
          const part = Math.min(amount, left[out + 1] - gone);
          if (part) { all.push([second, out, part]); amount -= part; gone += part; }
          if (gone === left[out + 1]) out++;
        }
        if (amount) all.push([second, -1, amount]);
      }
      return all;
    });
  }
  greensOf(node, phase) {
    return this.keep(`greens ${node} ${phase}`, () => this.greens[node].filter((green) => green[0] === phase));
  }
  // All greens of a link, as those of phases
  lightsOf(link) {
    const lights = this.lights[link.number];
    return lights ? this.keep(`lights ${link.number}`, () => lights.map(([from, to]) => [link.phase, from, to])) : this.greensOf(link.to, link.phase);
  }
  // In how many of the first seconds a link is green, in all its greens
  lit(link) {
    return this.keep(`lit ${link.number}`, () => {
      const lit = new Int32Array(END + 1), on = new Uint8Array(END);
      for (const [, from, to] of this.lightsOf(link)) on.fill(1, from, Math.min(to, END));
      for (let second = 0; second < END; second++) lit[second + 1] = lit[second] + on[second];
      return lit;
    });
  }
}
const runs = data.reports.map((report) => new Run(report));
data.links.forEach((link, number) => { link.number = number; });
const ending = data.links.filter((link) => link.to >= 0);
const into = data.nodes.map((_, node) => ending.filter((link) => link.to === node));

function percentile(sorted, part) { return sorted.length ? sorted[Math.max(0, Math.ceil((part * sorted.length) / 100) - 1)] : 0; }

// The first passage at or after a second
function firstAt(passages, second) {
  let low = 0, high = passages.length;
  while (low < high) {
    const middle = (low + high) >> 1;
    if (passages[middle][0] < second) low = middle + 1; else high = middle;
  }
  return low;
}

function tally(run, links, from, to) {
  const all = { vehicles: 0, delay: 0, stopped: 0, onGreen: 0, expected: 0 };
  for (const link of links) {
    const passages = run.passages(link.number), lit = run.lit(link);
    let vehicles = 0;
    for (let at = firstAt(passages, from); at < passages.length && passages[at][0] < to; at++) {
      const [reached, left, amount] = passages[at], wait = (left < 0 ? END : left) - reached;
      vehicles += amount;
      all.delay += amount * wait;
      if (wait * link.sat >= 1000) all.stopped += amount;
      if (lit[reached + 1] > lit[reached]) all.onGreen += amount;
    }
    all.vehicles += vehicles;
    all.expected += (vehicles * (lit[to] - lit[from])) / (to - from);
  }
  return all;
}

function isFailure(run, link, [, from, to]) {
  const queue = run.queue(link);
  for (let moment = from; moment <= to; moment++) if (!queue[moment]) return false;
  return true;
}

// The greens of links that end in an interval, each with the links whose queue makes it a failure: of a single link all its greens, and else those
// of homes. Of a link without any those of the phase of its junction that has the most.
function spans(run, links, from, to, isSingle) {
  const endsHere = (green) => from < green[2] && green[2] <= to, found = [];
  const homes = [...new Map(links.map((link) => [`${link.to} ${link.phase}`, link])).values()];
  for (const { to: node, phase } of homes) {
    const served = links.filter((link) => link.to === node && link.phase === phase);
    const greens = isSingle ? run.lightsOf(links[0]) : run.greensOf(node, phase);
    found.push(...greens.filter(endsHere).map((green) => ({ green, served, isOwn: true })));
    const dark = served.filter((link) => run.lit(link)[to] === run.lit(link)[from]);
    if (!dark.length) continue;
    const others = data.nodes[node].phases.map((_, other) => run.greensOf(node, other).filter(endsHere));
    const most = others.reduce((one, other) => (other.length > one.length ? other : one));
    found.push(...most.map((green) => ({ green, served: dark, isOwn: false })));
  }
  return found;
}

// From each begin of a green to the next one of its phase, of unmarked phases where there are any; of a single link from each of its greens
function cyclesIn(run, links, from, to, isSingle) {
  const homes = [...new Map(links.map((link) => [`${link.to} ${link.phase}`, link])).values()];
  const unmarked = homes.filter((link) => !data.nodes[link.to].phases[link.phase].skip);
  const rows = isSingle ? [run.lightsOf(links[0])] : (unmarked.length ? unmarked : homes).map((link) => run.greensOf(link.to, link.phase));
  return rows.flatMap((row) => row.slice(1).map((green, at) => [row[at][1], green[1]]))
    .filter(([, begin]) => from < begin && begin <= to).map(([before, begin]) => begin - before);
}

// What comes over what is let through, on the fullest link; null where nobody comes
function fullest(run, links, from, to) {
  const ratios = links.map(({ number }) => {
    const comes = run.reached(number, to) - run.reached(number, from), lets = run.lets[number][to] - run.lets[number][from];
    return comes ? (lets ? comes / lets : Infinity) : -1;
  });
  const most = Math.max(-1, ...ratios);
  return most < 0 ? null : most;
}

// The measures of links together, or of a single one, as `./signal measures` takes them: docs/FORMATS.md, "Measures"
function measures(run, links, from, to, isSingle = false) {
  const roads = links.filter((link) => link.walk === null), all = tally(run, roads, from, to), queues = new Float64Array(to - from);
  const both = roads.length === links.length ? all : tally(run, links, from, to), ends = spans(run, links, from, to, isSingle);
  for (const link of roads.length ? roads : links) {
    const queue = run.queue(link.number);
    for (let at = 0; at < queues.length; at++) queues[at] += queue[from + 1 + at];
  }
  queues.sort();
  return {
    isSingle,
    vehicles: all.vehicles / 1000,
    delay: all.delay / 1000,
    each: divided(all.delay, all.vehicles),
    full: fullest(run, roads, from, to),
    stopped: divided(all.stopped, all.vehicles),
    onGreen: divided(both.onGreen, both.vehicles), ratio: divided(both.onGreen, both.expected),
    queue: [50, 95, 100].map((part) => percentile(queues, part) / 1000),
    greens: ends.filter(({ isOwn }) => isOwn).map(({ green: [, begin, end] }) => end - begin),
    failures: ends.filter(({ green, served }) => served.some((link) => isFailure(run, link.number, green))).length,
    chances: ends.length,
    cycles: cyclesIn(run, links, from, to, isSingle),
  };
}

function came(run, from, to) {
  const entries = data.links.filter((link) => link.from < 0 && link.walk === null).map((link) => run.entered[link.number]);
  return sum(entries.map((entered) => entered[to] - entered[from])) / 1000;
}

// ---- Charts of time

function steps(span, pixels, sizes) { return sizes.find((size) => (span / size) * pixels <= 1) ?? sizes[sizes.length - 1]; }

const NAMES = {
  overview: "vehicles that wait in all queues", space: "time and space", queues: "queues", splits: "splits by cycle", coordination: "coordination",
};

class Chart {
  constructor(place, high, most, label, window = [chosen.from, chosen.to]) {
    this.place = find(place);
    this.label = `${NAMES[place]}, ${label}, from second ${window[0]} to ${window[1]}`;
    this.wide = this.place.clientWidth || 1100;
    [this.high, this.top, this.bottom, this.most] = [high, 10, high - 34, most || 1];
    [this.from, this.to] = window;
    this.parts = [];
    this.inner = [];
    const size = steps(this.to - this.from, 74 / (this.wide - LEFT - RIGHT), [1, 2, 5, 10, 15, 30, 60, 120, 300, 600, 1200, 1800, 3600]);
    for (let second = Math.ceil(this.from / size) * size; second <= this.to; second += size) {
      this.parts.push(`<path d="M${this.x(second)} ${this.top}V${this.bottom}" stroke="#e4e4e4"/>`);
      this.text(this.x(second), this.bottom + 14, clock(second), "middle");
    }
    this.text((LEFT + this.wide - RIGHT) / 2, high - 5, "minutes:seconds", "middle", "small");
    const turned = `translate(14 ${(this.top + this.bottom) / 2}) rotate(-90)`;
    this.parts.push(`<text class="small" transform="${turned}" text-anchor="middle">${escape(label)}</text>`);
  }
  x(second) { return +(LEFT + ((second - this.from) / (this.to - this.from)) * (this.wide - LEFT - RIGHT)).toFixed(1); }
  y(value) { return +(this.bottom - (value / this.most) * (this.bottom - this.top)).toFixed(1); }
  text(x, y, words, anchor, kind = "") {
    this.parts.push(`<text class="${kind}" x="${x}" y="${y}" text-anchor="${anchor}">${escape(words)}</text>`);
  }
  upAxis() {
    const size = steps(this.most, 26 / (this.bottom - this.top), [0.1, 0.2, 0.5, 1, 2, 5, 10, 20, 50, 100, 200, 500, 1000, 2000, 5000]);
    for (let value = 0; value <= this.most * 1.0001; value += size) {
      this.parts.push(`<path d="M${LEFT} ${this.y(value)}H${this.wide - RIGHT}" stroke="#eee"/>`);
      this.text(LEFT - 6, this.y(value) + 4, +value.toFixed(1), "end");
    }
  }
  path(way, colour, width = 1.6, more = "") {
    if (way) this.inner.push(`<path d="${way}" fill="none" stroke="${colour}" stroke-width="${width}" ${more}/>`);
  }
  box(x, to, y, high, colour, title = "") {
    const size = `x="${x}" y="${y}" width="${Math.max(0, to - x).toFixed(1)}" height="${high}"`;
    this.inner.push(`<rect ${size} fill="${colour}">${title ? `<title>${escape(title)}</title>` : ""}</rect>`);
  }
  ring(x, y, size) { this.inner.push(`<circle cx="${x}" cy="${y}" r="${size}" fill="#fff" stroke="#c00" stroke-width="1.6"/>`); }
  // A line of steps through a list of values by moments; moments of one pixel are drawn as their greatest
  series(values, colour, width = 1.6, more = "") {
    const wide = Math.max(1, Math.floor((this.to - this.from) / (this.wide - LEFT - RIGHT)));
    let way = "", last = null;
    for (let moment = this.from; moment <= this.to; moment += wide) {
      let value = values[moment];
      for (let at = moment + 1; at < Math.min(moment + wide, this.to + 1); at++) value = Math.max(value, values[at]);
      if (value === last) continue;
      way += last === null ? `M${this.x(moment)} ${this.y(value)}` : `H${this.x(moment)}V${this.y(value)}`;
      last = value;
    }
    this.path(`${way}H${this.x(this.to)}`, colour, width, more);
  }
  draw(after = "") {
    const id = `cut-${this.place.id}`, box = `x="${LEFT}" y="0" width="${this.wide - LEFT - RIGHT}" height="${this.bottom + 1}"`;
    this.place.innerHTML = `<svg viewBox="0 0 ${this.wide} ${this.high}" height="${this.high}" role="img" aria-label="${escape(this.label)}">
      <clipPath id="${id}"><rect ${box}/></clipPath>${this.parts.join("")}
      <path d="M${LEFT} ${this.top}V${this.bottom}H${this.wide - RIGHT}" fill="none" stroke="#888"/>
      <g clip-path="url(#${id})">${this.inner.join("")}</g>${after}</svg>`;
  }
}

function keyOf(names, colours) {
  const part = (name, at) => `<span><i style="background:${colours[at % colours.length]}"></i>${escape(name)}</span>`;
  return names.map(part).join(" ");
}

// The look of the line of a link in the chart of queues, and of its key
const lineOf = (at) => [LINKS[at % LINKS.length], BREAKS[Math.floor(at / LINKS.length) % BREAKS.length]];

function keyOfLines(names) {
  const part = (name, at) => {
    const [colour, breaks] = lineOf(at);
    return `<span><svg class="swatch" viewBox="0 0 26 8"><path d="M0 4H26" stroke="${colour}" stroke-width="2.5" stroke-dasharray="${breaks}"/></svg>${escape(name)}</span>`;
  };
  return names.map(part).join(" ");
}

function allQueues(run) {
  return run.keep("all queues", () => {
    const all = new Float64Array(END + 1);
    for (const link of ending) run.queue(link.number).forEach((queue, moment) => { all[moment] += queue / 1000; });
    return all;
  });
}

function drawOverview() {
  const most = Math.max(1, ...runs.map((run) => allQueues(run).reduce((a, b) => Math.max(a, b), 0)));
  const chart = new Chart("overview", 120, most, "vehicles", [0, END]);
  chart.upAxis();
  runs.forEach((run, at) => chart.series(allQueues(run), SERIES[at % SERIES.length], at === chosen.report ? 2 : 1.2));
  const [left, right] = [chart.x(chosen.from), chart.x(chosen.to)];
  chart.draw(`<rect x="${left}" y="4" width="${right - left}" height="${chart.bottom - 4}" fill="#36c" fill-opacity=".10" stroke="#36c"/>`);
}

// ---- The street

let dot = 11; // pixels from the middle of a junction to its rim

// Half as far as the least distance between two junctions leaves room, and no less than can be seen
function dotOf(points) {
  const gaps = points.flatMap(([x, y], at) => points.slice(at + 1).map(([x2, y2]) => Math.hypot(x2 - x, y2 - y)));
  return Math.max(3, gaps.reduce((least, gap) => Math.min(least, 0.28 * gap), 11));
}

function mapScale(wide, high) {
  const many = data.nodes.length > 12, ROOM = many ? 40 : Math.min(84, wide / 6);
  const xs = data.nodes.map((node) => node.x), ys = data.nodes.map((node) => node.y);
  const span = (list) => Math.max(...list) - Math.min(...list);
  const scale = Math.min((wide - 2 * ROOM - 20) / (span(xs) || 1), (high - 2 * (many ? ROOM : Math.min(84, high / 4))) / (span(ys) || 1));
  const middle = (list) => (Math.max(...list) + Math.min(...list)) / 2;
  return data.nodes.map((node) => [wide / 2 + (node.x - middle(xs)) * scale, high / 2 + (node.y - middle(ys)) * scale]);
}

// The legs of a junction that lead out of the network: links of about one side, in and out
function legsOf(node) {
  const legs = [], apart = (one, other) => Math.abs(Math.atan2(Math.sin(one - other), Math.cos(one - other)));
  for (const link of data.links.filter((each) => each.side !== null && (each.from === node || each.to === node))) {
    let leg = legs.find((each) => apart(each.angle, link.side) < 0.3);
    if (!leg) legs.push((leg = { angle: link.side, enters: [], leaves: [] }));
    (link.to === node ? leg.enters : leg.leaves).push(link);
  }
  return legs;
}

// What is written on the map: a text is put where it covers no other and is not cut, at the first of its places; else it is left out
class Labels {
  constructor(wide, high, taken) { [this.wide, this.high, this.taken, this.parts] = [wide, high, taken, []]; }
  put(words, places) {
    if (!words) return;
    const width = 6.4 * words.length + 4;
    for (const [x, y, anchor] of places) {
      const left = anchor === "middle" ? x - width / 2 : anchor === "end" ? x - width : x;
      const box = [left, y - 11, left + width, y + 3];
      if (box[0] < 1 || box[2] > this.wide - 1 || box[1] < 1 || box[3] > this.high - 1) continue;
      if (this.taken.some(([a, b, c, d]) => box[0] < c && a < box[2] && box[1] < d && b < box[3])) continue;
      this.taken.push(box);
      this.parts.push(`<text class="small name-of" x="${x.toFixed(1)}" y="${y.toFixed(1)}" text-anchor="${anchor}">${escape(words)}</text>`);
      return;
    }
  }
}

const short = (numbers) => numbers.map((number) => number.toFixed(1)).join(" ");

// What stands on a link of the map for the pointer
function titleOf(link, hourly, found) {
  const passed = `${link.name}: ${Math.round(hourly)} vehicles an hour`;
  if (!found || found.each === null) return passed;
  return `${passed}, ${found.each.toFixed(1)} s a vehicle (${level(found)[1]}), queue up to ${found.queue[2].toFixed(1)}`;
}

// A link of the map as an arrow to the right of the line between two points; further ones between them are further to the right
function arrow(link, [x1, y1], [x2, y2], run, isRoute, lane = 0, taken = []) {
  const length = Math.hypot(x2 - x1, y2 - y1) || 1, [ux, uy] = [(x2 - x1) / length, (y2 - y1) / length];
  const part = dot / 11, shift = (5 + (data.nodes.length > 30 ? 3 : 8) * lane) * part, room = Math.min(dot + 2, length / 3);
  const from = [x1 + ux * room - uy * shift, y1 + uy * room + ux * shift];
  const to = [x2 - ux * room - uy * shift, y2 - uy * room + ux * shift];
  for (let at = 0; at <= length; at += 8) {
    const [x, y] = [from[0] + ((to[0] - from[0]) * at) / length, from[1] + ((to[1] - from[1]) * at) / length];
    taken.push([x - 4, y - 4, x + 4, y + 4]);
  }
  const passed = run.left[link.number][chosen.to] - run.left[link.number][chosen.from];
  const hourly = (passed * 3.6) / (chosen.to - chosen.from), wide = (1.5 + Math.min(5, hourly / 250)) * part;
  const found = link.to >= 0 ? measures(run, [link], chosen.from, chosen.to, true) : null;
  const colour = found ? (level(found) ?? [0, "", "#bbb"])[2] : "#bbb";
  const back = [to[0] - ux * 7 * part, to[1] - uy * 7 * part], half = 3.5 * part, way = `M${short(from)}L${short(to)}`;
  const tip = `M${short(to)}L${short([back[0] - uy * half, back[1] + ux * half])}L${short([back[0] + uy * half, back[1] - ux * half])}Z`;
  const halo = isRoute ? `<path d="${way}" stroke="#36c" stroke-opacity=".35" stroke-width="${wide + 7}"/>` : "";
  return `<g><title>${escape(titleOf(link, hourly, found))}</title>${halo}<path d="${way}" stroke="#555" stroke-width="${wide + part}"/>
    <path d="${way}" stroke="${colour}" stroke-width="${wide}"/><path d="${tip}" fill="#333"/></g>`;
}

// The names at the far end of a leg: those of its links in on their side, those of its links out on the other
function nameLeg(labels, [x, y], dx, dy, enters, leaves) {
  const say = (links, side) => links.forEach(({ name }, at) => {
    const down = 13 * at, flat = Math.abs(dx) >= 0.6, anchor = dx < 0 ? "start" : "end";
    const beside = [[x + 9, y + 4 + down, "start"], [x - 9, y + 4 + down, "end"]];
    const level = [[x + (dx < 0 ? -24 : 24), y + side * (16 + down) + 4, anchor], [x + (dx < 0 ? -24 : 24), y + side * (34 + down) + 4, anchor]];
    const beyond = [[x, y + dy * (14 + down) + 4, "middle"]];
    labels.put(name, flat ? [...level, ...beside] : [...(side * dy > 0 ? beside : beside.reverse()), ...beyond]);
  });
  say(enters, dx < 0 ? 1 : -1);
  say(leaves, dx < 0 ? -1 : 1);
}

function junction(node, number, [x, y], found) {
  const at = level(found), isChosen = number === chosen.node;
  const title = `${node.name}: ${fixed(found.each, 1)} s a vehicle, queue up to ${found.queue[2].toFixed(1)} vehicles`;
  const rim = isChosen ? 'stroke="#36c" stroke-width="3.5"' : `stroke="#333" stroke-width="${Math.min(1, dot / 8)}"`;
  return `<g class="node" data-node="${number}" role="button" tabindex="0" aria-label="${escape(title)}"><title>${escape(title)}</title>
    <circle cx="${x}" cy="${y}" r="${dot.toFixed(1)}" fill="${at ? at[2] : "#ddd"}" ${rim}/>
    ${dot < 7 ? "" : `<text x="${x}" y="${y + 4}" text-anchor="middle" style="fill:${at ? inkOn(at) : "#222"}">${at ? at[1] : ""}</text>`}</g>`;
}

function nameJunction(labels, node, [x, y], found) {
  const words = data.nodes.length <= 12 ? `${node.name} ${fixed(found.each, 1)} s` : node.name;
  const far = [30, 44, 58, 72].flatMap((up) => [[x + 6, y - up, "start"], [x - 6, y - up, "end"], [x + 6, y + up + 8, "start"], [x - 6, y + up + 8, "end"]]);
  const around = [[x + 12, y - 14, "start"], [x, y - 18, "middle"], [x - 12, y - 14, "end"], [x + 12, y + 24, "start"], [x - 12, y + 24, "end"], [x, y + 30, "middle"], ...(data.nodes.length > 12 ? [] : far)];
  labels.put(words, around);
}

function drawMap() {
  const place = find("map"), wide = place.clientWidth || 600, count = data.nodes.length, run = runs[chosen.report];
  const isFlat = count > 1 && new Set(data.nodes.map((node) => Math.round(node.y))).size === 1;
  const high = isFlat ? 260 : Math.min(Math.max(wide, 340), count === 1 ? 470 : 560), points = mapScale(wide, high), parts = [];
  dot = dotOf(points);
  const steps = new Set(chosen.route.slice(1).flatMap((node, at) => [`${chosen.route[at]} ${node}`, `${node} ${chosen.route[at]}`]));
  const lanes = new Map(), taken = points.map(([x, y]) => [x - dot - 1, y - dot - 1, x + dot + 1, y + dot + 1]);
  for (const link of data.links.filter((each) => each.from >= 0 && each.to >= 0)) {
    const way = `${link.from} ${link.to}`, lane = lanes.get(way) ?? 0;
    lanes.set(way, lane + 1);
    parts.push(arrow(link, points[link.from], points[link.to], run, steps.has(way), lane, taken));
  }
  const reach = count === 1 ? Math.min(170, wide / 2 - 40) : count > 30 ? 12 + 18 * (dot / 11) : Math.min(58, wide / 8);
  const found = into.map((links) => measures(run, links, chosen.from, chosen.to));
  const labels = new Labels(wide, high, taken), legs = [];
  data.nodes.forEach((_, node) => legsOf(node).forEach(({ angle, enters, leaves }) => {
    const [dx, dy] = [Math.cos(angle), Math.sin(angle)], far = [points[node][0] + dx * reach, points[node][1] + dy * reach];
    enters.forEach((link, lane) => parts.push(arrow(link, far, points[node], run, false, lane, taken)));
    leaves.forEach((link, lane) => parts.push(arrow(link, points[node], far, run, false, lane, taken)));
    if (count <= 12) legs.push([far, dx, dy, enters, leaves]);
  }));
  data.nodes.forEach((node, number) => nameJunction(labels, node, points[number], found[number]));
  legs.forEach((leg) => nameLeg(labels, ...leg));
  data.nodes.forEach((node, number) => parts.push(junction(node, number, points[number], found[number])));
  place.innerHTML = `<svg viewBox="0 0 ${wide} ${high}" height="${high}" fill="none" role="group" aria-label="the street, its junctions and links">
    ${parts.join("")}${labels.parts.join("")}</svg>`;
}

// ---- Tables

function badge(found) {
  const at = level(found);
  return at ? `<span class="level" style="background:${at[2]};color:${inkOn(at)}">${at[1]}</span>` : "-";
}

const spread = (list) => (list.length ? `${Math.round(sum(list) / list.length)} (${Math.min(...list)}-${Math.max(...list)})` : "-");

const LINES = [
  ["vehicles that came in", (m) => m.came.toFixed(1)],
  ["delay a vehicle that came in, s", (m) => fixed(divided(m.delay, m.came), 1), (m) => divided(m.delay, m.came)],
  ["delay at each stop line, s", (m) => `${fixed(m.each, 1)} ${badge(m)}`, (m) => m.each],
  ["v/c of the fullest link", (m) => fixed(m.full, 2), (m) => m.full],
  ["stopped, of those at a stop line", (m) => share(m.stopped), (m) => m.stopped],
  ["all queues, 50 / 95 / most", (m) => m.queue.map((queue) => queue.toFixed(1)).join(" / "), (m) => m.queue[1]],
  ["split failures", (m) => `${m.failures} of ${m.chances}`, (m) => divided(m.failures, m.chances)],
  ["come on green", (m) => share(m.onGreen), (m) => (m.onGreen === null ? null : -m.onGreen)],
  ["platoon ratio", (m) => fixed(m.ratio, 2), (m) => (m.ratio === null ? null : -m.ratio)],
  ["greens, s: mean (from-to)", (m) => spread(m.greens)],
  ["cycles, s: mean (from-to)", (m) => spread(m.cycles)],
  ["plans that are none", (m) => m.none],
];

function noneOf(run) {
  if (!run.none) return "-";
  const inside = (round) => round * data.step >= chosen.from && round * data.step < chosen.to;
  const rounds = Array.from({ length: END / data.step }, (_, round) => round).filter(inside).length;
  return `${sum(run.none.map((list) => list.filter(inside).length))} of ${rounds * data.nodes.length}`;
}

function drawSides() {
  const all = runs.map((run) => {
    const found = measures(run, ending, chosen.from, chosen.to);
    return { ...found, came: came(run, chosen.from, chosen.to), none: noneOf(run) };
  });
  const head = runs.map((run, at) => `<th style="color:${SERIES[at % SERIES.length]}">${escape(run.name)}</th>`).join("");
  const rows = LINES.map(([label, say, rank]) => {
    const ranks = rank && all.length > 1 ? all.map((each) => rank(each) ?? Infinity) : [], [best, next] = [...ranks].sort((a, b) => a - b);
    const isClear = best !== Infinity && next - best > 0.1 * Math.max(Math.abs(best), Math.abs(next));
    const cells = all.map((each, at) => `<td class="${isClear && ranks[at] === best ? "best" : ""}">${say(each)}</td>`);
    return `<tr><td>${label}</td>${cells.join("")}</tr>`;
  });
  find("sides").innerHTML = `<table><thead><tr><th></th>${head}</tr></thead><tbody>${rows.join("")}</tbody></table>`;
}

// What there is a row for: a name, links, and the junction that a click chooses
function partsOf() {
  if (chosen.rows === "links") return ending.map((link) => [link.name, [link], link.to]);
  return data.nodes.map((node, number) => [node.name, into[number], number]).filter(([, links]) => links.length);
}

// The columns of a report in the table: as many of these as there is room for beside the other reports
const COLUMNS = [
  ["delay, s", (m) => `${fixed(m.each, 1)} ${badge(m)}`],
  ["queue", (m) => m.queue[1].toFixed(1)],
  ["failed", (m) => `${m.failures}/${m.chances}`],
  ["v/c", (m) => fixed(m.full, 2)],
  ["on green", (m) => share(m.onGreen)],
];
const columnsIn = (wide) => COLUMNS.slice(0, Math.max(1, Math.floor((wide - 90) / runs.length / 58)));

function drawTable() {
  const measured = (links) => runs.map((run) => measures(run, links, chosen.from, chosen.to, chosen.rows === "links"));
  const rows = partsOf().map(([name, links, node]) => ({ name, node, all: measured(links) }));
  if (chosen.sort >= 0) rows.sort((one, other) => (other.all[chosen.sort].each ?? -1) - (one.all[chosen.sort].each ?? -1));
  const mark = (place) => (chosen.sort === place ? " \u25bc" : ""), colour = (at) => `style="color:${SERIES[at % SERIES.length]}"`;
  const columns = columnsIn(find("table").clientWidth || 600), wide = `colspan="${columns.length}" class="over"`;
  const head = runs.map((run, at) => `<th ${wide} data-sort="${at}" ${colour(at)}><button class="plain">${escape(run.name)}${mark(at)}</button></th>`);
  const under = runs.flatMap(() => columns.map(([label]) => `<th>${label}</th>`)).join("");
  const lines = rows.map(({ name, node, all }) => {
    const cells = all.flatMap((m) => columns.map(([, say]) => `<td>${say(m)}</td>`)).join("");
    return `<tr class="pick ${node === chosen.node ? "chosen" : ""}" data-node="${node}"><td><button class="plain">${escape(name)}</button></td>${cells}</tr>`;
  });
  const top = `<tr><th data-sort="-1"><button class="plain">in order${mark(-1)}</button></th>${head.join("")}</tr><tr><td></td>${under}</tr>`;
  find("table").innerHTML = `<table><thead>${top}</thead><tbody>${lines.join("")}</tbody></table>`;
}

// ---- Time and space

// The link from one junction to another: the chosen one, or else that which brings most
function between(one, other) {
  const links = data.links.filter((link) => link.from === one && link.to === other), most = (link) => runs[0].entered[link.number][END];
  return links.find((link) => link.number === chosen.link) ?? links.reduce((best, link) => (best && most(best) >= most(link) ? best : link), undefined);
}

// The way over one junction: the chosen link of it, or else the one that brings most; not that of another way
function crossingOf(node, except) {
  const weight = (link) => runs[chosen.report].entered[link.number][END], entries = into[node].filter((link) => link !== except?.entry);
  const most = entries.reduce((one, other) => (one && weight(one) >= weight(other) ? one : other), undefined);
  const entry = !except && data.links[chosen.link]?.to === node ? data.links[chosen.link] : most;
  const turn = entry?.turns.reduce((one, other) => (other[1] > one[1] ? other : one));
  return { entry, links: [], exit: turn && data.links[turn[0]] };
}

// The links along a route, from the entry that most of its vehicles come by to the exit that most of them take
function chain(route, except = null) {
  if (route.length === 1) return crossingOf(route[0], except);
  const links = route.slice(1).map((node, at) => between(route[at], node));
  const onward = links[0], entries = into[route[0]].filter((link) => link.from !== route[1]);
  const shareOf = (link, exit) => sum(link.turns.filter(([turn]) => !exit || turn === exit.number).map(([, part]) => part));
  const flow = (link) => shareOf(link, onward) * (1 + runs[chosen.report].entered[link.number][END]);
  const entry = onward ? entries.reduce((one, other) => (one && flow(one) >= flow(other) ? one : other), undefined) : undefined;
  const last = links[links.length - 1] ?? entry;
  const exits = last ? last.turns.filter(([turn]) => data.links[turn].to !== route[route.length - 2] || data.links[turn].to < 0) : [];
  const exit = exits.length ? data.links[exits.reduce((one, other) => (other[1] > one[1] ? other : one))[0]] : undefined;
  return { entry, links, exit };
}

function heights(route) {
  const ups = [0];
  for (let at = 1; at < route.length; at++) {
    const link = between(route[at - 1], route[at]) ?? between(route[at], route[at - 1]);
    ups.push(ups[at - 1] + (link ? link.travel : 10));
  }
  return ups;
}

// When running totals come to an amount, looked for from a moment on; null where they never do
function crossing(all, amount, from) {
  let moment = from;
  while (moment <= END && all[moment] < amount) moment++;
  return moment > END ? null : [moment - 1 + (amount - all[moment - 1]) / (all[moment] - all[moment - 1]), moment];
}

// The paths of whole vehicles on a link: free to the end of the queue, there to its turn, and over the line
function paths(chart, run, link, low, high) {
  const entered = run.entered[link.number], left = run.left[link.number], queue = run.queue(link.number), way = [];
  const place = (part) => chart.y(low + (high - low) * part), travel = link.travel;
  let [inAt, outAt] = [1, 1];
  for (let amount = 500; amount <= entered[chosen.to]; amount += 1000) {
    const came = crossing(entered, amount, inAt);
    if (!came) break;
    inAt = came[1];
    const gone = crossing(left, amount, outAt);
    if (gone) outAt = gone[1];
    const [begin, reach, end] = [came[0], came[0] + travel, gone ? gone[0] : END + 1];
    if (end < chosen.from || begin > chosen.to) continue;
    const back = link.to < 0 ? 0 : Math.min(0.8 * travel, (0.5 * queue[Math.min(END, Math.floor(reach))]) / 1000);
    const line = `M${chart.x(begin)} ${place(0)}`;
    if (end - reach < 1.5) way.push(`${line}L${chart.x(Math.max(reach, end))} ${place(1)}`);
    else {
      const waits = `L${chart.x(reach - back)} ${place(1 - back / travel)}H${chart.x(Math.max(reach, end) - back)}`;
      way.push(`${line}${waits}${gone ? `L${chart.x(end)} ${place(1)}` : ""}`);
    }
  }
  return way.join("");
}

function bars(chart, run, link, up, shift) {
  if (!link) return;
  const y = chart.y(up) + shift;
  chart.box(chart.x(0), chart.x(END), y, 5, RED);
  for (const [, from, to] of run.greensOf(link.to, link.phase))
    if (to > chosen.from && from < chosen.to) chart.box(chart.x(from), chart.x(to), y, 5, GREEN, `${link.name}: green ${from} to ${to}`);
}

function drawSpace() {
  const route = chosen.route, ups = heights(route), run = runs[chosen.report];
  const forward = chain(route), backward = chosen.back ? chain([...route].reverse(), forward) : null;
  const ends = [forward, backward].filter(Boolean), top = ups[ups.length - 1];
  const below = Math.max(3, forward.entry?.travel ?? 0, backward?.exit?.travel ?? 0);
  const above = Math.max(3, forward.exit?.travel ?? 0, backward?.entry?.travel ?? 0);
  const high = Math.max(300, Math.min(780, 130 + route.length * 88)), thin = chosen.to - chosen.from > 900 ? 0.55 : 0.9;
  const chart = new Chart("space", high, below + top + above, "travel, in seconds");
  const up = (place) => below + place;
  ends.forEach(({ entry, links, exit }, way) => {
    const at = (place) => up(way ? top - place : place), place = (node) => (way ? top - ups[route.length - 1 - node] : ups[node]);
    const trail = (link, low, high) => {
      if (link) chart.path(paths(chart, run, link, at(low), at(high)), WAYS[way], thin, 'stroke-opacity=".8"');
    };
    trail(entry, place(0) - (entry?.travel ?? 0), place(0));
    links.forEach((link, number) => trail(link, place(number), place(number + 1)));
    trail(exit, place(route.length - 1), place(route.length - 1) + (exit?.travel ?? 0));
    [entry, ...links].forEach((link, number) => bars(chart, run, link, at(place(number)), way ? 1 : -6));
  });
  route.forEach((node, number) => {
    const y = chart.y(up(ups[number]));
    chart.text(LEFT - 6, y + 4, cut(data.nodes[node].name, 7), "end");
    chart.text(LEFT - 6, y + 17, `${ups[number]} s`, "end", "small");
  });
  chart.draw();
  const ways = ends.map(({ entry, exit }, way) => {
    const [first, last] = way ? [route[route.length - 1], route[0]] : [route[0], route[route.length - 1]];
    if (route.length === 1) return `${entry?.name ?? ""} to ${exit?.name ?? ""}`;
    return `from ${data.nodes[first].name} to ${data.nodes[last].name}`;
  });
  find("spacekey").innerHTML = `${keyOf(ways, WAYS)}: a line for each vehicle on a link, level where it waits.
    ${keyOf(["green", "not green"], [GREEN, RED])}, above a junction's place for those who go up, below for those who go down.`;
}

// ---- One junction

function drawQueues() {
  const links = into[chosen.node], run = runs[chosen.report];
  const lists = links.map((link) => Array.from(run.queue(link.number), (queue) => queue / 1000));
  const most = (list) => list.slice(chosen.from, chosen.to + 1).reduce((a, b) => Math.max(a, b), 0);
  const chart = new Chart("queues", 250, Math.max(1, ...lists.map(most)) * 1.05, "vehicles");
  chart.upAxis();
  lists.forEach((list, at) => chart.series(list, lineOf(at)[0], 1.5, `stroke-dasharray="${lineOf(at)[1]}"`));
  chart.draw();
  find("queuekey").innerHTML = keyOfLines(links.map((link) => `${link.name} (phase ${link.phase})`));
}

// The cycles of a junction: from each begin of its first unmarked phase to the next
function cyclesOf(node, greens) {
  const first = Math.max(0, data.nodes[node].phases.findIndex((phase) => !phase.skip));
  const begins = greens.filter((green) => green[0] === first).map((green) => green[1]);
  if (!begins.length || begins[0] > 0) begins.unshift(0);
  const end = Math.max(END, ...greens.map((green) => green[2]));
  return begins.map((begin, at) => [begin, begins[at + 1] ?? end]);
}

function drawSplits() {
  const phases = data.nodes[chosen.node].phases, run = runs[chosen.report], greens = run.greens[chosen.node];
  const seen = cyclesOf(chosen.node, greens).filter(([begin, end]) => end > chosen.from && begin < chosen.to);
  const chart = new Chart("splits", 250, Math.max(1, ...seen.map(([begin, end]) => end - begin)) * 1.04, "seconds of the cycle");
  chart.upAxis();
  for (const [begin, end] of seen) {
    const left = chart.x(begin) + 0.5, right = Math.max(left + 0.5, chart.x(end) - 0.5);
    chart.box(left, right, chart.y(end - begin), chart.bottom - chart.y(end - begin), "#ddd");
    for (const green of greens.filter(([, from]) => from >= begin && from < end)) {
      const [phase, from, to] = green, failed = to <= END && phases[phase].links.some((link) => isFailure(run, link, green));
      const y = chart.y(to - begin), high = +(chart.y(from - begin) - y).toFixed(1), more = failed ? ", a split failure" : "";
      chart.box(left, right, y, high, PHASES[phase], `phase ${phase}: green ${from} to ${to}, ${to - from} s${more}`);
      if (failed) chart.ring((left + right) / 2, y + 5, Math.max(1.5, Math.min(3.4, (right - left) / 3)));
    }
  }
  chart.draw();
  const names = [...phases.map((_, number) => `phase ${number}`), "yellow and all red"];
  find("splitkey").innerHTML = `${keyOf(names, [...PHASES.slice(0, phases.length), "#ddd"])}; a ring: split failure`;
}

function drawCoordination() {
  const link = data.links[chosen.link], run = runs[chosen.report];
  if (!link) return;
  const greens = run.greensOf(link.to, link.phase), ends = [0, ...greens.map((green) => green[2])];
  const cycle = (second) => { let at = 0; while (at + 1 < ends.length && ends[at + 1] <= second) at++; return at; };
  const shown = greens.map((green, at) => [ends[at], green[1], green[2]]).filter(([from, , to]) => to > chosen.from && from < chosen.to);
  const stretches = [...shown.map(([from, , to]) => to - from), Math.min(chosen.to, END) - ends[cycle(chosen.to)]];
  const chart = new Chart("coordination", 270, Math.max(1, ...stretches) * 1.04, "seconds since the last green");
  chart.upAxis();
  for (const [from, begin, to] of shown) {
    const x = chart.x(from), right = chart.x(to), y = chart.y(to - from);
    chart.box(x, right, y, +(chart.y(begin - from) - y).toFixed(1), "#009e7322");
    chart.path(`M${x} ${chart.y(begin - from)}H${right}`, GREEN, 2);
    chart.path(`M${x} ${y}H${right}`, "#c0392b", 2);
  }
  const entered = run.entered[link.number];
  let dots = "", from = 1;
  for (let amount = 500; amount <= entered[END]; amount += 1000) {
    const [time, at] = crossing(entered, amount, from), reach = time + link.travel;
    from = at;
    if (reach >= chosen.from && reach <= chosen.to && reach < END) dots += `M${chart.x(reach)} ${chart.y(reach - ends[cycle(reach)])}h0`;
  }
  chart.path(dots, "#222", 4, 'stroke-linecap="round" stroke-opacity=".7"');
  chart.draw();
}

// ---- What is chosen

function shortest(start, end) {
  const best = data.nodes.map(() => Infinity), before = data.nodes.map(() => -1), open = new Set(data.nodes.keys());
  best[start] = 0;
  while (open.size) {
    const node = [...open].reduce((one, other) => (best[other] < best[one] ? other : one));
    open.delete(node);
    if (node === end || best[node] === Infinity) break;
    for (const link of data.links) {
      if (link.from !== node || link.to < 0 || best[node] + link.travel >= best[link.to]) continue;
      best[link.to] = best[node] + link.travel;
      before[link.to] = node;
    }
  }
  if (best[end] === Infinity) return null;
  const route = [end];
  while (route[0] !== start) route.unshift(before[route[0]]);
  return route;
}

let later = 0;

function drawSoon() {
  cancelAnimationFrame(drawSoon.frame);
  drawSoon.frame = requestAnimationFrame(() => { drawCharts(); clearTimeout(later); later = setTimeout(drawTables, 120); });
}

function drawCharts() {
  find("from").value = chosen.from;
  find("to").value = chosen.to;
  find("node").value = chosen.node;
  document.querySelectorAll(".name").forEach((place) => { place.textContent = data.nodes[chosen.node].name; });
  document.querySelectorAll("#reports input").forEach((button, at) => { button.checked = at === chosen.report; });
  drawOverview(); drawSpace(); drawQueues(); drawSplits(); drawCoordination();
}

function drawTables() { drawMap(); drawSides(); drawTable(); }

function look(from, to) {
  const span = Math.max(10, Math.min(END, Math.round(to - from)));
  chosen.from = Math.max(0, Math.min(END - span, Math.round(from)));
  chosen.to = Math.min(END, chosen.from + span);
  drawSoon();
}

function chooseNode(node) {
  chosen.node = node;
  const links = into[node], run = runs[chosen.report];
  find("link").innerHTML = links.map((link) => `<option value="${link.number}">${escape(link.name)}</option>`).join("");
  if (!links.some((link) => link.number === chosen.link))
    chosen.link = links.length ? links.reduce((one, other) => {
      const weight = (link) => run.entered[link.number][END] * (link.from >= 0 ? 1000 : 1);
      return weight(other) > weight(one) ? other : one;
    }).number : -1;
  find("link").value = chosen.link;
}

function chooseStreet(street) {
  chosen.street = street;
  chosen.route = data.streets[street];
  find("street").value = street;
  find("start").value = chosen.route[0];
  find("end").value = chosen.route[chosen.route.length - 1];
}

function chooseRoute() {
  const route = shortest(+find("start").value, +find("end").value);
  if (route) {
    chosen.route = route;
    find("street").value = "";
  } else chooseStreet(chosen.street);
  drawCharts();
  drawMap();
}

function second(place, event) {
  const box = place.getBoundingClientRect(), part = (event.clientX - box.left - LEFT) / (box.width - LEFT - RIGHT);
  return place.id === "overview" ? part * END : chosen.from + part * (chosen.to - chosen.from);
}

function listen(place) {
  let held = null;
  place.addEventListener("wheel", (event) => {
    event.preventDefault();
    const at = second(place, event), factor = event.deltaY > 0 ? 1.25 : 0.8;
    look(at - (at - chosen.from) * factor, at + (chosen.to - at) * factor);
  }, { passive: false });
  place.addEventListener("mousedown", (event) => {
    held = { x: event.clientX, from: chosen.from, to: chosen.to, at: second(place, event) };
    event.preventDefault();
  });
  place.addEventListener("mousemove", (event) => {
    const at = second(place, event);
    if (at >= 0 && at <= END) find("read").textContent = `${Math.floor(at)} s = ${clock(Math.floor(at))}`;
  });
  window.addEventListener("mousemove", (event) => {
    if (!held) return;
    if (place.id === "overview") {
      const at = second(place, event);
      if (Math.abs(event.clientX - held.x) > 3) look(Math.min(at, held.at), Math.max(at, held.at));
    } else {
      const shift = ((held.x - event.clientX) / (place.clientWidth - LEFT - RIGHT)) * (held.to - held.from);
      look(held.from + shift, held.to + shift);
    }
  });
  window.addEventListener("mouseup", () => { held = null; });
  place.addEventListener("dblclick", () => look(0, END));
  place.tabIndex = 0;
  place.addEventListener("keydown", (event) => {
    const span = chosen.to - chosen.from, step = Math.max(1, Math.round(span / 5));
    const ways = { ArrowLeft: [-step, -step], ArrowRight: [step, step], "+": [step, -step], "-": [-step, step], Home: [-END, END] };
    const way = ways[event.key];
    if (!way || event.ctrlKey || event.metaKey) return;
    event.preventDefault();
    look(event.key === "Home" ? 0 : chosen.from + way[0], event.key === "Home" ? END : chosen.to + way[1]);
  });
}

function fill() {
  document.title = data.title;
  find("title").textContent = data.title;
  find("about").textContent = data.about;
  const radio = (run, at) =>
    `<label style="color:${SERIES[at % SERIES.length]}"><input type="radio" name="report"> <b>${escape(run.name)}</b></label>`;
  find("reports").innerHTML = runs.map(radio).join("");
  const levels = LEVELS.map(([most, name]) => (most === Infinity ? `${name} more` : `${name} to ${most}`));
  find("levels").innerHTML = `Level of service, seconds a vehicle: ${keyOf(levels, LEVELS.map((each) => each[2]))};
    wider: more vehicles. Click a junction.`;
  const nodes = data.nodes.map((node, at) => `<option value="${at}">${escape(node.name)}</option>`).join("");
  for (const id of ["node", "start", "end"]) find(id).innerHTML = nodes;
  const name = (node) => escape(data.nodes[node].name);
  const street = (nodes) => (nodes.length > 1 ? `${name(nodes[0])} - ${name(nodes[nodes.length - 1])} (${nodes.length})` : name(nodes[0]));
  find("street").innerHTML = data.streets.map((nodes, at) => `<option value="${at}">${street(nodes)}</option>`).join("");
  const spans = [60, 300, 900, 1800].filter((span) => span < END);
  const button = (span) => `<button data-span="${span}">${span === END ? "whole run" : `${span / 60} min`}</button>`;
  find("spans").innerHTML = [...spans, END].map(button).join(" ");
}

// Of the longest streets that on which most vehicles enter links
function busiest() {
  const long = data.streets.filter((street) => street.length === data.streets[0].length);
  const links = (street) => street.slice(1).map((node, at) => between(street[at], node)).filter(Boolean);
  const flow = (street) => sum(links(street).map((link) => runs[0].entered[link.number][END]));
  return long.indexOf(long.reduce((one, other) => (flow(other) > flow(one) ? other : one)));
}

// What is chosen at first: as the address says behind its #, `from=600&to=900&report=1&node=second`, else the whole run
function beginAsSaid() {
  const words = new URLSearchParams(location.hash.slice(1));
  const number = (key, most, usual) => Math.max(0, Math.min(most, words.has(key) ? Math.round(+words.get(key)) || 0 : usual));
  chosen.report = number("report", runs.length - 1, 0);
  chosen.from = number("from", END - 1, 0);
  chosen.to = Math.max(chosen.from + 1, number("to", END, END));
  chooseStreet(number("street", data.streets.length - 1, busiest()));
  const street = data.streets[chosen.street], named = data.nodes.findIndex((node) => node.name === words.get("node"));
  chooseNode(named >= 0 ? named : street[Math.floor(street.length / 2)]);
}

function drawAll() {
  drawCharts();
  drawTables();
}

// What happens where the reader does something with this part of the page
function on(id, kind, act) { find(id).addEventListener(kind, act); }

function click(event) {
  const sort = event.target.closest("[data-sort]"), node = event.target.closest("[data-node]");
  if (sort) {
    chosen.sort = +sort.dataset.sort;
    drawTable();
  } else if (node) {
    chooseNode(+node.dataset.node);
    drawAll();
  }
}

function begin() {
  fill();
  beginAsSaid();
  ["overview", "space", "queues", "splits", "coordination"].forEach((id) => listen(find(id)));
  document.querySelectorAll("#reports input").forEach((button, at) =>
    button.addEventListener("change", () => { chosen.report = at; drawAll(); }));
  on("spans", "click", (event) => {
    const half = +event.target.dataset.span / 2, middle = (chosen.from + chosen.to) / 2;
    if (half) look(middle - half, middle + half);
  });
  for (const id of ["from", "to"]) on(id, "change", () => look(+find("from").value, +find("to").value));
  on("node", "change", () => { chooseNode(+find("node").value); drawAll(); });
  for (const id of ["map", "table"]) on(id, "click", click);
  on("map", "keydown", (event) => { if (event.key === "Enter" || event.key === " ") { event.preventDefault(); click(event); } });
  on("link", "change", () => { chosen.link = +find("link").value; drawCoordination(); drawSpace(); });
  on("street", "change", () => { chooseStreet(+find("street").value); drawCharts(); drawMap(); });
  for (const id of ["start", "end"]) on(id, "change", chooseRoute);
  on("back", "change", () => { chosen.back = find("back").checked; drawSpace(); });
  on("rows", "change", () => { chosen.rows = find("rows").value; drawTable(); });
  window.addEventListener("resize", drawAll);
  drawAll();
  document.body.dataset.ready = "yes";
}

begin();
