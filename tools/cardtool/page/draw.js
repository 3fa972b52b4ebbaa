// The picture: built once, then changed where a step changed something.

const svg = document.getElementById('picture');
const SVG = 'http://www.w3.org/2000/svg';
const LAYERS = [
  'panels', 'nests', 'fresh', 'picked', 'edges', 'grown', 'paths', 'hits', 'vertices', 'numbers', 'weights', 'amounts'
];
const layers = {};
const marks = run.edges.map(() => null);  // what is drawn of the growths of each edge
const circles = run.vertices.map(() => []);
const view = {
  x: 0,
  y: 0,
  wide: run.wide,
  tall: run.tall
};

function make(parent, name, attributes, words) {
  const out = document.createElementNS(SVG, name);
  for (const [k, v] of Object.entries(attributes)) out.setAttribute(k, v);
  if (words !== undefined) out.textContent = words;
  parent.appendChild(out);
  return out;
}

const line = points => 'M' + points.map(p => p.join(' ')).join('L');

// The point at the part t of a stroke, and the unit vector along it.
function along(points, t) {
  const far = [0];
  for (let k = 1; k < points.length; k++)
    far.push(far[k - 1] + Math.hypot(points[k][0] - points[k - 1][0], points[k][1] - points[k - 1][1]));
  const s = Math.max(0, Math.min(1, t)) * far[far.length - 1];
  let k = 1;
  while (k < points.length - 1 && far[k] < s) k++;
  const step = far[k] - far[k - 1] || 1, f = (s - far[k - 1]) / step;
  const dx = points[k][0] - points[k - 1][0], dy = points[k][1] - points[k - 1][1];
  return {
    x: points[k - 1][0] + f * dx,
    y: points[k - 1][1] + f * dy,
    u: dx / step,
    v: dy / step,
    length: far[far.length - 1]
  };
}

// A stroke's points from one part of its length to another.
function part(points, t0, t1) {
  const p = along(points, t0), q = along(points, t1);
  if (points.length === 2) return [[p.x, p.y], [q.x, q.y]];
  const out = [];
  for (let k = 0; k <= 16; k++) {
    const m = along(points, t0 + (t1 - t0) * k / 16);
    out.push([m.x, m.y]);
  }
  return out;
}

function build() {
  for (const name of LAYERS) layers[name] = make(svg, 'g', { id: name });
  for (const [x, y, wide, tall, name] of run.panels) {
    if (!name) continue;
    make(layers.panels, 'rect', { x, y, width: wide, height: tall, class: 'panel' });
    make(layers.panels, 'text', { x: x + 4, y: y - 5, 'font-size': 12 }, name);
  }
  const thin = Math.max(0.4, Math.min(1.5, 0.03 * run.spacing));
  run.strokes.forEach((strokes, e) => strokes.forEach(([whole, points]) => {
    make(
        layers.edges, 'path',
        { d: line(points), class: 'edge', 'stroke-width': thin, ...(whole ? {} : { 'stroke-dasharray': 2 * thin }) });
    make(
        layers.hits, 'path', { d: line(points), class: 'hit', 'stroke-width': Math.max(5, run.thick), 'data-edge': e });
  }));
  const virtual = new Set(run.virtual);
  run.vertices.forEach((spots, v) => spots.forEach(([x, y]) => {
    const r = run.radius * (spots.length > 1 ? 0.6 : virtual.has(v) ? 0.85 : 1);
    const c = make(layers.vertices, 'circle', {
      cx: x,
      cy: y,
      r,
      class: 'vertex',
      'stroke-width': 0.14 * r,
      'data-vertex': v,
      ...(virtual.has(v) ? { 'stroke-dasharray': `${0.29 * r} ${0.22 * r}` } : {})
    });
    const size = Math.min(1.1 * r, 1.8 * r / (0.62 * String(v).length));
    circles[v].push(
        [c, make(layers.numbers, 'text', { x, y: y + 0.36 * size, 'font-size': size, class: 'number' }, v)]);
  }));
  show();
}

// Puts a number beside a stroke.
function beside(parent, points, t, off, words, attributes) {
  const p = along(points, t), size = run.size;
  const away = off * (run.thick * 0.5 + 0.55 * size + Math.abs(p.v) * 0.25 * size * String(words).length);
  return make(
      parent, 'text', {
        x: p.x - away * p.v,
        y: p.y + away * p.u + 0.36 * size,
        'font-size': size,
        'stroke-width': 0.25 * size,
        ...attributes
      },
      words);
}

function drawStroke(e, whole, points, into) {
  const [gl, gr] = [standing.growth[2 * e], standing.growth[2 * e + 1]], w = standing.weight[e];
  const tl = w ? Math.min(gl / w, 1) : +(gl > 0), tr = w ? Math.min(gr / w, 1) : +(gr > 0),
        thick = run.thick * (whole ? 1 : 0.7);
  const put = (t0, t1, attributes) =>
      into.push(make(layers.grown, 'path', { d: line(part(points, t0, t1)), 'stroke-width': thick, ...attributes }));
  if (gl) put(0, tl, { class: 'grown', stroke: colour(standing.holder[2 * e]) });
  if (gr) put(1 - tr, 1, { class: 'grown', stroke: colour(standing.holder[2 * e + 1]) });
  if (gl + gr > w && tl > 1 - tr) put(1 - tr, tl, { class: 'over', 'stroke-width': 0.5 * thick });
  if (w && gl + gr === w) {
    const rim = Math.min(0.5, 1.14 * run.radius / along(points, 0).length);
    const q = along(points, Math.min(Math.max(tl, rim), 1 - rim));
    into.push(make(layers.grown, 'path', {
      d: `M${q.x - 0.9 * thick * q.v} ${q.y + 0.9 * thick * q.u}L${q.x + 0.9 * thick * q.v} ${q.y - 0.9 * thick * q.u}`,
      class: 'bar',
      'stroke-width': 0.22 * thick
    }));
  }
}

// Draws the growths of an edge afresh.
function drawEdge(e) {
  (marks[e] || []).forEach(m => m.remove());
  const [gl, gr] = [standing.growth[2 * e], standing.growth[2 * e + 1]], w = standing.weight[e], into = marks[e] = [];
  if (!gl && !gr) return;
  run.strokes[e].forEach(([whole, points]) => drawStroke(e, whole, points, into));
  const [, points] = run.strokes[e][0] || [];
  if (!points) return;
  const clear = 1.9 * run.radius / along(points, 0).length,
        middle = g => Math.min(0.9, Math.max(clear, w ? Math.min(g / w, 1) / 2 : 0));
  if (gl)
    into.push(beside(
        layers.amounts, points, middle(gl), 1, gl, { class: 'amount', fill: colour(standing.holder[2 * e], true) }));
  if (gr)
    into.push(beside(
        layers.amounts, points, 1 - middle(gr), 1, gr,
        { class: 'amount', fill: colour(standing.holder[2 * e + 1], true) }));
}

// Draws everything that hangs on the state.
function drawAll() {
  if (layers.weights.childElementCount) run.edges.forEach((_, e) => drawWeight(e));
  run.edges.forEach((_, e) => drawEdge(e));
  const defects = new Set([...duals().keys()]);
  circles.forEach((spots, v) => spots.forEach(([c, t]) => {
    c.classList.toggle('defect', defects.has(v));
    t.classList.toggle('defect', defects.has(v));
  }));
  drawNests();
}

// An outline around the vertices of each blossom.
function drawNests() {
  layers.nests.replaceChildren();
  const inside = n => standing.nodes[n][0] !== null ?
      [standing.nodes[n][0]] :
      standing.nodes.flatMap((row, m) => row && row[3] === n + 1 ? inside(m) : []);
  const deep = n => Math.max(0, ...standing.nodes.map((row, m) => row && row[3] === n + 1 ? 1 + deep(m) : 0));
  const list = standing.nodes.map((row, n) => row && row[0] === null && !opened(row) ? n : -1)
                   .filter(n => n >= 0)
                   .sort((a, b) => deep(b) - deep(a));
  for (const n of list) {
    const vertices = new Set(inside(n));
    if (!standing.nodes[n][3])
      standing.spot.forEach((h, v) => {
        if (h && outermost(h) === n) vertices.add(v);
      });
    const panels = new Map();
    for (const v of vertices) {
      const key = run.layers[v];
      panels.set(key, [...(panels.get(key) || []), run.vertices[v][0]]);
    }
    for (const points of panels.values())
      make(layers.nests, 'path', {
        d: around(points, run.radius * (1.5 + 0.55 * deep(n))),
        class: 'nest',
        fill: colour(n + 1, true),
        stroke: colour(n + 1, true),
        'stroke-width': 0.18 * run.radius,
        'stroke-dasharray': `${0.6 * run.radius} ${0.3 * run.radius}`
      });
  }
}

// The hull of circles around points.
function around(points, margin) {
  const ring = points.flatMap(
      ([x, y]) => Array.from(
          { length: 16 }, (_, k) => [x + margin * Math.cos(k * Math.PI / 8), y + margin * Math.sin(k * Math.PI / 8)]));
  ring.sort((p, q) => p[0] - q[0] || p[1] - q[1]);
  const half = ps => {
    const out = [];
    for (const p of ps) {
      while (out.length > 1 &&
             (out[out.length - 1][0] - out[out.length - 2][0]) * (p[1] - out[out.length - 2][1]) <=
                 (out[out.length - 1][1] - out[out.length - 2][1]) * (p[0] - out[out.length - 2][0]))
        out.pop();
      out.push(p);
    }
    return out.slice(0, -1);
  };
  return line([...half(ring), ...half([...ring].reverse())]) + 'Z';
}

// Weights are drawn when there is room for them for the first time, and those that a call changed, afresh.
const labels = run.edges.map(() => null);

function drawWeight(e) {
  if (labels[e]) labels[e].remove();
  const [[, points] = []] = run.strokes[e], w = standing.weight[e], opened = run.edges[e][2];
  if (points)
    labels[e] = beside(layers.weights, points, 0.5, -1, w === opened ? w : `${w} (opened ${opened})`, { class: 'weight' });
}

function drawWeights() {
  if (!layers.weights.childElementCount) run.edges.forEach((_, e) => drawWeight(e));
}

// Shows the part of the picture that is in view, with letters where they can be read.
function show() {
  svg.setAttribute('viewBox', `${view.x} ${view.y} ${view.wide} ${view.tall}`);
  const box = svg.getBoundingClientRect(), scale = Math.min(box.width / view.wide, box.height / view.tall) || 1;
  svg.classList.toggle('small', scale * run.size < 5.5);
  svg.classList.toggle('tiny', scale * run.size < 8);
  if (scale * run.size >= 8) drawWeights();
}

// Zooms by a factor around a point of the picture, the middle where none is given.
function zoom(factor, x = view.x + view.wide / 2, y = view.y + view.tall / 2) {
  const wide = Math.max(run.spacing, Math.min(4 * run.wide, view.wide * factor)), f = wide / view.wide;
  Object.assign(view, { x: x + (view.x - x) * f, y: y + (view.y - y) * f, wide, tall: view.tall * f });
  show();
}

function whole() {
  Object.assign(view, { x: 0, y: 0, wide: run.wide, tall: run.tall });
  show();
}

// Brings a point into the middle, near enough to read.
function centre([x, y]) {
  const wide = Math.min(view.wide, 14 * run.spacing), tall = wide * view.tall / view.wide;
  Object.assign(view, { x: x - wide / 2, y: y - tall / 2, wide, tall });
  show();
}
