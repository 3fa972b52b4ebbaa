// Buttons, keys, lists, and what is told about an edge or a vertex.

const byId = id => document.getElementById(id);
const chosen = {
  edge: null,
  vertex: null
};
const SHOWN = 200;  // calls in the list on either side of the present one

function text(parent, words, name) {
  const out = document.createElement(name || 'div');
  out.textContent = words;
  parent.appendChild(out);
  return out;
}

const sideName = s => `edge ${s >> 1} ${s % 2 ? 'right' : 'left'}`;

// What the last step changed, in words, and which edges.
function changes(k) {
  if (!k) return { words: [], edges: [] };
  const step = run.steps[k - 1];
  const words =
      step.nodes.filter(([n, old]) => standing.nodes[n] && (!old || old[4] !== standing.nodes[n][4]))
          .map(
              ([n, old]) =>
                  `node ${n}: dual variable ${old ? old[4] : 'new,'} ${old ? '→ ' : ''}${standing.nodes[n][4]}`);
  for (const [n, old] of step.nodes)
    if (old && standing.nodes[n] && opened(standing.nodes[n]) && !opened(old)) words.push(`node ${n}: opened`);
  for (const [s, old] of step.growth) words.push(`${sideName(s)}: ${old} → ${standing.growth[s]}`);
  for (const [e, old] of step.weight) words.push(`edge ${e}: weight ${old} → ${standing.weight[e]}`);
  return { words, edges: [...new Set([...step.growth.map(([s]) => s >> 1), ...step.weight.map(([e]) => e)])] };
}

function showNow(k) {
  const step = k ? run.steps[k - 1] : null, now = changes(k);
  byId('call').textContent = step ? step.call : 'the graph is opened';
  byId('place').textContent = step ? `record ${step.number}${step.line === null ? '' : `, line ${step.line}`}` : '';
  byId('answer').textContent =
      step ? [step.answer.join(', ') || 'nothing', step.words].filter(Boolean).join(' · ') : run.opening;
  byId('answer').className = step && step.answer[0] && step.answer[0].startsWith('refused') ? 'refused' : '';
  byId('changed').replaceChildren();
  now.words.slice(0, 60).forEach(w => text(byId('changed'), w));
  if (now.words.length > 60) text(byId('changed'), `and ${now.words.length - 60} more`);
  layers.fresh.replaceChildren();
  for (const e of now.edges)
    run.strokes[e].forEach(
        ([, points]) =>
            make(layers.fresh, 'path', { d: line(points), class: 'fresh', 'stroke-width': 1.9 * run.thick }));
}

function showNodes() {
  const table = byId('nodes');
  table.innerHTML =
      '<thead><tr><th></th><th>node</th><th>of</th><th>state</th><th class="number">dual variable</th></tr></thead>';
  const body = table.appendChild(document.createElement('tbody'));
  standing.nodes.forEach((row, n) => {
    if (!row) return;
    const [vertex, first, state, parent, dual] = row, tr = document.createElement('tr');
    const swatch = tr.appendChild(document.createElement('td')).appendChild(document.createElement('span'));
    swatch.className = 'swatch';
    swatch.style.background = opened(row) ? 'none' : colour(n + 1);
    const members =
        vertex === null ? standing.nodes.map((r, m) => r && r[3] === n + 1 ? m : -1).filter(m => m >= 0) : [];
    text(tr, n, 'td');
    text(tr, vertex !== null ? `defect ${vertex}` : opened(row) ? 'opened' : `nodes ${members.join(', ')}`, 'td');
    text(tr, parent ? `in node ${parent - 1}` : opened(row) ? '' : STATES[state], 'td');
    text(tr, dual, 'td').className = 'number';
    tr.className = parent || opened(row) ? 'inner' : '';
    if (vertex !== null)
      tr.onclick = () => {
        chooseVertex(vertex);
        centre(run.vertices[vertex][0]);
      };
    body.appendChild(tr);
  });
}

function showCalls(k) {
  const list = byId('list');
  list.replaceChildren();
  const from = Math.max(0, k - SHOWN), to = Math.min(run.steps.length, k + SHOWN);
  for (let i = from; i < to; i++) {
    const step = run.steps[i],
          li = text(list, `${String(i + 1).padStart(5)}  ${step.call} → ${step.answer[0] || 'nothing'}`, 'li');
    li.className =
        (i === k - 1 ? 'here' : '') + (step.answer[0] && step.answer[0].startsWith('refused') ? ' refused' : '');
    li.onclick = () => visit(i + 1);
  }
}

// The present call comes into the middle of the list.
function follow() {
  const here = byId('list').querySelector('.here'), box = byId('list').parentElement;
  if (here) box.scrollTop = here.offsetTop - byId('list').offsetTop - box.clientHeight / 2;
}

function aboutEdge(e) {
  const [a, b] = run.edges[e], w = standing.weight[e], about = byId('about');
  const [gl, gr] = [standing.growth[2 * e], standing.growth[2 * e + 1]];
  about.replaceChildren();
  const pre = document.createElement('pre');
  const held = s => standing.holder[s] ? `held by node ${outermost(standing.holder[s])}` : 'not held';
  text(
      pre,
      `edge ${e}, ${a}-${b}, weight ${w}: growths ${gl} and ${gr}, ${standing.gap[e]}\nleft ${held(2 * e)}, right ${
          held(2 * e + 1)}\n`,
      'span');
  layers.paths.replaceChildren();
  const not = uncovered();
  if (not) text(pre, not, 'span');
  else
    for (const side of [2 * e, 2 * e + 1]) {
      const told = sideLines(side);
      text(pre, told.lines.join('\n') + '\n', 'span').className = told.right ? '' : 'differs';
      for (const way of told.edges)
        run.strokes[way].forEach(
            ([, points]) =>
                make(layers.paths, 'path', { d: line(points), class: 'path', 'stroke-width': 0.35 * run.thick }));
    }
  about.appendChild(pre);
}

function aboutVertex(v) {
  const known = duals().get(v), holder = standing.spot[v], about = byId('about');
  const what =
      [`vertex ${v}` +
       (run.virtual.includes(v) ? ', virtual' :
            known               ? `, defect of node ${known.node}` :
                                  '')];
  if (run.names[v]) what.push(run.names[v]);
  what.push(holder ? `held by node ${outermost(holder)}` : 'not held');
  what.push('edges: ' + near[v].map(([u, e]) => `${e} to ${u} (${standing.weight[e]})`).join(', '));
  about.replaceChildren();
  const pre = document.createElement('pre');
  pre.textContent = what.join('\n');
  about.appendChild(pre);
  layers.paths.replaceChildren();
}

function mark() {
  layers.picked.replaceChildren();
  if (chosen.edge !== null)
    run.strokes[chosen.edge].forEach(
        ([, points]) =>
            make(layers.picked, 'path', { d: line(points), class: 'picked', 'stroke-width': 2.6 * run.thick }));
  if (chosen.vertex !== null)
    run.vertices[chosen.vertex].forEach(
        ([x, y]) => make(
            layers.picked, 'circle',
            { cx: x, cy: y, r: 1.5 * run.radius, class: 'picked', 'stroke-width': run.radius }));
  byId('edge').value = chosen.edge === null ? '' : chosen.edge;
  byId('vertex').value = chosen.vertex === null ? '' : chosen.vertex;
  follow();
  remember();
}

function chooseEdge(e) {
  if (!(e >= 0 && e < run.edges.length)) return;
  Object.assign(chosen, { edge: e, vertex: null });
  aboutEdge(e);
  mark();
}

function chooseVertex(v) {
  if (!(v >= 0 && v < run.vertices.length)) return;
  Object.assign(chosen, { edge: null, vertex: v });
  aboutVertex(v);
  mark();
}

// The middle of an edge; of one between two vertices without a place, the middle of what is in view.
const middle = e => {
  if (!run.strokes[e].length) return [view.x + view.wide / 2, view.y + view.tall / 2];
  const p = along(run.strokes[e][0][1], 0.5);
  return [p.x, p.y];
};

// The address has the step and what is chosen, so that a link leads back here.
function remember() {
  const what = chosen.edge !== null ? `&edge=${chosen.edge}` : chosen.vertex !== null ? `&vertex=${chosen.vertex}` : '';
  history.replaceState(null, '', `#call=${standing.at}${what}`);
}

// Goes to a step and shows it.
function visit(k) {
  k = goTo(Number.isFinite(k) ? k : 0);
  drawAll();
  showNow(k);
  showNodes();
  showCalls(k);
  byId('step').value = byId('slider').value = k;
  if (chosen.edge !== null) aboutEdge(chosen.edge);
  if (chosen.vertex !== null) aboutVertex(chosen.vertex);
  follow();
  remember();
}

function fromAddress() {
  const words = new URLSearchParams(location.hash.slice(1)),
        number = name => words.has(name) ? parseInt(words.get(name), 10) : null;
  visit(number('call') === null ? run.steps.length : number('call'));
  if (number('edge') !== null) {
    chooseEdge(number('edge'));
    if (chosen.edge !== null) centre(middle(chosen.edge));
  }
  if (number('vertex') !== null) {
    chooseVertex(number('vertex'));
    if (chosen.vertex !== null) centre(run.vertices[chosen.vertex][0]);
  }
}

// A point of the window as one of the picture.
function inPicture(event) {
  const p = new DOMPoint(event.clientX, event.clientY).matrixTransform(svg.getScreenCTM().inverse());
  return [p.x, p.y];
}

function listen() {
  byId('first').onclick = () => visit(0);
  byId('back').onclick = () => visit(standing.at - 1);
  byId('forward').onclick = () => visit(standing.at + 1);
  byId('last').onclick = () => visit(run.steps.length);
  byId('step').onchange = () => visit(parseInt(byId('step').value, 10));
  byId('slider').oninput = () => visit(parseInt(byId('slider').value, 10));
  byId('edge').onchange = () => {
    const e = parseInt(byId('edge').value, 10);
    chooseEdge(e);
    if (chosen.edge === e) centre(middle(e));
  };
  byId('vertex').onchange = () => {
    const v = parseInt(byId('vertex').value, 10);
    chooseVertex(v);
    if (chosen.vertex === v) centre(run.vertices[v][0]);
  };
  byId('in').onclick = () => zoom(0.7);
  byId('out').onclick = () => zoom(1 / 0.7);
  byId('whole').onclick = whole;
  document.addEventListener('keydown', event => {
    if (event.target.tagName === 'INPUT' && event.target.type === 'number') return;
    const by = {
      ArrowLeft: () => visit(standing.at - 1),
      ArrowRight: () => visit(standing.at + 1),
      Home: () => visit(0),
      End: () => visit(run.steps.length),
      '+': () => zoom(0.7),
      '-': () => zoom(1 / 0.7)
    }[event.key];
    if (by) {
      event.preventDefault();
      by();
    }
  });
  svg.addEventListener('wheel', event => {
    event.preventDefault();
    zoom(event.deltaY < 0 ? 0.85 : 1 / 0.85, ...inPicture(event));
  }, { passive: false });
  let from = null, moved = false;
  svg.addEventListener('pointerdown', event => {
    from = inPicture(event);
    moved = false;
  });
  svg.addEventListener('pointermove', event => {
    if (!from || !event.buttons) return;
    const [x, y] = inPicture(event);
    if (!moved && Math.hypot(x - from[0], y - from[1]) < 0.01 * view.wide) return;
    moved = true;
    svg.classList.add('moving');
    view.x += from[0] - x;
    view.y += from[1] - y;
    show();
  });
  window.addEventListener('pointerup', () => {
    from = null;
    svg.classList.remove('moving');
  });
  svg.addEventListener('click', event => {
    const { edge, vertex } = event.target.dataset;
    if (moved) return;
    if (edge !== undefined) chooseEdge(+edge);
    else if (vertex !== undefined) chooseVertex(+vertex);
  });
  window.addEventListener('resize', show);
  window.addEventListener('hashchange', fromAddress);
}

byId('count').textContent = run.steps.length;
byId('step').max = byId('slider').max = run.steps.length;
build();
listen();
fromAddress();
