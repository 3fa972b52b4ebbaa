// How the growth of a side follows from distances and dual variables: the rule of tools/cardtool/distances.py, worked
// out again in the page.

const near = run.vertices.map(() => []);
run.edges.forEach(([a, b], e) => {
  near[a].push([b, e]);
  near[b].push([a, e]);
});

// A heap of [distance, vertex, vertex before, edge].
function push(heap, item) {
  let k = heap.push(item) - 1;
  while (k && heap[(k - 1) >> 1][0] > heap[k][0]) {
    [heap[(k - 1) >> 1], heap[k]] = [heap[k], heap[(k - 1) >> 1]];
    k = (k - 1) >> 1;
  }
}

function pop(heap) {
  const top = heap[0], last = heap.pop();
  if (heap.length) {
    heap[0] = last;
    for (let k = 0;;) {
      let c = 2 * k + 1;
      if (c >= heap.length) break;
      if (c + 1 < heap.length && heap[c + 1][0] < heap[c][0]) c++;
      if (heap[k][0] <= heap[c][0]) break;
      [heap[k], heap[c]] = [heap[c], heap[k]];
      k = c;
    }
  }
  return top;
}

// Distances from a vertex to all, and the edge by which each was reached.
function search(start) {
  const distance = new Map(), came = new Map(), heap = [[0, start, -1, -1]];
  while (heap.length) {
    const [d, v, before, edge] = pop(heap);
    if (distance.has(v)) continue;
    distance.set(v, d);
    came.set(v, [before, edge]);
    for (const [u, e] of near[v])
      if (!distance.has(u)) push(heap, [d + standing.weight[e], u, v, e]);
  }
  return { distance, came };
}

// The edges from the start of a search to a vertex, with the vertices that they lead to.
function path(found, vertex) {
  const out = [];
  for (let v = vertex; found.came.get(v)[1] >= 0; v = found.came.get(v)[0]) out.unshift([found.came.get(v)[1], v]);
  return out;
}

// Why the rule says nothing here, or ''.
function uncovered() {
  if (blossoms()) return 'A blossom is there: the table from distances covers defects alone.';
  const zero = standing.weight.indexOf(0);
  return zero < 0 ? '' : `Edge ${zero} has weight 0: the table from distances covers weights above 0.`;
}

// The derivation of a side: { growth, rule, defect, node, y, near, far, paths, nearest }.
function derive(side) {
  const [a, b] = run.edges[side >> 1], w = standing.weight[side >> 1], u = side % 2 ? b : a, v = side % 2 ? a : b;
  const known = duals(), from = search(u);
  const reached =
      [...known].filter(([d]) => from.distance.has(d)).map(([
                                                             d, { node, y }
                                                           ]) => ({ defect: d, node, y, far: from.distance.get(d) }));
  const cover = reached.find(x => x.y > x.far);
  if (!cover) {
    reached.sort((x, z) => x.far - z.far || x.defect - z.defect);
    return {
      u,
      v,
      growth: 0,
      rule: reached.length ? 'no dual variable is above the distance of its defect to this vertex: 0' :
                             'no defect is in reach',
      nearest: reached.slice(0, 3),
      paths: []
    };
  }
  const found = search(cover.defect), n = found.distance.get(u), f = found.distance.get(v), g = cover.y - n;
  const told = {
    u,
    v,
    defect: cover.defect,
    node: cover.node,
    y: cover.y,
    near: n,
    far: f,
    nearest: [],
    paths: [[u, n, path(found, u)], [v, f, path(found, v)]]
  };
  if (f === n + w)
    return {
      ...told,
      growth: Math.min(g, w),
      rule: `${v} is farther by the whole weight: the smaller of ${cover.y} - ${n} = ${g} and ${w}`
    };
  if (n === f + w) return {...told, growth: 0, rule: `${v} is nearer by the whole weight: 0` };
  return {
    ...told,
    growth: g,
    rule: `${v} is neither farther nor nearer by the whole weight: ${cover.y} - ${n} = ${g}`
  };
}

// The derivation as lines, as card.py explain prints them.
function sideLines(side) {
  const d = derive(side), found = standing.growth[side];
  const out =
      [`${side % 2 ? 'right' : 'left'}, at ${d.u}: expected ${d.growth}, found ${found}` +
       (found === d.growth ? '' : '   <-- differs')];
  for (const x of d.nearest)
    out.push(`  defect ${x.defect} (node ${x.node}): dual variable ${x.y}, not above d(${x.defect},${d.u}) = ${x.far}`);
  if (d.defect !== undefined) {
    out.push(`  defect ${d.defect} (node ${d.node}): dual variable ${d.y}`);
    for (const [end, far, way] of d.paths)
      out.push(
          `  d(${d.defect},${end}) = ${far}: ${d.defect}` + way.map(([e, v]) => ` -${standing.weight[e]}- ${v}`).join(''));
  }
  out.push('  ' + d.rule);
  return { lines: out, edges: d.paths.flatMap(([, , way]) => way.map(([e]) => e)), right: found === d.growth };
}
