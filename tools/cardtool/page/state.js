// The run, and how its clusters stand after each call. A step has the words that it changed, so that it can be made and
// unmade.

const run = JSON.parse(document.getElementById('run').textContent);
const STATES = ['stay', 'grow', 'shrink'];

// growth and holder (a node + 1, or 0) of each side, the gap of each edge in words, as the library told it, its weight,
// holder of each vertex, and the nodes as [vertex, first member, state, parent + 1, dual]; an opened blossom has neither
// vertex nor first member
const standing = {
  at: 0,
  growth: new Array(2 * run.edges.length).fill(0),
  holder: new Array(2 * run.edges.length).fill(0),
  gap: run.edges.map(([, , w]) => `gap ${w}`),
  spot: new Array(run.vertices.length).fill(0),
  weight: run.edges.map(([, , w]) => w),
  nodes: []
};

// Writes pairs of place and value into a list, and keeps what was there for the way back.
function exchange(list, pairs) {
  return pairs.map(([place, value]) => {
    const old = list[place];
    list[place] = value;
    return [place, old];
  });
}

// Makes step k, or unmakes it, by exchanging the words that it changed.
function turn(step) {
  const nodes = step.nodes.map(([n, row]) => [n, row]);
  step.growth = exchange(standing.growth, step.growth);
  step.holder = exchange(standing.holder, step.holder);
  step.gap = exchange(standing.gap, step.gap);
  step.spot = exchange(standing.spot, step.spot);
  step.weight = exchange(standing.weight, step.weight);
  step.nodes = nodes.map(([n, row]) => {
    const old = standing.nodes[n] || null;
    standing.nodes[n] = row;
    return [n, old];
  });
  while (standing.nodes.length && !standing.nodes[standing.nodes.length - 1]) standing.nodes.pop();
}

// Goes to the state after call k; 0 is the graph as it was opened. The sides that changed on the last step, for the
// picture.
function goTo(k) {
  k = Math.max(0, Math.min(run.steps.length, k));
  while (standing.at < k) turn(run.steps[standing.at++]);
  while (standing.at > k) turn(run.steps[--standing.at]);
  return k;
}

// The outermost node that a holder lies in, from a stored number.
function outermost(stored) {
  let n = stored - 1;
  while (n >= 0 && standing.nodes[n] && standing.nodes[n][3]) n = standing.nodes[n][3] - 1;
  return n;
}

function colour(stored, dark) {
  const n = outermost(stored);
  return n < 0 ? (dark ? '#b25a00' : '#f09a2c') : run.colours[n % run.colours.length][dark ? 1 : 0];
}

// The dual variable of each defect's vertex, and the node of each.
function duals() {
  const out = new Map();
  standing.nodes.forEach((row, n) => {
    if (row && row[0] !== null) out.set(row[0], { node: n, y: row[4] });
  });
  return out;
}

const opened = row => row[0] === null && row[1] === null;

const blossoms = () => standing.nodes.some(row => row && row[0] === null);
