#!/usr/bin/env python3
"""Compares the definitions of specs/ with the Python model, by computation.

    tests/definitions/compare.py [--lists 600] [--states 200] [--streams 100] [--circles 5] [--seed 1] [--keep DIR]

The prover computes, from the definitions themselves:
  lists    random call lists: every answer, the whole state after the last call, whether it is sound, every node read,
           and at each vertex what the test for refusal 5 finds and how many sides it reads;
  states   sound states that no call list reaches (a reached state with fields changed at random), a few calls on each;
  streams  record streams: the lines, all of them and those that fit into a random space;
  circles  circles of 61, 63, 64, 65 and 101 nodes, with a repeat and without, on rows of so many defects.
Each comparison is a theorem proved by `refl` in a crate of tests that is written beside a copy of this repository.
The model is tests/model, the streams are those of tests/vectors, or of the file that VECTORS names. A wrong answer
makes the check fail and names the case.
"""
import argparse, collections, os, random, shutil, subprocess, sys, tempfile

TOP = os.path.dirname(os.path.dirname(os.path.dirname(os.path.abspath(__file__))))
sys.path.insert(0, os.path.join(TOP, 'tests'))
import model as M  # noqa: E402

SEEN = collections.Counter()

# ---------------------------------------------------------------- terms

def items(xs): return '(' + ' ∷ '.join(list(xs) + ['[]']) + ')'
def nats(xs): return items(str(int(x)) for x in xs)
def stored(xs): return nats(x + 1 for x in xs)
def whole(k): return f'(pos {k})' if k >= 0 else f'(negsuc {-k - 1})'
def contact(e, p, q): return f'record {{ edge = {e}; left = {p + 1}; right = {q + 1} }}'
def truth(t): return 'true' if t else 'false'


def answer(a):
    kind, values = a[0], [max(x, 0) for x in a[1:]]
    SEEN[f'refused {a[1]}' if kind == 'refused' else kind] += 1
    if kind == 'free':
        return f'(Length (Unlimited {truth(a[2])}))' if a[3] else f'(Length (NonZeroGrow {whole(a[1])} {truth(a[2])}))'
    if kind == 'virtual':
        values = values[:3]
    if kind == 'stop' and len(values) > 1:
        kind = 'stop peer'
    lengths = {'conflict': 'Conflicting', 'virtual': 'TouchingVirtual', 'expand': 'BlossomNeedExpand',
               'stop': 'VertexShrinkStop', 'stop peer': 'VertexShrinkStopPeer'}
    others = {'done': 'Done', 'node': 'Node', 'prepared': 'Prepared', 'vertex': 'Vertex', 'refused': 'Refused'}
    said = '(' + ' '.join([{**lengths, **others}[kind]] + [str(v) for v in values]) + ')'
    return f'(Length {said})' if kind in lengths else said


def grouped(a, listed):
    """The answer of a group, and what it lists."""
    SEEN[f'group refused {a[1]}' if a[0] == 'refused' else 'group ' + a[0]] += 1
    if a[0] == 'free':
        group = f'(group_unlimited {truth(a[2])})' if a[3] else f'(group_free {whole(a[1])} {truth(a[2])})'
    else:
        group = f'(group_refused {a[1]})' if a[0] == 'refused' else f'(group_conflicts {a[1]} {a[2]})'
    return f'{group} {items(answer(x) for x in listed)}'


def state(st):
    nodes = st.nodes
    classes = items('removed' if n.removed else f'blossom {n.first}' if n.vertex == M.NONE
                    else f'defect_vertex {n.vertex}' for n in nodes)
    stacks = items(items(f'over {v} {a}' for v, a in reversed(n.overgrown)) for n in nodes)
    at = items(nats(x) for x in st.at)
    graph = f'end = {nats(st.end)}; weight = {nats(st.weight)}; original = {nats(st.original)}; '
    graph += f'reweighted = {int(st.reweighted)}; at = {at}; virtual = {nats(st.virtual)}'
    holders = f'vertex_holder = {stored(st.vholder)}; vertex_grandson = {stored(st.vgrandson)}'
    numbers = f'grow_state = {nats(n.state for n in nodes)}; parent = {stored(n.parent for n in nodes)}'
    lists = f'boundary = {items(nats(n.boundary) for n in nodes)}; overgrown = {stacks}'
    return f'''record {{
    graph = record {{ {graph} }};
    vertices = record {{ defect = {nats(st.defect)}; {holders} }};
    sides = record {{ growth = {nats(st.growth)}; holder = {stored(st.holder)}; grandson = {stored(st.grandson)} }};
    nodes = record {{ class = {classes}; {numbers}; dual = {nats(n.dual for n in nodes)}; {lists} }};
    node_limit = {st.N};
    store_limit = {st.L};
    active = {nats(st.active)} }}'''


def line(st, c):
    """A call made on the model, and the line that says what it gives."""
    kind, f = c[0], c[1:]
    if kind == 'table': return f'ReadTable gives growths {nats(M.table(st))}'
    if kind == 'contacts': return f'Contacts gives touching {items(contact(*x) for x in M.contacts(st))}'
    if kind == 'group': return f'GroupLength gives grouped {grouped(*M.group_length(st))}'
    call, term = {
        'defect': (M.insert_defect, lambda v, x: f'InsertDefect {v} {x}'),
        'blossom': (M.insert_blossom, lambda x, ms: f'InsertBlossom {x} {nats(ms)}'),
        'remove': (M.remove_blossom, lambda n: f'RemoveBlossom {n}'),
        'erase': (M.load_edge_modifier, lambda pairs: f"LoadEdgeModifier {items(f'takes {e} {w}' for e, w in pairs)}"),
        'state': (M.set_state, lambda n, x: f'SetGrowState {n} {x}'),
        'prepare': (M.prepare, lambda n, d: f'Prepare {n} {d}'),
        'length': (M.length, lambda n, d, p: f'UpdateLength {n} {d} {truth(p)}'),
        'grow': (M.grow, lambda n, l: f'Grow {n} {whole(l)}'),
        'advance': (M.advance, lambda n: f'Advance {n}'),
        'representative': (M.representative, lambda n: f'RepresentativeVertex {n}'),
        'renew': (M.renew_active_list, lambda: 'RenewActiveList'),
        'prepare_all': (M.prepare_all, lambda: 'PrepareAll'),
        'round': (M.grow_all, lambda l: f'Round {whole(l)}'),
        'clear': (M.clear, lambda: 'Clear')}[kind]
    worked = kind == 'remove' and M.remove_refusal(st, *f) is None
    said = call(st, *f)
    if kind == 'erase': SEEN[f"change of weights {said[0]}{said[1] if said[1:] else ''}"] += 1
    if worked: SEEN['opening done' if said[0] == 'done' else 'opening refused once prepared'] += 1
    return f'{term(*f)} gives answered {answer(said)}'

# ---------------------------------------------------------------- random graphs, calls and states

def graph(rng):
    V = rng.randint(3, 7)
    E = rng.randint(V - 1, V + 3)
    weights = rng.choice([[0, 1, 2, 3, 4], [2, 4, 6], [0, 0, 2], [1, 3, 5, 7], [2, 3, 4, 20]])
    edges = []
    for i in range(E):
        if i < V - 1: l, r = i + 1, rng.randrange(i + 1)
        elif rng.random() < .25: l, r, _ = rng.choice(edges)
        else: l, r = rng.sample(range(V), 2)
        if rng.random() < .5: l, r = r, l
        edges.append((l, r, rng.choice(weights)))
    virtuals = [v for v in range(V) if rng.random() < .2]
    return V, E, rng.choice([2, 3, 4, 6, 8, 12]), rng.choice([25, 50, 80, 120, 200, 400]), edges, virtuals


def pairs(rng, st):
    """Edges and weights, repeats among them; now and then an edge that is none, or a weight out of range."""
    some = [(rng.randrange(st.E), rng.choice([0, 0, 1, 2, 3, 4, 20])) for _ in range(rng.choice([0, 1, 1, 2, 3, 5]))]
    if some and rng.random() < .1: some[rng.randrange(len(some))] = st.E + rng.randrange(3), 2
    if some and rng.random() < .1: some[rng.randrange(len(some))] = rng.randrange(st.E), M.WEIGHT_MAX + 1
    return some


def call(rng, st):
    n, x = len(st.nodes), rng.random()
    outermost = [i for i in range(n) if st.nodes[i].parent == M.NONE and not st.nodes[i].removed]
    blossoms = [i for i in outermost if st.nodes[i].vertex == M.NONE]
    i = rng.choice(outermost) if outermost and rng.random() < .93 else rng.randrange(n + 1)
    if outermost and rng.random() < .4: i = outermost[-1]
    if rng.random() < (.3 if n == 0 else .03): return 'erase', pairs(rng, st)
    if rng.random() < (.18 if blossoms else .02):
        bare = [i for i in blossoms if st.nodes[i].dual == 0]
        return 'remove', rng.choice(bare if bare and rng.random() < .8 else blossoms or [rng.randrange(n + 1)])
    if n == 0 or x < .14 or n < 3 and rng.random() < .5:
        v = rng.randrange(st.V + (rng.random() < .1))
        return 'defect', v, rng.choice([1, 1, 1, 1, 0, 2, 3 if rng.random() < .2 else 1])
    if x < .30 and len(outermost) >= 3 or x < .16:
        good = len(outermost) >= 3 and rng.random() < .85
        x = rng.choice([1, 1, 0, 2])
        return 'blossom', x, rng.sample(outermost, 3) if good else [rng.randrange(n) for _ in range(rng.randint(1, 4))]
    if x < .36: return 'state', i, rng.choice([0, 1, 2, 2, 1, 3 if rng.random() < .2 else 1])
    if x < .38: return 'prepare', i, rng.choice([0, 1, 1, 2 if rng.random() < .2 else 0])
    if x < .48: return 'length', i, rng.choice([0, 1]), rng.random() < .6
    if x < .56: return 'grow', i, rng.choice([1, 2, 3, 4, -1, -2, -3, 0, 1000000000 if rng.random() < .3 else 1])
    if x < .64: return ('group',)
    if x < .72: return 'round', rng.choice([1, 1, 1, 2, 2, 3, 4, 0, -1, 1000000000 if rng.random() < .2 else 1])
    if x < .74: return ('prepare_all',)
    if x < .76: return ('renew',)
    if x < .92: return 'advance', i
    if x < .94: return 'representative', i
    if x < .96: return 'contacts',
    return ('clear',) if x > .99 else ('table',)


def opened(rng):
    V, E, N, L, edges, virtuals = graph(rng)
    _, st = M.open_graph(V, E, N, L, edges, virtuals)
    ends = items(f'edge {l} {r} {w}' for l, r, w in edges)
    return st, f'opened {V} {N} {L} {ends} {nats(virtuals)}'


def changed(rng):
    """A state with fields changed at random, so that no call list reaches it (but by chance)."""
    while True:
        st, _ = opened(rng)
        seen = SEEN.copy()
        for _ in range(rng.randint(4, 14)): line(st, call(rng, st))
        SEEN.clear(); SEEN.update(seen)  # calls on the way are not compared
        n = len(st.nodes)
        defects = [i for i in range(n) if st.nodes[i].vertex != M.NONE]
        if not defects: continue
        for _ in range(rng.randint(1, 6)):
            s, v, i = rng.randrange(2 * st.E), rng.randrange(st.V), rng.randrange(n)
            k = rng.randrange(8)
            if k == 0: st.growth[s] = rng.choice([0, 0, 1, 2, 5, 9])
            elif k == 1: st.holder[s], st.grandson[s] = rng.randrange(n), rng.choice(defects)
            elif k == 2: st.vholder[v] = rng.choice([M.NONE, rng.randrange(n)])
            elif k == 3: st.nodes[i].boundary = rng.sample(range(2 * st.E), rng.randint(0, min(4, 2 * st.E)))
            elif k == 4:
                some = rng.sample(range(st.V), rng.randint(0, 2))
                st.nodes[i].overgrown = [(u, rng.choice([0, 0, 1, 3])) for u in some]
            elif k == 5: st.nodes[i].dual = rng.choice([0, 1, 2, 7])
            elif k == 6: st.nodes[i].state = rng.randrange(3)
            else: st.active = rng.sample(range(n), rng.randint(0, n))
        for i, nd in enumerate(st.nodes):  # an outermost node holds what it lists
            if nd.parent == M.NONE and rng.random() < .8:
                for s in nd.boundary: st.holder[s], st.grandson[s] = i, rng.choice(defects)
                for u, _ in nd.overgrown: st.vholder[u] = i
        return st


def unreached(rng):
    """Such a state that is sound."""
    st = changed(rng)
    while M.sound(st): st = changed(rng)
    return st

# ---------------------------------------------------------------- the crate of tests

HEAD = '''-- {0}
use Rattle.std.specs.Prelude.{{ℕ, ◌≡◌, refl, Bool, true, false, List, [], ◌∷◌, map, pos, negsuc}}
use Rattle.graph.specs.Basic.{{below}}
use Rattle.graph.specs.State.{{State, Overgrown, NodeClass, defect_vertex, blossom, removed}}
use Rattle.graph.specs.Open.{{opened}}
use Rattle.graph.specs.Sound.{{state_sound}}
use Rattle.answers.specs.Outcome.{{Length, Done, Node, Prepared, Vertex, Refused}}
use Rattle.answers.specs.declared.MaxUpdateLength.TheVariants.{{NonZeroGrow, Unlimited, Conflicting, TouchingVirtual, BlossomNeedExpand, VertexShrinkStop, VertexShrinkStopPeer}}
use Rattle.calls.specs.Calls.{{InsertDefect, InsertBlossom, SetGrowState, Prepare, UpdateLength, Grow, ReadTable, Advance, Contacts, RepresentativeVertex, Clear, RenewActiveList, PrepareAll, GroupLength, Round, RemoveBlossom, LoadEdgeModifier, answered, growths, touching, grouped, respond}}
use Rattle.calls.specs.Group.{{NonZeroGrow as group_free, Unlimited as group_unlimited, Conflicts as group_conflicts, Refused as group_refused}}
use Rattle.calls.specs.Insert.{{occupied}}
use Rattle.calls.specs.Occupied.{{sides_read}}
use Rattle.calls.specs.Examples.{{Line, ◌gives◌, edge, given, wanted}}
use Rattle.calls.specs.ErasureExamples.{{takes}}
use Rattle.calls.specs.Opens.{{everything}}
use Rattle.dual_module_node.specs.Outcome.{{Defect as read_defect, Blossom as read_blossom, Refused as read_refused}}
use Rattle.dual_module_node.specs.ReadNode.{{node_told, read_node}}

abbrev over : ℕ → ℕ → Overgrown
over v a = record {{ vertex = v; amount = a }}

unfoldable looked : State → ℕ → Bool × ℕ
looked c v = (occupied c v, sides_read c v)

unfoldable after : State → List Line → State
after c [] = c
after c ((k gives o) ∷ ls) = after (respond c k).state ls

'''


def looks(st):
    """What the test for refusal 5 finds at each vertex, and how many sides it reads."""
    found = [M.held_test(st, v) for v in range(st.V)]
    SEEN['vertices tested'] += st.V
    SEEN['a held side decides'] += sum(held and read > 0 for held, read in found)
    return items(f'({truth(held)}, {read})' for held, read in found)


def node(st, n):
    """What is told of a node."""
    kind, *values = M.read_node(st, n)
    SEEN['node refused' if kind == 'refused' else f'node {kind}'] += 1
    if kind != 'refused': values[2] += 1
    return f"(read_{kind} {' '.join(map(str, values))})"


def case(name, start, lines, st):
    body = ' ∷\n    '.join(lines + ['[]'])
    gives = f'given {name}-start {name}-lines ≡ wanted {name}-lines'
    last = f'after {name}-start {name}-lines'
    count = len(st.nodes) + 1
    nodes = f'map (read_node ({last})) (below {count}) ≡ {items(node(st, n) for n in range(count))}'
    return f'''{name}-start : State
{name}-start = {start}

{name}-lines : List Line
{name}-lines =
    {body}

{name} : ({gives}) × ({last} ≡ {state(st)}) × (state_sound ({last}) ≡ {truth(not M.sound(st))}) × ({nodes})
unfolding everything edge takes given wanted after node_told read_node {name}-start {name}-lines
{name} = (refl, refl, refl, refl)

{name}-read : map (looked ({last})) {nats(range(st.V))} ≡ {looks(st)}
unfolding everything edge takes after {name}-start {name}-lines looked
{name}-read = refl

'''


def list_case(rng, name):
    st, start = opened(rng)
    return case(name, start, [line(st, call(rng, st)) for _ in range(rng.randint(10, 25))], st)


def state_case(rng, name):
    st = unreached(rng)
    start, lines = state(st), []
    while len(lines) < 4 and not M.sound(st):
        n, v = len(st.nodes), rng.randrange(st.V)
        i = rng.randrange(n)
        p = rng.choice([j for j in range(n) if st.nodes[j].parent == M.NONE and st.nodes[j].vertex == M.NONE] or [i])
        lines.append(line(st, rng.choice([
            ('prepare', i, 0), ('prepare', i, 1), ('length', i, 0, False), ('length', i, 1, False),
            ('length', i, 1, True), ('length', i, 0, True), ('grow', i, 1), ('grow', i, -1), ('advance', i),
            ('defect', v, 1), ('prepare_all',), ('group',), ('group',), ('round', 1), ('round', 2), ('renew',),
            ('state', i, rng.randrange(3)), ('remove', p), ('remove', p), ('remove', i),
            ('blossom', 1, rng.sample(range(n), 3) if n > 2 else [i])])))
    return case(name, start, lines, st)


CIRCLES = 61, 63, 64, 65, 101


def circle_case(rng, name):
    """A row with a defect at each vertex; a circle of all of them, first with one of them twice."""
    size = CIRCLES[int(name[4:]) % len(CIRCLES)]
    edges = [(v, v + 1, rng.choice([0, 1, 2, 4])) for v in range(size - 1)]
    N, L = size + 1, (size + 2) * 3 * size
    _, st = M.open_graph(size, size - 1, N, L, edges, [])
    start = f"opened {size} {N} {L} {items(f'edge {l} {r} {w}' for l, r, w in edges)} []"
    circle = rng.sample(range(size), size)
    twice = circle[:-1] + [circle[rng.randrange(size - 1)]]
    calls = [('defect', v, 1) for v in range(size)]
    calls += [('blossom', 1, twice), ('blossom', 2, circle), ('length', size, 0, True)]
    return case(name, start, [line(st, c) for c in calls], st)


def streams(rng, count):
    out = [x for x in M.frames() if len(x[0]) < 1200]
    return rng.sample(out, min(count, len(out)))


def fitting(text, space):
    out = b''
    for l in text.splitlines(keepends=True):
        if len(out) + len(l) > space: break
        out += l
    return out


def stream_case(name, data, text, space):
    SEEN['stream'] += 1
    return f'''{name} : (lines_of {nats(data)} ≡ {nats(text)}) × (fitted_lines {nats(data)} {space} ≡ {nats(fitting(text, space))})
unfolding everything end_text contact_text
{name} = (refl, refl)

'''


STREAMS = '''-- Record streams, and the lines that they give.
use Rattle.std.specs.Prelude.{ℕ, ◌≡◌, refl, List, [], ◌∷◌}
use Rattle.records.specs.Lines.{end_text, contact_text}
use Rattle.records.specs.Run.{lines_of, fitted_lines}
use Rattle.records.specs.Opens.{everything}

'''


def main():
    p = argparse.ArgumentParser(description=__doc__, formatter_class=argparse.RawDescriptionHelpFormatter)
    for name, default in ('lists', 600), ('states', 200), ('streams', 100), ('circles', 5), ('seed', 1):
        p.add_argument('--' + name, type=int, default=default)
    p.add_argument('--keep', help='write the copy here and leave it')
    o = p.parse_args()
    rng = random.Random(o.seed)
    modules, per = {}, 20
    for kind, count, make, what in (
            ('Lists', o.lists, list_case, 'Random call lists.'),
            ('States', o.states, state_case, 'Sound states that no call list reaches.'),
            ('Circles', o.circles, circle_case, 'Circles of up to 63 nodes and longer ones.')):
        for f in range(0, count, per):
            cases = [make(rng, f'case{k}') for k in range(f, min(f + per, count))]
            modules[f'{kind}{f // per}'] = HEAD.format(what) + ''.join(cases)
    chosen = streams(rng, o.streams) if o.streams else []
    for f in range(0, len(chosen), per):
        modules[f'Streams{f // per}'] = STREAMS + ''.join(
            stream_case(f'stream{f + k}', d, t, rng.randint(0, len(t) + 3)) for k, (d, t) in enumerate(chosen[f:f + per]))
    top = o.keep or tempfile.mkdtemp()
    shutil.copytree(TOP, top, dirs_exist_ok=True, ignore=shutil.ignore_patterns('.git', 'target', 'out'))
    subprocess.run(['git', 'init', '-q', top], check=True)
    specs = os.path.join(top, 'crates', 'trial', 'specs')
    os.makedirs(specs, exist_ok=True)
    os.makedirs(os.path.join(top, 'crates', 'trial', 'src'), exist_ok=True)
    open(os.path.join(top, 'crates', 'trial', 'src', 'lib.rt'), 'w').write('#![tactic(auto)]\n\n// Tests only.\n')
    deps = 'graph open_graph pass answers update_length growth calls records dual_module_node'
    open(os.path.join(top, 'crates.txt'), 'a').write(f'trial: {deps}\n')
    open(os.path.join(specs, 'Lib.antt'), 'w').write('-- Tests.\n' + ''.join(f'pub mod {m}\n' for m in modules))
    for m, text in modules.items(): open(os.path.join(specs, m + '.antt'), 'w').write(text)
    run = subprocess.run(['rt', 'check'], cwd=os.path.join(top, 'crates', 'trial'), capture_output=True, text=True)
    said = run.stdout.splitlines() + run.stderr.splitlines()
    for l in [l for l in said if 'error' in l] or said[-9:] * (run.returncode != 0): print(l[:300])
    print(f'seed {o.seed}: {o.lists} call lists, {o.states} states that no call list reaches, {len(chosen)} record '
          f'streams, {o.circles} circles; ' + ', '.join(f'{k} {v}' for k, v in sorted(SEEN.items())))
    if not o.keep: shutil.rmtree(top)
    sys.exit(run.returncode)


if __name__ == '__main__':
    main()
