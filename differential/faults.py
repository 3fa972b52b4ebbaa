#!/usr/bin/env python3
"""faults.py [RUNS] [WORD]: the comparison must notice faults. Each edit below goes into a copy of the Rust; run.sh on
it must find differences, library-run.sh where only the state shows the fault, rounds-run.sh where it is in the calls
for all clusters, opening-run.sh where it is in the opening of a blossom, or erasure-run.sh where it is in a change of
weights. With WORD only the faults whose name has it.

Needs what these need, and their archives built before. FB_SRC as for run.sh.
"""
import os, re, shutil, subprocess, sys, tempfile

HERE = os.path.dirname(os.path.abspath(__file__))
ROOT = os.path.dirname(HERE)
SRC = os.environ.get('FB_SRC')

# name, old text, new text, which of the places (None: all)
FAULTS = [
    ('the gap to a Stay peer is halved', 'DualNodeGrowState::Stay => remaining_length,',
     'DualNodeGrowState::Stay => remaining_length / 2,', 0),
    ('an odd gap is halved upward', 'remaining_length / 2\n', '(remaining_length + 1) / 2\n', 0),
    ('every overgrown entry grows (shrinking them all as well would undo it)', '                *overgrown += length;\n',
     '                *overgrown += length;\n'
     '                for x in dual_node_internal.overgrown_stack.iter_mut().take(last_index)'
     ' { x.1 += length.max(0); }\n', 0),
    ('one of two edges that fill together is dropped',
     'edge.left_growth + edge.right_growth == edge.weight && peer_dual_node.is_none() {',
     'edge.left_growth + edge.right_growth == edge.weight && peer_dual_node.is_none()\n'
     '&& !self.propagating_vertices.iter().any(|x| x.0 == if is_left { edge.right.clone() } else { edge.left.clone() }) {', 0),
    ('an edge held twice is capped at its weight', '                (edge.left_growth + edge.right_growth, edge.weight)\n',
     '                let over = edge.left_growth + edge.right_growth - edge.weight;\n'
     '                if over > 0 && edge.left_dual_node == edge.right_dual_node {\n'
     '                    if is_left { edge.left_growth -= over } else { edge.right_growth -= over }\n                }\n'
     '                (edge.left_growth + edge.right_growth, edge.weight)\n', 0),
    ('shrinking forgets the top overgrown amount', 'max_length_abs = std::cmp::min(max_length_abs, *overgrown);', '', 0),
    ('a circle is joined backward',
     'for dual_node_weak in nodes_circle.iter() {\n                        let dual_node_ptr',
     'for dual_node_weak in nodes_circle.iter().rev() {\n                        let dual_node_ptr', 0),
    ('a stop forgets its second peer', 'if &peer_dual_node_ptr != other_dual_node_ptr {', 'if false {', 0),
    ('taking a vertex over an edge of weight 0 calls for no other pass', 'newly_propagated_edge_has_zero_weight = true;', '', 0),
    ('clear keeps the growth', 'self.clear_graph();\n        self.nodes_length = 0;', 'self.nodes_length = 0;', 0),
]
IN_STATES = [
    ('a released vertex keeps its grandson', '                            vertex.propagated_grandson_dual_node = None;\n', '', 0),
]
IN_ROUNDS = [
    ('a round grows first, then shrinks',
     'if matches!(dual_node.grow_state, DualNodeGrowState::Shrink) {\n'
     '                self.grow_dual_node(&dual_node_ptr, -length);\n            }\n        }\n'
     '        // then grow those needed\n',
     'if matches!(dual_node.grow_state, DualNodeGrowState::Grow) {\n'
     '                self.grow_dual_node(&dual_node_ptr, length);\n            }\n        }\n'
     '        for i in 0..self.active_list.len() {\n'
     '            let dual_node_ptr = self.active_list[i].upgrade_force().read_recursive().origin.upgrade_force();\n'
     '            let dual_node = dual_node_ptr.read_recursive();\n'
     '            if matches!(dual_node.grow_state, DualNodeGrowState::Shrink) {\n'
     '                self.grow_dual_node(&dual_node_ptr, -length);\n            }\n        }\n'
     '        if length > 0 {\n            return;\n        }\n', 0),
    ('the group leaves out its second conflict', '            list.push(max_update_length);\n        }\n    }\n',
     '            if list.len() != 1 {\n                list.push(max_update_length);\n            }\n        }\n    }\n', 0),
    ('the active list is not renewed', '        self.active_list = updated_active_list;\n',
     '        let _ = updated_active_list;\n', 0),
]
RECOVER = '        // recover edge belongings\n'
IN_OPENINGS = [
    ('an opening does not prepare the blossom',
     '        self.prepare_dual_node_growth(&dual_node_ptr, false); // prepare the blossom into shrinking\n', '', 0),
    ('the first member does not get its sides back',
     'for circle_dual_node_weak in nodes_circle.iter() {\n                let circle_dual_node_ptr',
     'for circle_dual_node_weak in nodes_circle.iter().skip(1) {\n                let circle_dual_node_ptr', 0),
    ('a left side that is freed loses its grandson too',
     '                edge.left_dual_node = None;\n            } else {\n'
     '                edge.right_dual_node = None;\n            }\n        }\n        if let',
     '                edge.left_dual_node = None;\n                edge.left_grandson_dual_node = None;\n'
     '            } else {\n                edge.right_dual_node = None;\n            }\n        }\n        if let', 0),
    ('an opening takes the growth of the blossom\'s sides back by 1', RECOVER,
     RECOVER + '        if let Some((left, e)) = dual_node_internal.boundary.first() {\n'
     '            let e = e.upgrade_force();\n            let mut e = e.write(active_timestamp);\n'
     '            if *left { e.left_growth -= 1 } else { e.right_growth -= 1 }\n        }\n', 0),
    ('a member goes to the front of the active list',
     '        self.nodes[node_idx as usize] = None; // simply remove this blossom node\n',
     '        if let DualNodeClass::Blossom { nodes_circle, .. } = &node.class {\n'
     '            let m = self.get_dual_node_internal_ptr(&nodes_circle[0].upgrade_force()).downgrade();\n'
     '            self.active_list.insert(0, m);\n        }\n'
     '        self.nodes[node_idx as usize] = None;\n', 0),
]
IN_ERASURES = [
    ('an edge named twice takes the first of its weights', '            let original_weight = edge.weight;\n',
     '            let original_weight = edge.weight;\n'
     '            if self.edge_modifier.iter().any(|x| x.0 == *edge_index) {\n                continue;\n            }\n', 0),
    ('clear gives the weights back in the order of the list', 'self.edge_modifier.pop_modified_edge();',
     'self.edge_modifier.modified.remove(0);', 0),
    ('clear leaves the weight of the edge named first', 'while self.edge_modifier.has_modified_edges() {',
     'while self.edge_modifier.len() > 1 {', 0),
]
# which script notices it, and in how many streams; run.sh where nothing is said
BY = {f[0]: ('library-run.sh', '60') for f in IN_STATES}
BY.update({f[0]: ('rounds-run.sh', '60') for f in IN_ROUNDS})
BY.update({f[0]: ('opening-run.sh', '60') for f in IN_OPENINGS})
BY.update({f[0]: ('erasure-run.sh', '60') for f in IN_ERASURES})
# a fault whose text stands in another file than dual_module_serial
ELSEWHERE = {'the group leaves out its second conflict': 'dual_module'}


def edited(text, old, new, place):
    at = [m.start() for m in re.finditer(re.escape(old), text)]
    assert at, old
    return text[:at[place]] + new + text[at[place] + len(old):]


def main():
    if not SRC:
        print('The comparison needs three Rust files that are not in this repository: FB_SRC=FOLDER names their '
              'folder (differential/README.md).', file=sys.stderr)
        sys.exit(2)
    runs = sys.argv[1] if len(sys.argv) > 1 else '2000'
    faults = FAULTS + IN_STATES + IN_ROUNDS + IN_OPENINGS + IN_ERASURES
    chosen = [f for f in faults if len(sys.argv) < 3 or sys.argv[2] in f[0]]
    missed = 0
    work = tempfile.mkdtemp()
    env = dict(os.environ, FB_SRC=os.path.join(work, 'src'), FOUND=os.path.join(work, 'found'))
    for name, archive in (('ARCHIVE', 'libcardrun_lines.a'), ('LIBRARY', 'libfusion_blossom.a')):
        env.setdefault(name, os.path.join(ROOT, 'target', 'lib', archive))
    env.setdefault('CARGO_TARGET_DIR', os.path.join(ROOT, 'target', 'faults'))
    try:
        for name, old, new, place in chosen:
            script, times = BY.get(name, ('run.sh', runs))
            shutil.rmtree(env['FB_SRC'], ignore_errors=True)
            os.mkdir(env['FB_SRC'])
            for m in ('dual_module_serial', 'dual_module', 'util'):
                path = os.path.join(SRC, 'src--src--%s.rs.txt' % m)
                text = open(path if os.path.exists(path) else os.path.join(SRC, m + '.rs')).read()
                with open(os.path.join(env['FB_SRC'], m + '.rs'), 'w') as f:
                    f.write(edited(text, old, new, place) if m == ELSEWHERE.get(name, 'dual_module_serial') else text)
            p = subprocess.run([os.path.join(HERE, script), times, '1'], env=env, capture_output=True, text=True)
            found = re.search(r'^different: (\d+)$', p.stdout, re.M)
            n = int(found.group(1)) if found else -1
            small = min(re.findall(r'^reduced to: (.*)$', p.stdout, re.M), key=len, default='')
            told = '%d of %s streams differ' % (n, times) if n >= 0 else 'no summary: ' + p.stderr[-300:]
            print('%-70s %s' % (name, told), flush=True)
            if small:
                print('    ' + small, flush=True)
            missed += n <= 0
    finally:
        shutil.rmtree(work, ignore_errors=True)
    print('%d of %d faults noticed' % (len(chosen) - missed, len(chosen)))
    sys.exit(missed > 0)


if __name__ == '__main__':
    main()
