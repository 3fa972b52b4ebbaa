"""One page that steps through the calls of a run: a file that needs nothing but a browser."""
import json
import os
import re

from . import colours, made
from .faults import NoAnswer
from .run import Run
from .scene import Scene
from .steps import Steps
from .svg import safe

FOLDER = os.path.join(os.path.dirname(os.path.abspath(__file__)), 'page')
SCRIPTS = ('state.js', 'derive.js', 'draw.js', 'page.js')


def file(name):
    with open(os.path.join(FOLDER, name), encoding='utf-8') as f:
        return f.read()


def drawn(scene):
    """The scene as the page reads it."""
    near = lambda x: round(x, 1)
    spots = [[[near(x), near(y)] for x, y in places] for places in scene.spots]
    strokes = [
        [[int(s.whole), [[near(x), near(y)] for x, y in s.curve.points]] for s in strokes] for strokes in scene.strokes
    ]
    layers = [scene.layer(v) if v in scene.squares else None for v in range(scene.graph.V)]
    return {
        'wide': near(scene.wide),
        'tall': near(scene.tall),
        'radius': round(scene.radius, 2),
        'thick': round(scene.thick, 2),
        'size': round(scene.size, 2),
        'spacing': round(scene.spacing, 2),
        'panels': [[near(p.x), near(p.y), near(p.wide), near(p.tall), p.name] for p in scene.panels],
        'vertices': spots,
        'strokes': strokes,
        'layers': layers,
    }


def place_name(script, v):
    """What is known of a vertex beside its number."""
    if v not in script.at:
        return ''
    return 'at ' + ', '.join(f'{x:g}' for x in script.at[v])


def page(script):
    """The page of a script's run, and the run."""
    if not script.well_formed:
        raise NoAnswer('an ill-formed record ends the run: no page can be made of it')
    if not made.available():
        raise NoAnswer(f'the page is made by the library: {made.BUILD}')
    steps = Steps()
    run = Run(script, steps)
    if run.refused:
        at, what = run.opening_fault()
        raise NoAnswer(f'the opening is {what}', at)
    scene = Scene(script)
    told = steps.told(run)
    most = max((n for s in told for n, _ in s['nodes']), default=0) + 1
    data = {
        **drawn(scene),
        'edges': [list(e) for e in script.graph.edges],
        'virtual': sorted(script.graph.virtual),
        'steps': told,
        'colours': [colours.of_node(n) for n in range(most)],
        'names': [place_name(script, v) for v in range(script.graph.V)],
        'opening': f'{script.graph.V} vertices, {len(script.graph.virtual)} of them virtual, and {script.graph.E} edges',
    }
    held = json.dumps(data, separators=(',', ':')).replace('<', '\\u003c')
    parts = {
        'title': safe(script.title or 'A run of the card'),
        'css': file('page.css'),
        'js': '\n'.join(file(s) for s in SCRIPTS),
        'data': held,
    }
    return re.sub(r'\{\{(\w+)\}\}', lambda m: parts[m[1]], file('page.html')), run
