"""What the commands do. Each answers its status."""
import json
import sys

from . import batches, check, dem, dem_graph, json_form, match, page, picture, records, shots, show, table_file, tables
from .faults import BadInput, NoAnswer
from .files import judge, placed, read, script_in, write, write_bytes, write_script
from .plain import complain, say
from .run import Run
from .script import LIBRARY_SIZES
from .standing import of_run as standing_of
from .words import Item


def do_encode(args, name):
    script = script_in(args.file)
    if script.form == 'records':
        raise BadInput('these are records already')
    if script.sheet is not None and script.graph.vanished is None:
        number, at, what = script.graph.fault(LIBRARY_SIZES)
        raise NoAnswer(f'no weights for the records: refused {number}: {what}', at)
    data = script.records()
    if args.out:
        with open(args.out, 'wb') as f:
            f.write(data)
    elif sys.stdout.isatty():
        raise BadInput('records are bytes: -o FILE, or > FILE, takes them')
    else:
        sys.stdout.buffer.write(data)
    return 0


def do_decode(args, name):
    data = read(args.file)
    if not data:
        raise BadInput('the file is empty')
    for line in records.lines(data):
        say(line)
    if not records.looks_like_records(data):
        complain(f'{name}: these are no records; text is run as it is')
        return 1
    return 0


def do_run(args, name):
    run = Run(script_in(args.file))
    if args.json:
        write(args.out, json.dumps(json_form.run_of(run), indent=1) + '\n')
    else:
        for line in show.show(run):
            say(line)
    status = judge(name, run)
    if args.batch:
        tell = complain if args.json and args.out in (None, '-') else say
        tell(batches.report(run, args.batch))
    return status


def do_table(args, name):
    run = Run(script_in(args.file))
    table = run.table()
    rows = [[e, left, right] for e, (left, right) in enumerate(table)]
    write(args.out, json.dumps({'table': rows}) + '\n' if args.json else tables.as_csv(table))
    return judge(name, run)


def do_check(args, name):
    script = script_in(args.file)
    table, duals = None, None
    for path, reader in ((args.table, tables.captured), (args.duals, tables.captured_duals)):
        if path:
            try:
                got = reader(read(path), script.graph)
            except BadInput as e:
                complain(placed(path, e.line, str(e)))
                return e.status
            table, duals = (got, duals) if reader is tables.captured else (table, got)
    checked = check.Captured(script, duals) if duals is not None else check.Checked(script)
    if table is None and duals is not None:
        raise BadInput('dual variables from elsewhere are for a table from elsewhere: --table')
    lines, equal = check.report(
        checked, checked.read() if table is None else table, 'the library read' if table is None else 'was captured'
    )
    for line in lines:
        say(line)
    return 0 if equal else 1


def do_handover(args, name):
    script = script_in(args.file)
    table = tables.captured(read(args.table), script.graph) if args.table else None
    if args.duals:
        if table is None:
            raise BadInput('dual variables from elsewhere are for a table from elsewhere: --table')
        nodes = list(tables.captured_duals(read(args.duals), script.graph).items())
    else:
        checked = check.Checked(script)
        nodes = [(vertex, y) for vertex, _, y in checked.book.nodes]
        table = checked.read() if table is None else table
    missing = [e for e in range(len(script.graph.edges)) if e not in table]
    if missing:
        raise BadInput(f'the table has no row for edge {missing[0]}')
    write_bytes(args.out, table_file.encoded(table_file.of_run(script.graph, nodes, table)))
    return 0


def do_verdict(args, name):
    lines, right = table_file.report(read(args.file))
    for line in lines:
        say(line)
    return 0 if right else 1


def do_explain(args, name):
    checked = check.Checked(script_in(args.file))
    if not 0 <= args.edge < len(checked.graph.edges):
        raise BadInput(f'edge {args.edge}: the graph has 0 to {len(checked.graph.edges) - 1}')
    table = checked.read()
    for line in check.edge_lines(checked, args.edge, table[args.edge]):
        say(line)
    return 0 if not check.compare(checked, {args.edge: table[args.edge]}) else 1


def do_draw(args, name):
    run = Run(script_in(args.file))
    standing = standing_of(run)
    bad = sum(1 for _ in run.unexpected())
    notes = [f"{bad} call{'s' if bad > 1 else ''} refused, or not answered as expected."] if bad else []
    write(args.out, picture.picture(run.script, standing, notes))
    return judge(name, run)


def do_page(args, name):
    out, run = page.page(script_in(args.file))
    write(args.out, out)
    return judge(name, run)


def do_import(args, name):
    model = dem.read(read(args.file))
    title = args.title or f"{name.rsplit('/', 1)[-1]}"
    script, notes = dem_graph.script(model, args.greatest, args.component, title, args.sheet)
    if args.shots or args.fired:
        try:
            data, which = (read(args.shots), args.shot) if args.shots else (args.fired.encode(), 0)
            ds, ls = shots.shot(data, which, model.detectors, model.observables, None if args.shots else 'hits')
        except BadInput as e:
            complain(placed(args.shots or '--fired', e.line, str(e)))
            return e.status
        vertex = {d: v for v, d in enumerate(script.detectors)}
        for d in ds:
            if d in vertex:
                script.items.append(Item(len(script.items) + 1, 'defect', [vertex[d], 1]))
        notes.lines.append(
            f'shot {which}: {sum(d in vertex for d in ds)} of {len(ds)} detectors that fired are in the graph'
            + (f"; observables {' '.join(map(str, ls))} flipped" if ls else '')
        )
    script.settle()
    write_script(args.out, script, args.json, notes.lines)
    tell = say if args.out else complain
    g = script.graph
    tell(
        f'{model.detectors} detectors, {len(model.mechanisms)} mechanisms: '
        f'{g.V} vertices, {len(g.virtual)} of them virtual, and {g.E} edges'
    )
    for line in notes.lines:
        tell(line)
    return 0


def do_match(args, name):
    script = script_in(args.file)
    found, module = match.matched(script)
    if args.out:
        write_script(args.out, script, False)
    for line in match.lines(script, found, module):
        say(line)
    return 0
