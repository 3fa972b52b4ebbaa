#!/usr/bin/env python3
"""The page that steps through a run.

What needs a browser is skipped where there is none. PICTURES names a folder for screenshots.
"""
import json
import os
import re
import tempfile
import unittest

from common import P, InFolder, card, content, needs_library
from cardtool import check, made, standing, text
import browser

needs_browser = unittest.skipUnless(browser.program(), 'no browser is here (chromium)')


def data_of(path):
    """The run that a page holds."""
    return json.loads(
        re.search(r'<script type="application/json" id="run">(.*?)</script>', content(path).decode(), re.S)[1]
    )


def states(script, at):
    """The growths, and the nodes' dual variables, after some of the calls, worked out by running only so many."""
    out = {}
    for k in at:
        part = text.parse(content(script))
        calls = part.calls()
        part.items = [i for i in part.items if not i.is_call()] + calls[:k]
        got = standing.of_module(made.Made(part).module)
        out[k] = ([x for pair in got.growths for x in pair], [n.dual for n in got.nodes])
    return out


@needs_library
class Page(InFolder):
    def test_one_file_without_anything_from_outside(self):
        out = self.path('page.html')
        evil = '# </script><script>alert(1)</script> {{data}}\n' + P + 'defect 1 grow; advance 0'
        self.assertEqual(card('page', '-', '-o', out, given=evil), (0, '', ''))
        page = content(out).decode()
        self.assertEqual(page.count('<script'), 2)
        self.assertNotIn('alert(1)</script>', page)
        self.assertFalse(re.search(r'(src|href)\s*=', page))
        self.assertEqual(set(re.findall(r'https?://[^\s"\'`<]+', page)), {'http://www.w3.org/2000/svg'})
        self.assertIn("default-src 'none'", page)

    def test_an_inner_edge_is_called_so(self):
        out = self.path('page.html')
        self.assertEqual(card('page', 'examples/p9.txt', '-o', out), (0, '', ''))
        steps = data_of(out)['steps']
        self.assertEqual(dict(map(tuple, steps[2]['gap']))[2], 'inner')
        self.assertEqual(steps[2]['growth'][-3:], [[4, 3], [5, 3], [6, 3]])

    def test_steps_have_answers_and_changes(self):
        out = self.path('page.html')
        self.assertEqual(card('page', 'examples/p1.txt', '-o', out), (0, '', ''))
        steps = data_of(out)['steps']
        self.assertEqual(
            [s['answer'][0] for s in steps[:6]], ['node 0', 'node 1', 'free 2 0', 'done', 'done', 'conflict 1 1 0 0']
        )
        self.assertEqual(steps[3]['growth'], [[1, 2], [2, 2]])
        self.assertEqual(steps[3]['gap'], [[0, 'gap 2'], [1, 'gap 2']])
        self.assertEqual(steps[4]['gap'], [[1, 'gap 0'], [2, 'gap 2']])
        self.assertEqual(steps[5]['words'], 'node 1 and node 0 touch at edge 1')
        self.assertEqual(steps[4]['nodes'], [[1, [2, None, 1, 0, 2]]])

    def test_an_opening_is_a_step(self):
        out = self.path('page.html')
        self.assertEqual(card('page', 'examples/opened.txt', '-o', out), (0, '', ''))
        last = data_of(out)['steps'][-1]
        self.assertEqual((last['answer'], last['words'], last['growth']), (['done'], 'nodes 3, 4, 5 are outermost again', []))
        nodes = dict(last['nodes'])
        self.assertEqual([nodes[n][3] for n in (3, 4, 5)], [0, 0, 0])
        self.assertEqual(nodes[6], [None, None, 0, 0, 0])

    def test_a_change_of_weights_is_a_step(self):
        out = self.path('page.html')
        self.assertEqual(card('page', 'examples/erased.txt', '-o', out)[0], 0)
        data = data_of(out)
        self.assertEqual([s['answer'] for s in data['steps'][:2]], [['done'], ['refused 16']])

    def test_how_it_ends(self):
        out = self.path('page.html')
        self.assertEqual(
            card('page', '-', '-o', out, given='graph 2 1\nedge 0 1 -1')[::2],
            (1, 'standard input:2: the opening is refused 4: edge 0 has weight -1; 0 to 1000000 can be\n'),
        )
        self.assertFalse(os.path.exists(out))
        self.assertEqual(
            card('page', '-', '-o', out, given=P + 'defect 0 grow')[0], 1
        )  # a refused call: the page is there, and a word
        self.assertTrue(os.path.exists(out))
        self.assertIn(
            'tools/build-library.sh',
            card('page', 'examples/p1.txt', '-o', out, environment={'FUSION_BLOSSOM_LIBRARY': 'none'})[2],
        )


@needs_library
@needs_browser
class InBrowser(InFolder):
    @classmethod
    def setUpClass(cls):
        held = tempfile.TemporaryDirectory()
        cls.addClassCleanup(held.cleanup)
        cls.shot, cls.pages = os.path.join(held.name, 'shot.txt'), {}
        patch = os.path.join(held.name, 'patch.txt')
        card(
            'import',
            'examples/patch15.dem',
            '--shots',
            'examples/patch15.01',
            '--shot',
            '2',
            '--greatest',
            '100',
            '-o',
            patch,
        )
        card('match', patch, '-o', cls.shot)
        cls.browser = browser.Browser()
        cls.addClassCleanup(cls.browser.close)

    def opened(self, script, place=''):
        """Opens the page of a script, which is made once."""
        if script not in self.pages:
            self.pages[script] = os.path.join(os.path.dirname(self.shot), f'{len(self.pages)}.html')
            self.assertEqual(card('page', script, '-o', self.pages[script])[0], 0)
        self.browser.noted.clear()
        self.browser.open(self.pages[script] + place)
        return self.browser

    def picture(self, name):
        if os.environ.get('PICTURES'):
            self.browser.picture(os.path.join(os.environ['PICTURES'], name + '.png'))

    def test_forward_back_and_jump(self):
        b = self.opened('examples/surface3.txt')
        self.assertEqual(b.run("byId('call').textContent"), 'contacts')
        growths = lambda: b.run('standing.growth')
        last = growths()
        for _ in range(3):
            b.key('ArrowLeft')
        self.assertEqual(
            b.run('[standing.at, byId("call").textContent, byId("answer").textContent]'), [7, 'state 0 stay', 'done']
        )
        b.run("byId('forward').click()")
        self.assertEqual(b.run('byId("answer").textContent'), 'done · grew by 2')
        self.assertIn('node 1: dual variable 4 → 6', b.run('byId("changed").innerText'))
        b.key('Home')
        self.assertEqual(set(growths()), {0})
        b.run("byId('step').value = 5; byId('step').onchange()")
        self.assertEqual(b.run('standing.at'), 5)
        b.run("byId('list').children[8].click()")
        self.assertEqual(b.run('standing.at'), 9)
        b.key('End')
        self.assertEqual(growths(), last)
        self.assertEqual(b.troubles(), [])
        self.picture('surface3')

    def test_every_state_is_the_library_s(self):
        b = self.opened(self.shot)
        count = b.run('run.steps.length')
        for k, (growth, duals) in states(self.shot, [0, 1, 17, 120, count - 1, count]).items():
            b.run(f'visit({k})')
            self.assertEqual(b.run('standing.growth'), growth, k)
            self.assertEqual(b.run('standing.nodes.map(n => n[4])'), duals, k)
        self.assertEqual(b.troubles(), [])

    def test_back_over_a_clear_and_over_blossoms(self):
        calls = 'defect 1 grow; advance 0; clear; defect 2 grow; defect 1 grow; advance 0; clear; defect 1 stay; table; advance 0'
        for script in (self.path('clear.txt', P + calls), 'examples/nested.txt', 'examples/opened.txt'):
            b = self.opened(script)
            count = b.run('run.steps.length')
            for k, (growth, duals) in sorted(states(script, range(count + 1)).items(), reverse=True):
                b.run(f'visit({k})')
                self.assertEqual(b.run('standing.growth'), growth, k)
                self.assertEqual(b.run('standing.nodes.map(n => n[4])'), duals, k)
            self.assertEqual(b.troubles(), [])

    def test_derivations_are_those_of_the_check(self):
        for script in ('examples/p9.txt', 'examples/surface3.txt', self.shot):
            b = self.opened(script)
            checked = check.Checked(text.parse(content(script)))
            table = checked.read()
            edges = [e for e in table if any(table[e])] + list(range(0, len(table), 97))
            theirs = b.run(f'{json.dumps(edges)}.map(e => [sideLines(2 * e).lines, sideLines(2 * e + 1).lines])')
            for e, told in zip(edges, theirs):
                for name, lines, found in zip(('left', 'right'), told, table[e]):
                    ours = [l.strip() for l in check.side_lines(checked, e, name, found)]
                    plain = [
                        re.sub(': [0-9 -]+$', '', l) if l.strip().startswith('d(') else l for l in ours
                    ]  # equally short ways may differ
                    self.assertEqual(
                        [
                            re.sub(': [0-9 -]+$', '', l.strip()) if l.strip().startswith('d(') else l.strip()
                            for l in lines
                        ],
                        plain,
                    )

    def test_a_click_shows_the_derivation(self):
        b = self.opened(self.shot, '#call=300')
        b.run("chooseEdge(169); centre(middle(169))")
        x, y = b.run(
            "(() => { const p = along(run.strokes[169][0][1], 0.5);"
            "const q = new DOMPoint(p.x, p.y).matrixTransform(svg.getScreenCTM()); return [q.x, q.y]; })()"
        )
        b.run("chooseVertex(0)")
        b.click(x, y)
        said = b.run("byId('about').innerText")
        self.assertIn('edge 169, 91-909, weight 60: growths 34 and 0, gap 26', said)
        self.assertIn('909 is farther by the whole weight: the smaller of 34 - 0 = 34 and 60', said)
        self.assertEqual(b.run('location.hash'), '#call=300&edge=169')
        self.picture('derivation')
        b.key('ArrowRight')  # the derivation follows the step
        self.assertEqual(b.run('location.hash'), '#call=301&edge=169')
        self.assertEqual(b.troubles(), [])

    def test_zoom_and_move(self):
        b = self.opened(self.shot)
        view = lambda: [float(x) for x in b.run("svg.getAttribute('viewBox')").split()]
        before = view()
        self.assertTrue(b.run("svg.classList.contains('small')"))  # too small for letters
        self.picture('whole')
        for _ in range(14):
            b.wheel(300, 400, -120)
        near = view()
        self.assertLess(near[2], before[2] / 5)
        self.assertFalse(b.run("svg.classList.contains('small')"))
        b.drag(300, 400, 200, 340)
        moved = view()
        self.assertGreater(moved[0], near[0])
        self.assertGreater(moved[1], near[1])
        self.picture('near')
        b.run("byId('whole').click()")
        self.assertEqual(view(), before)
        self.assertEqual(b.troubles(), [])

    def test_blossoms(self):
        b = self.opened('examples/nested.txt')
        self.assertEqual(b.run('layers.nests.childElementCount'), 2)
        b.run('chooseEdge(0)')
        self.assertIn('A blossom is there', b.run("byId('about').innerText"))
        b.run('visit(3); chooseEdge(0)')
        self.assertIn('expected 0, found 0', b.run("byId('about').innerText"))
        self.assertEqual(b.run('layers.nests.childElementCount'), 0)
        b.run('visit(15)')
        self.picture('nested')
        self.assertEqual(b.troubles(), [])


if __name__ == '__main__':
    unittest.main()
