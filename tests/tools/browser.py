"""A headless browser for tests, spoken to over a pipe (Chrome's remote debugging protocol).

Nothing but the standard library.
"""
import base64
import json
import os
import shutil
import subprocess
import tempfile
import time

PROGRAMS = ('chromium', 'chromium-browser', 'google-chrome', 'chrome')


def program():
    """The browser of this machine, or None."""
    return os.environ.get('BROWSER_PROGRAM') or next(filter(None, map(shutil.which, PROGRAMS)), None)


class Browser:
    """A page of a headless browser."""

    def __init__(self, width=1500, height=950):
        to_read, self.to = os.pipe()
        self.back, to_write = os.pipe()
        self.folder = tempfile.mkdtemp()
        words = [
            program(),
            '--headless=new',
            '--no-sandbox',
            '--disable-gpu',
            '--hide-scrollbars',
            '--remote-debugging-pipe',
            '--disable-dev-shm-usage',
            '--disable-extensions',
            '--disable-background-networking',
            f'--user-data-dir={self.folder}',
            f'--window-size={width},{height}',
            'about:blank',
        ]

        def only_pipes():  # the browser reads from 3 and writes to 4
            a, b = os.dup(to_read), os.dup(to_write)
            os.dup2(a, 3)
            os.dup2(b, 4)

        self.process = subprocess.Popen(
            words, close_fds=False, preexec_fn=only_pipes, stdout=subprocess.DEVNULL, stderr=subprocess.DEVNULL
        )
        os.close(to_read)
        os.close(to_write)
        self.number, self.rest, self.session, self.noted = 0, b'', None, []
        target = self.ask('Target.createTarget', url='about:blank')['targetId']
        self.session = self.ask('Target.attachToTarget', targetId=target, flatten=True)['sessionId']
        for name in ('Page', 'Runtime', 'Log', 'Network'):
            self.ask(name + '.enable')
        self.ask('Emulation.setDeviceMetricsOverride', width=width, height=height, deviceScaleFactor=1, mobile=False)

    def message(self):
        while b'\0' not in self.rest:
            more = os.read(self.back, 1 << 16)
            if not more:
                raise RuntimeError('the browser has ended')
            self.rest += more
        one, _, self.rest = self.rest.partition(b'\0')
        return json.loads(one)

    def ask(self, method, **params):
        """Sends a command and waits for its result; events on the way are noted."""
        self.number += 1
        said = {
            'id': self.number,
            'method': method,
            'params': params,
            **({'sessionId': self.session} if self.session else {}),
        }
        os.write(self.to, json.dumps(said).encode() + b'\0')
        while True:
            got = self.message()
            if got.get('id') == self.number:
                if 'error' in got:
                    raise RuntimeError(f"{method}: {got['error']}")
                return got['result']
            self.noted.append(got)

    def open(self, path):
        """Opens a file, with a place in it behind #, and waits until it is loaded."""
        name, _, place = path.partition('#')
        self.ask('Page.navigate', url='about:blank')  # a new place in the same file would not load it again
        self.until("location.href === 'about:blank'")
        self.ask('Page.navigate', url='file://' + os.path.abspath(name) + ('#' + place if place else ''))
        self.until("location.protocol === 'file:' && document.readyState === 'complete'")

    def until(self, script, longest=30):
        """Waits until a script is true."""
        end = time.time() + longest
        while True:
            try:
                if self.run(script):
                    return
            except RuntimeError:  # the page was just changing
                pass
            if time.time() > end:
                raise RuntimeError(f'not so after {longest} seconds: {script}')
            time.sleep(0.02)

    def run(self, script):
        """The value of a script in the page."""
        got = self.ask('Runtime.evaluate', expression=script, returnByValue=True, awaitPromise=True)
        if 'exceptionDetails' in got:
            raise RuntimeError(got['exceptionDetails']['exception'].get('description', 'an exception'))
        return got['result'].get('value')

    def click(self, x, y):
        for kind in ('mousePressed', 'mouseReleased'):
            self.ask(
                'Input.dispatchMouseEvent',
                type=kind,
                x=x,
                y=y,
                button='left',
                clickCount=1,
                buttons=1 if kind == 'mousePressed' else 0,
            )

    def drag(self, x, y, u, v):
        self.ask('Input.dispatchMouseEvent', type='mousePressed', x=x, y=y, button='left', buttons=1, clickCount=1)
        for k in range(1, 6):
            self.ask(
                'Input.dispatchMouseEvent',
                type='mouseMoved',
                x=x + (u - x) * k / 5,
                y=y + (v - y) * k / 5,
                button='left',
                buttons=1,
            )
        self.ask('Input.dispatchMouseEvent', type='mouseReleased', x=u, y=v, button='left', buttons=0, clickCount=1)

    def wheel(self, x, y, by):
        self.ask('Input.dispatchMouseEvent', type='mouseWheel', x=x, y=y, deltaX=0, deltaY=by)

    def key(self, name):
        for kind in ('keyDown', 'keyUp'):
            self.ask('Input.dispatchKeyEvent', type=kind, key=name, code=name)

    def picture(self, path):
        with open(path, 'wb') as f:
            f.write(base64.b64decode(self.ask('Page.captureScreenshot', format='png')['data']))

    def troubles(self):
        """Exceptions, errors in the log, and anything that the page asked the network for."""
        out = []
        for m in self.noted:
            if m.get('method') == 'Runtime.exceptionThrown':
                out.append(str(m['params']['exceptionDetails'].get('exception', {}).get('description')))
            if m.get('method') == 'Log.entryAdded' and m['params']['entry']['level'] == 'error':
                out.append(m['params']['entry']['text'])
            if m.get('method') == 'Network.requestWillBeSent' and not m['params']['request']['url'].startswith(
                ('file:', 'about:', 'data:')
            ):
                out.append('asked for ' + m['params']['request']['url'])
        return out

    def close(self):
        try:
            self.session = None
            self.ask('Browser.close')
        except (RuntimeError, OSError):
            pass
        try:
            self.process.wait(10)
        except subprocess.TimeoutExpired:
            self.process.kill()
            self.process.wait()
        os.close(self.to)
        os.close(self.back)
        shutil.rmtree(self.folder, ignore_errors=True)
