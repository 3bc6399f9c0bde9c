"""A headless Chromium, driven over a pipe by the DevTools protocol."""
import json
import os
import select
import shutil
import signal
import subprocess
import tempfile
import time

NAMES = ('chromium', 'chromium-browser', 'google-chrome', 'chrome')
SECONDS = 300
MOST_MEMORY = 2 * 1024 * 1024   # kilobytes that each process of the browser may have
KEYS = {'Tab': 9, 'Enter': 13, 'Escape': 27, ' ': 32, 'PageUp': 33, 'PageDown': 34, 'End': 35, 'Home': 36, 'ArrowLeft': 37,
        'ArrowUp': 38, 'ArrowRight': 39, 'ArrowDown': 40}
TEXTS = {'Enter': '\r', ' ': ' '}
MODIFIERS = {'Alt': 1, 'Control': 2, 'Meta': 4, 'Shift': 8}


def installed():
    """The browser's program, or None."""
    return next((found for found in map(shutil.which, NAMES) if found), None)


class Browser:
    """A browser with one page. Every request of the page to a network fails, since it has no host to ask."""

    def __init__(self, width=1200, height=900):
        self.home = tempfile.mkdtemp()
        asked, self.asking = os.pipe()
        self.answers, answering = os.pipe()
        words = [installed(), '--headless=new', '--remote-debugging-pipe', '--no-first-run', '--disable-gpu', '--hide-scrollbars',
                 '--disable-extensions', '--disable-background-networking', '--disable-dev-shm-usage', '--host-resolver-rules=MAP * ~NOTFOUND',
                 f'--user-data-dir={self.home}', f'--window-size={width},{height}', 'about:blank']
        if os.getuid() == 0:
            words.insert(1, '--no-sandbox')
        self.process = subprocess.Popen(
            ['sh', '-c', f'ulimit -d {MOST_MEMORY}; exec "$@" 3<&{asked} 4>&{answering}', 'sh', *words], pass_fds=(asked, answering),
            stdout=subprocess.DEVNULL, stderr=subprocess.DEVNULL, start_new_session=True)
        os.close(asked)
        os.close(answering)
        self.waiting = b''
        self.number = 0
        self.events = []
        self.session = None
        target = next(it for it in self.ask('Target.getTargets')['targetInfos'] if it['type'] == 'page')
        self.session = self.ask('Target.attachToTarget', targetId=target['targetId'], flatten=True)['sessionId']
        for domain in ('Page', 'Runtime', 'Network', 'Log', 'Inspector'):
            self.ask(f'{domain}.enable')
        self.ask('Performance.enable', timeDomain='threadTicks')

    def message(self):
        """The next message of the browser, which has to come in time."""
        while b'\0' not in self.waiting:
            if not select.select([self.answers], [], [], SECONDS)[0]:
                raise RuntimeError('the browser does not answer')
            piece = os.read(self.answers, 1 << 20)
            if not piece:
                raise RuntimeError('the browser ended')
            self.waiting += piece
        text, self.waiting = self.waiting.split(b'\0', 1)
        told = json.loads(text)
        if told.get('method') in ('Inspector.targetCrashed', 'Target.targetCrashed'):
            raise RuntimeError('the page crashed')
        return told

    def ask(self, method, **parameters):
        """The answer to a command; events that come before it are kept."""
        self.number += 1
        message = {'id': self.number, 'method': method, 'params': parameters}
        if self.session:
            message['sessionId'] = self.session
        data = json.dumps(message).encode() + b'\0'
        while data:
            data = data[os.write(self.asking, data):]
        while True:
            told = self.message()
            if told.get('id') == self.number:
                if 'error' in told:
                    raise RuntimeError(f'{method}: {told["error"]["message"]}')
                return told['result']
            self.events.append(told)

    def run(self, script):
        """The value of an expression of the page; a promise is waited for."""
        told = self.ask('Runtime.evaluate', expression=script, returnByValue=True, awaitPromise=True)
        if 'exceptionDetails' in told:
            raise RuntimeError(told['exceptionDetails'].get('exception', {}).get('description', script))
        return told['result'].get('value')

    def wait(self, script, seconds=SECONDS):
        """Waits until an expression is true; answers the seconds that it took. What the page's thread took of a processor between
        two of its answers, at most, is `longest`: so long it did nothing else."""
        began, before, self.longest = time.monotonic(), self.processor_seconds(), 0
        while True:
            done, taken = self.run(script), self.processor_seconds()
            self.longest, before = max(self.longest, taken - before), taken
            if done:
                return time.monotonic() - began
            if time.monotonic() - began > seconds:
                raise RuntimeError(f'not true in time: {script}')
            time.sleep(0.01)

    def press(self, key, modifier=None, times=1):
        """Presses a key as a hand does, with Shift or Control if it is named."""
        held = MODIFIERS[modifier] if modifier else 0
        told = {'key': key, 'code': 'Space' if key == ' ' else key, 'windowsVirtualKeyCode': KEYS[key], 'modifiers': held}
        text = {'text': TEXTS[key]} if key in TEXTS else {}
        for _ in range(times):
            self.ask('Input.dispatchKeyEvent', type='keyDown' if text else 'rawKeyDown', **told, **text)
            self.ask('Input.dispatchKeyEvent', type='keyUp', **told)

    def type(self, text):
        """Types a text into what has the focus."""
        for mark in text:
            self.ask('Input.dispatchKeyEvent', type='keyDown', text=mark, key=mark)
            self.ask('Input.dispatchKeyEvent', type='keyUp', key=mark)

    def place(self, expression):
        """The middle of an element on the screen, which is scrolled into view."""
        return self.run(f'''(() => {{
            const element = {expression};
            element.scrollIntoView({{ block: 'center' }});
            const box = element.getBoundingClientRect();
            return [box.left + box.width / 2, box.top + box.height / 2];
        }})()''')

    def click(self, expression):
        """Clicks on an element with the mouse."""
        x, y = self.place(expression)
        for kind in ('mousePressed', 'mouseReleased'):
            self.ask('Input.dispatchMouseEvent', type=kind, x=x, y=y, button='left', clickCount=1)

    def wheel(self, expression, by):
        """Turns the wheel of the mouse over an element."""
        x, y = self.place(expression)
        self.ask('Input.dispatchMouseEvent', type='mouseWheel', x=x, y=y, deltaX=0, deltaY=by)

    def show(self, width=1200, height=900, media='', scheme='light'):
        """Shows the page in this size, on a screen or as it is printed, light or dark."""
        self.ask('Emulation.setDeviceMetricsOverride', width=width, height=height, deviceScaleFactor=1, mobile=False)
        self.ask('Emulation.setEmulatedMedia', media=media, features=[{'name': 'prefers-color-scheme', 'value': scheme}])

    def save_to(self, folder):
        """Has what the page saves put into a folder."""
        self.ask('Page.setDownloadBehavior', behavior='allow', downloadPath=folder)

    def open(self, path, seconds=SECONDS):
        """Opens a page from disk, and waits until it is ready; answers the seconds that it took."""
        began = time.monotonic()
        self.events.clear()
        self.ask('Page.navigate', url='file://' + os.path.abspath(path))
        self.wait('document.documentElement?.dataset.ready === "yes"', seconds)
        return time.monotonic() - began

    def processor_seconds(self):
        """What the page's thread has taken of a processor since the page was opened."""
        return next(it['value'] for it in self.ask('Performance.getMetrics')['metrics'] if it['name'] == 'ThreadTime')

    def end(self):
        os.close(self.asking)
        try:
            self.process.wait(10)
        except subprocess.TimeoutExpired:
            os.killpg(self.process.pid, signal.SIGKILL)
            self.process.wait()
        os.close(self.answers)
        shutil.rmtree(self.home, ignore_errors=True)
