#!/usr/bin/env python3
"""Opens pages that show runs in a headless Chromium, compares what is on them with `kpn stats` and `kpn draw`, tells
how long they take, and stores pictures. It is run by hand, and needs Chromium (in Debian the package chromium).

    tools/browser.py FOLDER [--long N]

The pictures go to FOLDER, and the one that VIEWS shows to docs/pictures/. With `--long N` a run of some N events is
opened and timed too.
"""
import argparse
import base64
import contextlib
import json
import os
import pathlib
import random
import re
import shutil
import subprocess
import sys
import tempfile
import time

TOP = pathlib.Path(__file__).resolve().parent.parent
for folder in ('python', 'python/tests'):
    sys.path.insert(0, str(TOP / folder))

import kpn  # noqa: E402
import test_view  # noqa: E402
from kpn import parts, program, view  # noqa: E402

# The most bytes of a picture of the documents.
MOST_BYTES = 150_000
NAMES = ('chromium', 'chromium-browser', 'google-chrome')
WORDS = ('--headless=new', '--no-sandbox', '--remote-debugging-pipe', '--disable-gpu', '--hide-scrollbars',
         '--window-size=1500,950')


class Browser:
    """A Chromium that is told what to do by messages over two pipes."""

    def __init__(self):
        path = next((found for found in map(shutil.which, NAMES) if found), None)
        if not path:
            sys.exit('there is no Chromium: apt-get install chromium')
        self.folder = tempfile.TemporaryDirectory(ignore_cleanup_errors=True)
        words, self.to = os.pipe()
        self.answers, told = os.pipe()
        # Chromium reads from 3 and writes to 4.
        start = ('exec 3<&{} 4>&{}; shift; exec "$@"').format(words, told)
        self.process = subprocess.Popen(['bash', '-c', start, 'bash', '-', path, *WORDS,
                                         f'--user-data-dir={self.folder.name}'], pass_fds=(words, told),
                                        stderr=subprocess.DEVNULL, start_new_session=True)
        os.close(words)
        os.close(told)
        self.count, self.rest, self.errors, self.session = 0, b'', [], None
        target = self.tell('Target.createTarget', url='about:blank')['targetId']
        self.session = self.tell('Target.attachToTarget', targetId=target, flatten=True)['sessionId']
        for domain in ('Page', 'Runtime', 'Log'):
            self.tell(f'{domain}.enable')

    def message(self):
        """The next message of the browser."""
        while b'\0' not in self.rest:
            data = os.read(self.answers, 1 << 20)
            if not data:
                raise EOFError('the browser has ended')
            self.rest += data
        one, _, self.rest = self.rest.partition(b'\0')
        return json.loads(one)

    def tell(self, method, **given):
        """Sends a message, and gives what the browser answers."""
        self.count += 1
        sent = {'id': self.count, 'method': method, 'params': given}
        if self.session:
            sent['sessionId'] = self.session
        os.write(self.to, json.dumps(sent).encode() + b'\0')
        while True:
            found = self.message()
            if found.get('id') == self.count:
                if 'error' in found:
                    raise RuntimeError(found['error'])
                return found['result']
            if found['method'] in ('Runtime.exceptionThrown', 'Log.entryAdded'):
                self.errors.append(found['params'])

    def run(self, script):
        """What a script of the page gives."""
        found = self.tell('Runtime.evaluate', expression=script, awaitPromise=True, returnByValue=True)
        if 'exceptionDetails' in found:
            raise RuntimeError(found['exceptionDetails'])
        return found['result'].get('value')

    def work(self):
        """The seconds that processors have worked for the browser, in all of its processes."""
        total = 0
        for stat in pathlib.Path('/proc').glob('[0-9]*/stat'):
            with contextlib.suppress(OSError):
                words = stat.read_text().rpartition(')')[2].split()
                total += sum(map(int, words[11:13])) if int(words[3]) == self.process.pid else 0
        return total / os.sysconf('SC_CLK_TCK')

    def open(self, path, dark=False):
        """Opens a page, and gives the seconds until it is ready, and those of processors."""
        scheme = {'name': 'prefers-color-scheme', 'value': 'dark' if dark else 'light'}
        self.tell('Emulation.setEmulatedMedia', features=[scheme])
        start, work = time.perf_counter(), self.work()
        self.tell('Page.navigate', url=f'file://{path}')
        while not self.run('window.kpn ? 1 : 0'):
            time.sleep(.02)
        self.run('new Promise(done => requestAnimationFrame(() => requestAnimationFrame(done)))')
        return time.perf_counter() - start, self.work() - work

    def key(self, *keys):
        """Presses keys, one after the other."""
        for key in keys:
            self.tell('Input.dispatchKeyEvent', type='keyDown', key=key, text=key if len(key) == 1 else '')
            self.tell('Input.dispatchKeyEvent', type='keyUp', key=key)

    def picture(self, path):
        """Stores what is seen."""
        self.run('new Promise(done => requestAnimationFrame(() => requestAnimationFrame(done)))')
        pathlib.Path(path).write_bytes(base64.b64decode(self.tell('Page.captureScreenshot')['data']))

    def print(self, path):
        """Prints the page."""
        found = self.tell('Page.printToPDF', printBackground=True, landscape=True)
        pathlib.Path(path).write_bytes(base64.b64decode(found['data']))

    def close(self):
        """Ends the browser."""
        self.session = None
        self.tell('Browser.close')
        self.process.wait()


# ---- networks for pictures

def signal(count):
    """A signal with noise."""
    source = random.Random(count)
    return [round(1000 * (k % 50) / 50) + source.randrange(-200, 200) for k in range(count)]


def small():
    """Three processes."""
    net = kpn.Network()
    net.sink('y', parts.scale(parts.gain(parts.delay(net.source('x')), 3), 2))
    return net, signal(60)


def bank(count):
    """Filters side by side and added up, each in a scope of its own."""
    net = kpn.Network()
    streams, sums = parts.fork(net.source('x'), count), []
    for number, stream in enumerate(streams):
        with net.scope(f'band_{number}'):
            sums.append(parts.fir(stream, [number + 1, 2, 3]))
    while len(sums) > 1:
        sums = [parts.add(*sums[k:k + 2]) if k + 1 < len(sums) else sums[k] for k in range(0, len(sums), 2)]
    net.sink('y', sums[0])
    return net, signal(300)


def row(count):
    """A long row of processes."""
    net = kpn.Network()
    stream = net.source('x')
    for number in range(count):
        stream = parts.gain(stream, 1 + number % 2) if number % 9 else parts.scale(stream, 3)
    net.sink('y', stream)
    return net, signal(300)


def stored(folder, name, net, items, **options):
    """The page of a run of a network."""
    file, trace, html = (pathlib.Path(folder, f'{name}.{it}') for it in ('kpn', 'trace', 'html'))
    net.run(items, trace=str(trace), **options)
    file.write_text(str(net))
    start = time.perf_counter()
    html.write_text(view.page(file, trace))
    print(f'{name}: {len(net.layout().instances)} processes, page of {html.stat().st_size:,} bytes, '
          f'made in {time.perf_counter() - start:.1f} s')
    return file, trace, html


# ---- what is on a page

TABLE = '''(name => [...document.querySelectorAll(`#table_${name} tr`)].map(row => [...row.children].map(it =>
    it.textContent.trim())))'''


def compare(browser, file, trace):
    """Compares what is shown at the end of a run with `kpn stats` and `kpn draw`."""
    state = browser.run('JSON.stringify(window.kpn.state())')
    state = json.loads(state)
    names = [{'name': it['name']} for it in state['channels']]
    for name in ('channels', 'processes'):
        table = program.call(['stats', str(file), str(trace), '--tsv', name]).stdout
        wanted = [line.split('\t') for line in table.splitlines()]
        browser.run(f'document.getElementById("tab_{name}").click()')
        assert browser.run(f'{TABLE}("{name}")') == wanted, (file, name)
    shown = [it['shown'] for it in state['channels']]
    drawn = program.call(['draw', str(file), str(trace)]).stdout
    edges = [label for thing, label in test_view.LABEL.findall(drawn) if '->' in thing]
    for label, text in zip(edges, shown):
        found = re.match(r'(\w+).*\\n\d+ put, (\d+) unread', label)
        name, left = text.split('/')[0].split(' ')
        # Within its group a channel has a shorter name, and it may be cut.
        assert left == found[2] and name.rstrip('\u2026') in found[1], (file, label, text)
    boxes = [label for thing, label in test_view.LABEL.findall(drawn) if thing[0] == 'p' and '->' not in thing]
    for label, process in zip(boxes, state['processes']):
        assert ''.join(label.split('\\n')[1:]) == test_view.end_of(process, names).strip('-'), (file, label, process)
    assert not browser.errors, browser.errors
    return state


def look(browser, name, html, folder):
    """Stores pictures of a page: as it opens, with a channel and a process chosen, dark, and printed."""
    took, work = browser.open(html)
    print(f'{name}: opened in {took:.2f} s, by {work:.2f} s of processors')
    browser.picture(folder / f'{name}.png')
    browser.run('kpn.app.choose("channel", Math.floor(kpn.app.run.channels.length / 2)); '
                'kpn.app.go(Math.floor(kpn.app.model.length / 2))')
    browser.picture(folder / f'{name}_channel.png')
    browser.run('kpn.app.choose("process", Math.floor(kpn.app.run.instances.length / 2)); '
                'kpn.app.time.look(kpn.app.model.length / 2 - 20, kpn.app.model.length / 2 + 20)')
    browser.picture(folder / f'{name}_process.png')
    browser.key('c', 'c')
    browser.run('kpn.app.time.whole()')
    browser.key('d')
    browser.picture(folder / f'{name}_dark.png')
    browser.print(folder / f'{name}.pdf')


def for_documents(browser, folder):
    """Stores the picture of docs/VIEWS.md."""
    items = pathlib.Path(folder, 'items')
    items.write_text(''.join(f'{item}\n' for item in signal(60)))
    text = (TOP / 'examples/moving_average.kpn').read_text()
    html = test_view.Stored(folder, text, 'moving_average', ['--source', f'signal={items}'], commits=10**6,
                            with_graphviz=True).html
    browser.tell('Emulation.setDeviceMetricsOverride', width=1180, height=700, deviceScaleFactor=1, mobile=False)
    browser.open(html)
    browser.run('kpn.app.choose("process", 4); kpn.app.go(120); kpn.app.time.look(105, 135)')
    path = TOP / 'docs/pictures/page.png'
    browser.picture(path)
    assert path.stat().st_size <= MOST_BYTES, path.stat().st_size
    browser.tell('Emulation.clearDeviceMetricsOverride')


def tries(browser, folder):
    """Compares random runs, and those of examples."""
    count = 0
    for seed in range(20):
        it = test_view.Stored(folder, test_view.random_text(seed), f'random_{seed}', cut=seed if seed % 3 else None)
        browser.open(it.html)
        compare(browser, it.file, it.trace)
        count += 1
    for file in sorted([*(TOP / 'examples').glob('*.kpn'), *(TOP / 'examples/gallery').glob('*.kpn')]):
        it = test_view.Stored(folder, file.read_text(), file.stem)
        browser.open(it.html)
        compare(browser, it.file, it.trace)
        browser.key('Home', '.', '.', ']', 'n', 'c', 'ArrowDown', 'n', 'p', 'e', '+', 'End', 't', '0', 'd', 'd')
        assert not browser.errors, browser.errors
        count += 1
    print(f'{count} pages show what `kpn stats` and `kpn draw` say')


def main():
    asked = argparse.ArgumentParser()
    asked.add_argument('folder', type=pathlib.Path)
    asked.add_argument('--long', type=int)
    given = asked.parse_args()
    given.folder.mkdir(parents=True, exist_ok=True)
    browser = Browser()
    with tempfile.TemporaryDirectory() as folder:
        for name, (net, items) in {'3': small(), '60': bank(25), '250': row(250)}.items():
            file, trace, html = stored(folder, name, net, items)
            look(browser, name, html, given.folder)
            browser.open(html)
            compare(browser, file, trace)
        for_documents(browser, folder)
        tries(browser, folder)
        if given.long:
            net, items = bank(4)
            file, trace, html = stored(folder, 'long', net, items)
            count = given.long * len(items) // len(trace.read_bytes().splitlines())
            file, trace, html = stored(folder, 'long', net, signal(count), max_commits=10**9)
            print(f'long: {len(trace.read_bytes().splitlines()):,} lines of the trace')
            look(browser, 'long', html, given.folder)
            browser.open(html)
            compare(browser, file, trace)
    browser.close()


if __name__ == '__main__':
    main()
