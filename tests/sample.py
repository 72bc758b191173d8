#!/usr/bin/env python3
"""Runs the commands by which README shows the sample plan, as they stand there, but on free ports.

    tests/sample.py
"""
import os
import re
import shutil
import subprocess
import sys
import tempfile

sys.dont_write_bytecode = True
from lib.nodes import LIMIT, PROGRAM, TOP, free_port, same

PAGE = f'{TOP}/README.md'


def commands():
    """The blocks of README that play the sample plan."""
    with open(PAGE, encoding='utf-8') as file:
        blocks = re.findall(r'^```\n(.*?)^```$', file.read(), re.M | re.S)
    found = [it for it in blocks if 'plans/make-image' in it or 'simulate plans/' in it]
    if len(found) != 2:
        sys.exit('sample: README has no block that plays the sample plan')
    return found


def main():
    with tempfile.TemporaryDirectory() as folder:
        shutil.copytree(f'{TOP}/plans', f'{folder}/plans')
        os.symlink(PROGRAM, f'{folder}/dr_router')
        path = f'{folder}/plans/three-nodes.toml'
        with open(path, encoding='utf-8') as file:
            text = re.sub(r'127\.0\.0\.1:\d+', lambda _: f'127.0.0.1:{free_port()}', file.read())
        with open(path, 'w', encoding='utf-8') as file:
            file.write(text)
        network, alone = commands()
        ended = subprocess.run(['bash', '-euc', network], cwd=folder, stdin=subprocess.DEVNULL, capture_output=True, text=True, timeout=LIMIT, check=False)
        assert ended.returncode == 0, ended
        size = 90
        same(re.sub(r'status\t0000\n', '', ended.stdout),
             'new\nnode\tCT1\narrival\t-\t1.2.3.4\nrow\t1.2.3.4\tGATE\tdone\nlines\t2\n'
             'node\tGATE\narrival\tCT1\t1.2.3.4\nrow\t1.2.3.4\tARCH\tdone\nlines\t2\n'
             f'node\tARCH\narrival\tGATE\t1.2.3.4\nkept\t1.2.3.4\t{size}\nlines\t1\n')
        played = subprocess.run(['bash', '-euc', alone], cwd=folder, stdin=subprocess.DEVNULL, capture_output=True, text=True, timeout=LIMIT, check=False)
        same((played.returncode, played.stderr, 'kept\t1.2.3.4\t' in played.stdout), (0, '', True))
    print('sample: the commands of README do what it says')


main()
