#!/usr/bin/env python3
"""How long a script takes on the built program: instances of 1 kB that go over a line of 16 nodes, 15 hops each, over
links that stay open.

    bench/simulate.py            scripts of 25,000, 50,000 and 100,000 steps
"""
import os
import subprocess
import sys
import tempfile
import time

TOP = os.path.dirname(os.path.dirname(os.path.abspath(__file__)))
NODES = [f'N{i:02}' for i in range(16)]
CT, EXPLICIT = '1.2.840.10008.5.1.4.1.1.2', '1.2.840.10008.1.2.1'


def plan():
    parts = []
    for place, name in enumerate(NODES):
        parts.append(f'[[node]]\nname = "{name}"\naddress = "h:1"\n')
        if place:
            parts.append(f'[[node.accept]]\nfrom = "*"\nclass = "{CT}"\nsyntax = ["{EXPLICIT}"]\n[[node.rule]]\n')
            parts.append('keep = true\n' if name == NODES[-1] else f'to = ["{NODES[place + 1]}"]\n')
    parts.append(f'[[flow]]\nat = "N00"\nto = "N01"\nclass = ["{CT}"]\nsyntax = ["{EXPLICIT}"]\nmodality = ["CT"]\nstation = ["S1"]\n')
    return ''.join(parts)


def element(group, number, vr, value):
    return bytes([*group.to_bytes(2, 'little'), *number.to_bytes(2, 'little'), *vr, *len(value).to_bytes(2, 'little')]) + value


def instance(number):
    uid = f'1.2.{1_000_000 + number}'.encode()
    return (element(8, 0x16, b'UI', CT.encode() + b'\0') + element(8, 0x18, b'UI', uid + b'\0' * (len(uid) % 2)) + element(8, 0x60, b'CS', b'CT')
            + element(8, 0x1010, b'SH', b'S1') + element(0x1008, 0x1060, b'PN', b'x' * 930))


def script(steps):
    lines, number = [], 0
    for link, (near, far) in enumerate(zip(NODES, NODES[1:]), 1):
        lines += [f'open\t{near}\t{far}', f'move\t{link}\tacceptor\t1000000', f'move\t{link}\trequestor\t1000000']
    while len(lines) < steps:
        number += 1
        lines.append(f'submit\tN00\tE\t{instance(number).hex()}')
        for link in range(1, 16):
            lines += [f'push\t{link}', *2 * [f'move\t{link}\tacceptor\t1000000'], f'move\t{link}\trequestor\t1000000']
    return '\n'.join(lines[:steps]) + '\n', number


def main():
    with tempfile.TemporaryDirectory(prefix='bench-') as room:
        paths = {name: f'{room}/{name}' for name in ('plan', 'certificate', 'script')}
        with open(paths['plan'], 'w') as it:
            it.write(plan())
        with open(paths['certificate'], 'wb') as it:
            subprocess.run([f'{TOP}/dr_router', 'check', paths['plan']], stdout=it, check=True)
        subprocess.run([f'{TOP}/dr_router', 'simulate', '--help'], stdout=subprocess.DEVNULL, check=True)
        for steps in (25_000, 50_000, 100_000):
            text, instances = script(steps)
            with open(paths['script'], 'w') as it:
                it.write(text)
            start = time.monotonic()
            ended = subprocess.Popen([f'{TOP}/dr_router', 'simulate', *paths.values()], stdout=subprocess.PIPE)
            printed = ended.stdout.read()
            _, status, used = os.wait4(ended.pid, 0)
            spent = time.monotonic() - start
            if status or not printed.startswith(b'node\tN00\n'):
                sys.exit('the script was not played')
            print(f'{steps} steps, {instances} instances: {spent:.2f} s, {1e6 * spent / steps:.0f} us a step, {used.ru_maxrss / 1024:.0f} MB')


main()
