#!/usr/bin/env python3
"""Compares what bash offers for the words of the program (packaging/dr_router.bash) with the words that the program's
help lists.

    tests/completion.py [PROGRAM]
"""
import os
import re
import subprocess
import sys

TOP = os.path.dirname(os.path.dirname(os.path.abspath(__file__)))
PROGRAM = sys.argv[1] if sys.argv[1:] else f'{TOP}/crates/dr_router/out/dr_router'


def offered(*words):
    """What is offered for the last of these words."""
    quoted = ' '.join(f"'{word}'" for word in ('dr_router', *words))
    script = f'source packaging/dr_router.bash; COMP_WORDS=({quoted}); COMP_CWORD={len(words)}; _dr_router; printf "%s\\n" "${{COMPREPLY[@]}}"'
    ended = subprocess.run(['bash', '-c', script], cwd=TOP, capture_output=True, text=True, check=True)
    return ended.stdout.split('\n')[:-1]


def compare(what, want, got):
    if want != got:
        sys.exit(f'completion: {what}: expected {want}, got {got}')


def main():
    text = subprocess.run([PROGRAM, '--help'], capture_output=True, text=True, check=True).stdout
    commands = re.search(r'^Commands:\n((?:  .*\n)+)', text, re.MULTILINE).group(1)
    compare('the words', sorted(re.findall(r'^  (\w+)', commands, re.MULTILINE)), sorted(offered('')))
    compare('a word begun', ['verify'], offered('ve'))
    plan = 'plans/three-nodes.toml'
    compare('a plan', [plan], offered('check', 'plans/three-nodes.t'))
    compare('a node', ['CT1', 'GATE', 'ARCH'], offered('echo', plan, ''))
    compare('a node begun', ['GATE'], offered('route', plan, 'certificate', 'G'))
    compare('the node of a ledger', ['ARCH'], offered('requeue', plan, 'certificate', 'A'))
    compare('a destination', ['CT1'], offered('requeue', plan, 'certificate', 'ARCH', 'arch.db', '1.2', 'C'))
    compare('an image behind a node', ['docs/USAGE.md'], offered('route', plan, 'certificate', 'GATE', 'docs/US'))
    compare('a folder of ledgers', ['plans'], offered('adopt', plan, 'certificate', plan, 'certificate', 'pl'))
    compare('a folder to audit', ['plans'], offered('audit', plan, 'certificate', 'pl'))
    compare('a node of another maker', ['GATE'], offered('audit', plan, 'certificate', 'plans', '--other', 'G'))
    compare('an option behind a folder', ['--other'], offered('audit', plan, 'certificate', 'plans', ''))
    compare('an option more behind a folder', ['--other'], offered('audit', plan, 'certificate', 'plans', '--other', 'GATE', ''))
    compare('an option in the place of a folder', ['--at', '--other'], sorted(offered('audit', plan, 'certificate', '-')))
    compare('a folder in the place of an option', ['--at', '--other', 'plans'], sorted({'--at', '--other', 'plans'} & set(offered('audit', plan, 'certificate', ''))))
    compare('a folder behind a node of another maker', ['plans'], offered('audit', plan, 'certificate', '--other', 'GATE', 'pl'))
    compare('a node that runs', ['GATE'], offered('audit', plan, 'certificate', '--at', 'G'))
    compare('an option more behind a node that runs', ['--at', '--other', '--token'], sorted(offered('audit', plan, 'certificate', '--at', 'GATE=127.0.0.1:8042', '')))
    compare('the token of nodes that run', ['plans/three-nodes.toml'], offered('audit', plan, 'certificate', '--at', 'GATE=127.0.0.1:8042', '--token', 'plans/three-nodes.t'))
    compare('what is expected', ['plans/hospital.expect'], offered('expect', plan, 'certificate', 'plans/hospital.e'))
    compare('a table', ['plans/devices.csv'], offered('import', 'plans/dev'))
    compare('all faults, or an answer as JSON', ['--all', '--json'], offered('check', plan, ''))
    compare('a rehearsal, or a node without a ledger', ['--dry-run', '--without'], offered('adopt', plan, 'certificate', plan, 'certificate', 'plans', ''))
    compare('a node without a ledger', ['GATE'], offered('adopt', plan, 'certificate', plan, 'certificate', 'plans', '--without', 'G'))
    compare('one more', ['--without'], offered('adopt', plan, 'certificate', plan, 'certificate', 'plans', '--without', 'GATE', '--w'))
    compare('the option of a word', ['--fail-on-lost'], offered('diff', plan, 'certificate', plan, 'certificate', '--f'))
    compare('data sets in a file of their own', ['--data-file'], offered('new', plan, 'certificate', 'GATE', 'gate.db', ''))
    compare('a running node', ['--at'], offered('stop', plan, 'certificate', 'GATE', ''))
    compare('a running node to visit from', ['--at'], offered('visit', plan, 'certificate', 'GATE', ''))
    compare('a node to visit', ['ARCH'], offered('visit', plan, 'certificate', 'GATE', '--at', '127.0.0.1:8042', '--token', 'token', 'A'))
    compare('a running node to copy', ['--at'], offered('backup', plan, 'certificate', 'GATE', ''))
    compare('a copy', ['plans/three-nodes.toml'], offered('backup', plan, 'certificate', 'GATE', '--at', '127.0.0.1:8042', '--token', 'token', 'plans/three-nodes.t'))
    compare('a token', ['--token'], offered('drop', plan, 'certificate', 'GATE', '--at', '127.0.0.1:8042', '--t'))
    compare('a token\'s file', ['plans/three-nodes.toml'], offered('stop', plan, 'certificate', 'GATE', '--at', '127.0.0.1:8042', '--token', 'plans/three-nodes.t'))
    compare('nothing behind all words', [''], offered('graph', plan, 'certificate', ''))
    print('completion: the words of the program, files and nodes')


if __name__ == '__main__':
    main()
