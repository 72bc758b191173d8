#!/usr/bin/env python3
"""Imports tables of devices by the built program: what is printed is read by its word `check`, and a line that can't be
placed is named.

    tests/imports.py
"""
import os
import subprocess
import sys
import tempfile

TOP = os.path.dirname(os.path.dirname(os.path.abspath(__file__)))
PROGRAM = os.environ.get('DR_ROUTER', f'{TOP}/crates/dr_router/out/dr_router')
HEADER = 'AE title,host,port,modality,role\n'
GATE, ARCH = 'GATE,10.1.0.1,11112,,router\n', 'ARCH,10.1.0.2,104,,archive\n'
SCANNER = 'CT1,10.1.0.11,104,CT,scanner\n'
USUAL = HEADER + SCANNER + GATE + ARCH

# A table, the first word of what `check` prints of its plan (nothing where none is printed), and what is named on standard error.
TABLES = [
    ('a scanner, a gate and an archive', USUAL, 'certificate', ''),
    ('columns in another order and case, one more, and blanks', 'Role,PORT,extra,ae TITLE , host,Modality\n'
     'scanner,104,x, CT1 ,10.1.0.11,CT\nRouter,11112,,GATE,10.1.0.1,\narchive,104,,ARCH,10.1.0.2,\n', 'certificate', ''),
    ('each modality, and others', HEADER + ''.join(f'S{i},10.1.1.{i},104,{it},scanner\n' for i, it in enumerate(('CT', 'MR', 'US', 'XA', 'MG', 'DX', '')))
     + GATE + ARCH + 'WS,10.1.0.41,104,,workstation\n', 'certificate', ''),
    ('quoted fields', HEADER + '"CT1","10.1.0.11","104","CT","scanner"\n' + GATE + ARCH, 'certificate', ''),
    ('no archive', HEADER + SCANNER + GATE, 'no', ''),
    ('no scanner', HEADER + GATE + ARCH, 'certificate', ''),
    ('no gate', HEADER + SCANNER + ARCH, '', 'dr_router: no line of the table is a router\n'),
    ('nothing', '', '', 'dr_router: no line of the table is a router\n'),
    ('no header', SCANNER + GATE, '', 'dr_router: the first line needs AE title, host, port, modality and role\ndr_router: no line of the table is a router\n'),
    ('a title that is too long', USUAL + 'A2345678901234567,10.1.0.3,104,CT,scanner\n', 'certificate',
     'dr_router: line 5: its AE title isn\'t 1 to 16 printable characters without @, " and \\\n'),
    ('a title that would be a group', USUAL + '@A,10.1.0.3,104,CT,scanner\n', 'certificate',
     'dr_router: line 5: its AE title isn\'t 1 to 16 printable characters without @, " and \\\n'),
    ('no host', USUAL + 'A,,104,CT,scanner\n', 'certificate', 'dr_router: line 5: its host isn\'t a name or an address, without blanks\n'),
    ('no port', USUAL + 'A,10.1.0.3,,CT,scanner\n', 'certificate', 'dr_router: line 5: its port isn\'t a number from 1 to 65535\n'),
    ('a scanner that only calls', HEADER + 'CT1,,,CT,scanner\n' + GATE + ARCH, 'certificate', ''),
    ('others that only call', USUAL + ''.join(f'A,,,CT,{role}\n' for role in ('archive', 'workstation', 'router')), 'certificate',
     ''.join(f'dr_router: line {n}: its host isn\'t a name or an address, without blanks\n' for n in range(5, 8))),
    ('no address, and no role', USUAL + 'A,,,CT,scaner\nA,,,CT,\n', 'certificate',
     ''.join(f'dr_router: line {n}: its role is none of scanner, archive, workstation and router\n' for n in range(5, 7))),
    ('ports', USUAL + ''.join(f'A,10.1.0.3,{port},CT,scanner\n' for port in ('', '0', '65536', '0104', '1O4')), 'certificate',
     ''.join(f'dr_router: line {n}: its port isn\'t a number from 1 to 65535\n' for n in range(5, 10))),
    ('an unknown role', USUAL + 'A,10.1.0.3,104,CT,printer\n', 'certificate',
     'dr_router: line 5: its role is none of scanner, archive, workstation and router\n'),
    ('a line that is too short', USUAL + 'A,10.1.0.3\n', 'certificate', 'dr_router: line 5: its role is none of scanner, archive, workstation and router\n'),
    ('two gates', USUAL + 'GATE2,10.1.0.3,104,,router\n', 'certificate', 'dr_router: line 5: another row is the router already\n'),
    ('a title twice', USUAL + SCANNER, '', 'dr_router: these devices make no plan: L3 Name\n'),
]


def run(*words):
    ended = subprocess.run([PROGRAM, *words], capture_output=True, text=True, check=False)
    return ended.returncode, ended.stdout, ended.stderr


def main():
    with tempfile.TemporaryDirectory() as folder:
        table, plan = f'{folder}/table.csv', f'{folder}/plan.toml'
        for what, text, word, faults in TABLES:
            with open(table, 'w', encoding='ascii') as file:
                file.write(text)
            got = run('import', table)
            if (got[0], bool(got[1]), got[2]) != (int(bool(faults)), bool(word), faults):
                sys.exit(f'imports: {what}: {got}')
            with open(plan, 'w', encoding='ascii') as file:
                file.write(got[1])
            if word and run('check', plan)[1].split('\t')[0].strip() != word:
                sys.exit(f'imports: {what}: {got[1]}')
        with open(table, 'w', encoding='ascii') as file:
            file.write(HEADER + 'CT1,,,CT,scanner\n' + GATE + ARCH)
        if '[[node]]\nname = "CT1"\nlistens = false\n\n[[node]]' not in run('import', table)[1]:
            sys.exit('imports: a scanner that only calls has an address')
    got = run('import', f'{TOP}/plans/devices.csv')
    if (got[0], got[2]) != (0, ''):
        sys.exit(f'imports: plans/devices.csv: {got}')
    print(f'imports: {len(TABLES)} tables')


if __name__ == '__main__':
    main()
