#!/usr/bin/env python3
"""Compares the program, byte for byte, with what was worked by hand (plan_cases.py), and with readers of plans, walks
and certificates that share nothing with it: random plans, certificates with faults, and texts with each of the seven
faults, from a fixed seed.

    tests/plans.py [TIMES] [SEED]      TIMES as many as the test of the repository tries (half a minute a time)
    tests/plans.py --wrong             how many of its plans see each wrong definition

It fails too where some definition, when it is wrong, would be seen by none of the plans.
"""
import collections
import hashlib
import os
import random
import resource
import subprocess
import sys
import tempfile
import tomllib

sys.dont_write_bytecode = True
import lib.plan_cases as worked
from lib.plan_diff import WRONG_DIFFS, Diff, changed_plan
from lib.plan_expect import FILES, WRONG_ROWS, Rows, fitting_rows, random_rows, rows_text
from lib.plan_model import WRONG, Model
from lib.plan_reader import Refused, read_text
from lib.plan_texts import LARGE, LARGEST, OddTexts, ShortTexts, hostile, mutated, over_limits, random_plan

TOP = os.path.dirname(os.path.dirname(os.path.abspath(__file__)))
PROGRAM = f'{TOP}/crates/dr_router/out/dr_router'
CERTIFIER = f'{TOP}/crates/dr_certifier/out/dr_certifier'
PLANS, CERTIFICATES, TEXTS, EXPECTED, CHANGED = 1000, 1000, 1500, 600, 600
STACK = 256 * 1024  # bytes of stack that the longest walk may take: the search takes none
sys.setrecursionlimit(10_000)


def limit_stack():
    resource.setrlimit(resource.RLIMIT_STACK, (STACK, STACK))


def run(*words, given=b'', first=None, program=PROGRAM):
    """Both outputs and the status, without the lines that say where a fault stands, which are indented (tests/places.py)."""
    ended = subprocess.run([program, *words], input=given, capture_output=True, preexec_fn=first, close_fds=False)
    return ended.stdout, b''.join(line for line in ended.stderr.splitlines(True) if not line.startswith(b'  ')), ended.returncode


def model_of(text, kind=Model):
    return kind(*read_text(text))


def expected(text):
    """What `check` is to print, on both outputs, and its status."""
    try:
        answer = model_of(text).check()
    except Refused as fault:
        return b'', f'dr_router: {fault}\n'.encode(), 1
    if answer is None:
        return b'', b'dr_router: TooLarge\n', 1
    printed, is_yes = answer
    return printed, b'', 0 if is_yes else 1


def expected_of_all(text):
    """The same for `check --all`: where the plan has a fault, the lines of all of them."""
    printed, faults, status = expected(text)
    if printed.startswith(b'no\t'):
        return model_of(text).all_faults() or printed, faults, status
    return printed, faults, status


def pair_of(*plans):
    """The plans as they are read, with their certificates; None where one isn't sound."""
    found = []
    for text in plans:
        try:
            model = model_of(text)
        except Refused:
            return None
        answer = model.check()
        if answer is None or not answer[1]:
            return None
        found.append((model, answer[0]))
    return found


class Comparison:
    """Counts answers, and stops at the first that differs."""

    def __init__(self, room):
        self.room, self.answers = room, collections.Counter()

    def compare(self, what, want, got, **texts):
        if want:
            self.answers[want[0].split(b'\n')[0].split(b'\t')[:2][-1].decode() or want[1].decode().strip() or 'nothing'] += 1
        if want != got:
            for name, text in texts.items():
                with open(f'{self.room}/{name}', 'wb') as it:
                    it.write(text)
            print(f'{what}: expected {want}, got {got}; see {self.room}')
            os._exit(1)

    def check(self, what, text, first=None):
        want = expected(text)
        self.compare(what, want, run('check', given=text, first=first), plan=text)
        # the program of the first certificate prints the same certificate, or nothing; and nothing for a plan of format 3
        is_its = want[2] == 0 and not want[0].startswith(b'certificate\t3\n')
        certificate = (want[0], b'', 0) if is_its else (b'', b'', 1)
        self.compare(f'{what}, its first certificate', certificate, run(given=text, first=first, program=CERTIFIER), plan=text)

    def check_all(self, what, text):
        self.check(what, text)
        self.compare(f'{what}, all its faults', expected_of_all(text), run('check', '--all', given=text), plan=text)

    def verdict(self, what, verdict, plan, certificate):
        want = (b'yes\n', b'', 0) if verdict == 'yes' else (f'no\t{verdict}\n'.encode(), b'', 1)
        for name, text in (('plan', plan), ('certificate', certificate)):
            with open(f'{self.room}/{name}', 'wb') as it:
                it.write(text)
        self.compare(what, want, run('verify', f'{self.room}/plan', f'{self.room}/certificate'))

    def ask(self, word, plan, certificate, *more):
        """What is printed for a word about a plan, its certificate and further files."""
        for name, text in (('plan', plan), ('certificate', certificate), *more):
            with open(f'{self.room}/{name}', 'wb') as it:
                it.write(text)
        return run(word, f'{self.room}/plan', f'{self.room}/certificate', *(f'{self.room}/{name}' for name, _ in more))

    def expect(self, what, dice):
        """Tries rows on a random plan, if it is sound; whether it is."""
        plan = random_plan(dice)
        model = model_of(plan)
        answer = model.check()
        if answer is None or not answer[1] or not model.flows:
            return False
        for rows in (random_rows(dice), fitting_rows(dice, model) if model.entries() else random_rows(dice)):
            got = self.ask('expect', plan, answer[0], ('expect', rows_text(rows)))
            fault = Rows(model, rows).fault(got)
            self.answers[f'expect: {b" ".join(got[0].split()[:3:2]).decode("latin-1")}'] += 1
            if fault:
                self.compare(f'{what}: {rows}: {fault}', None, got)
        return True

    def diff(self, what, dice):
        """Tries a random plan and another one like it, if both are sound."""
        plan = random_plan(dice)
        next_plan = changed_plan(dice, plan)
        models = pair_of(plan, next_plan)
        if models is None:
            return
        (old, certificate), (new, next_certificate) = models
        more = (('next', next_plan), ('next.certificate', next_certificate))
        want, got = Diff(old, new).rows(), self.ask('diff', plan, certificate, *more)
        rows = got[0].decode('latin-1').splitlines()
        self.answers[f'diff: {" and ".join(sorted({it.split(chr(9))[0] for it in rows})) or "nothing"}'] += 1
        if (set(rows), len(rows), got[1:]) != (want, len(want), (b'', 0)):
            self.compare(f'{what}: {sorted(want)}', None, got)
        lost = any(it.startswith('lost') for it in rows)
        strict = run('diff', *(f'{self.room}/{it}' for it in ('plan', 'certificate', 'next', 'next.certificate')), '--fail-on-lost')
        if strict != (got[0], b'', int(lost)):
            self.compare(f'{what}: a loss that is a no', None, strict)

    def verify(self, what, model, plan, certificate):
        self.verdict(what, model.verdict(certificate), plan, certificate)

    def verify_mutated(self, what, dice):
        text = random_plan(dice)
        model = model_of(text)
        certificate = model.certificate()
        for _ in range(dice.choice([0, 1, 1, 1, 2])):
            certificate = mutated(dice, certificate)
        self.verify(what, model, text, certificate)


def written_for(plan, rows, version=1):
    """A certificate with the plan's digest and these rows."""
    return f'certificate\t{version}\nplan\t{hashlib.sha256(plan).hexdigest()}\n{rows}'.replace('KEY', worked.KEY).encode()


def compare_texts(it):
    """Texts worked by hand, each with its fault or none."""
    plan = worked.PLAN.encode()
    it.compare('no UTF-8', (b'', b'dr_router: L1 NotToml\n', 1), run('check', given=b'# \xff'))
    for old, new, fault in worked.TEXTS:
        what, text = f'{old} as {new}', worked.changed(worked.PLAN, (old, new)).encode()
        got = run('check', given=text)
        want = (b'', f'dr_router: {fault}\n'.encode(), 1) if fault else (got[0], b'', 1 if got[0].startswith(b'no\t') else 0)
        it.compare(what, want, got, plan=text)
    for old, new, fault in worked.TEXTS_OF_FORMAT_2:
        what, text = f'{old} as {new} in format 2', b'format = 2\n' + worked.changed(worked.PLAN, (old, new)).encode()
        got = run('check', given=text)
        want = (b'', f'dr_router: {fault}\n'.encode(), 1) if fault else (got[0], b'', 1 if got[0].startswith(b'no\t') else 0)
        it.compare(what, want, got, plan=text)
    compare_texts_of_format_3(it)
    digest = worked.DIGEST_OF_NOTHING.encode()
    for what, other in (('in upper case', digest.upper()), ('of 31 bytes', digest[:-2])):
        it.verdict(f'a digest {what}', 'C1 Text', b'', written_for(b'', 'end\n').replace(digest, other))
    it.verdict('a digest of another plan', 'C2 OtherPlan', plan, written_for(b'', worked.THREE_NODES))
    for rows in worked.NO_ROWS:
        it.verdict(f'{rows[:80]}', 'C1 Text', b'', written_for(b'', rows))
    it.verdict('65,536 lines', 'C8 Order', b'', written_for(b'', worked.MOST_ROWS))


def compare_texts_of_format_3(it):
    """Texts of format 3 worked by hand: by the reader in Python the same faults are found."""
    texts = [('', old, new, fault) for old, new, fault in worked.TEXTS_OF_FORMAT_3] + worked.TABLES_OF_FORMAT_3
    for front, old, new, fault in texts:
        text = f'format = 3\n{front}\n{worked.changed(worked.PLAN, (old, new)) if old else worked.PLAN}'.encode()
        want = expected(text)
        found = want[1].decode().removeprefix('dr_router: ').strip() or None
        assert found == fault, f'{front} {old} as {new} in format 3: by hand {fault}, by the reader {found}'
        it.check(f'{front} {old} as {new} in format 3', text)


def compare_worked(it):
    """Plans and certificates worked by hand."""
    compare_texts(it)
    for text, line in worked.UNSOUND:
        it.compare(line, (line.replace('KEY', worked.KEY).encode(), b'', 1), run('check', given=text.encode()))
    for text, rows in worked.SOUND:
        certificate = written_for(text.encode(), rows)
        it.compare('a sound plan', (certificate, b'', 0), run('check', given=text.encode()))
        it.verdict('its certificate', 'yes', text.encode(), certificate)
    for text, rows in worked.SOUND_IN_FORMAT_2:
        certificate = written_for(text.encode(), rows, 2)
        it.compare('a sound plan of format 2', (certificate, b'', 0), run('check', given=text.encode()))
        it.verdict('its certificate', 'yes', text.encode(), certificate)
        it.verdict('its certificate as version 1', 'C2 OtherPlan', text.encode(), written_for(text.encode(), rows))
        it.verdict('its certificate as version 3', 'C2 OtherPlan', text.encode(), written_for(text.encode(), rows, 3))
        it.verdict('a version 4', 'C1 Text', text.encode(), written_for(text.encode(), rows, 4))
    for text, rows in worked.SOUND_IN_FORMAT_3:
        certificate = written_for(read_text(text.encode())[0], rows, 3)
        it.compare('a sound plan with exceptions', (certificate, b'', 0), run('check', given=text.encode()))
        it.verdict('its certificate', 'yes', text.encode(), certificate)
    core = read_text(worked.SHORT.encode())[0]
    certificate = written_for(core, worked.THREE_NODES, 3)
    for what, text in (('a sound plan of format 3', worked.SHORT.encode()), ('its expansion', core), ('with a comment', b'# so\n' + worked.SHORT.encode())):
        it.compare(what, (certificate, b'', 0), run('check', given=text))
        it.verdict(f'{what}: its certificate', 'yes', text, certificate)
        it.verdict(f'{what}: its certificate as version 2', 'C2 OtherPlan', text, written_for(core, worked.THREE_NODES, 2))
    plan = worked.PLAN.encode()
    it.verdict('a plan of format 1 as version 2', 'C2 OtherPlan', plan, written_for(plan, worked.THREE_NODES, 2))
    for old, new, fault in worked.VERDICTS:
        it.verdict(f'{old} as {new}', fault, plan, written_for(plan, worked.changed(worked.THREE_NODES, (old, new))))
    for text, rows, fault in worked.UNSOUND_VERDICTS:
        it.verdict(fault, fault, text.encode(), written_for(text.encode(), rows))


def compare_expected(it, times, seed):
    """What is expected: files that aren't read, and rows over random plans."""
    text, rows = worked.SOUND[0]
    plan, certificate = text.encode(), written_for(text.encode(), rows)
    for given, line in FILES:
        got = it.ask('expect', plan, certificate, ('expect', given))
        want = (b'', f'dr_router: X1 Expect {line}\n'.encode(), 1) if line else (got[0], b'', got[2])
        it.compare(f'a file of expectations {given}', want, got)
    for name in sorted(os.listdir(f'{TOP}/plans')):
        if name.endswith('.expect'):
            front = f'{TOP}/plans/{name.removesuffix(".expect")}.toml'
            with open(front, 'rb') as plan, open(f'{TOP}/plans/{name}', 'rb') as given:
                plan, given = plan.read(), given.read()
            it.compare(name, (b'yes\n', b'', 0), it.ask('expect', plan, model_of(plan).check()[0], ('expect', given)))
            assert Rows(model_of(plan), tomllib.loads(given.decode())['expect']).first_miss() is None, name
    for i in range(times * EXPECTED):
        it.expect(f'expectations {i}', random.Random(f'expectations {seed} {i}'))


def compare_all(it, times, seed):
    compare_worked(it)
    compare_expected(it, times, seed)
    for i in range(times * CHANGED):
        it.diff(f'change {i}', random.Random(f'change {seed} {i}'))
    for name, text in {**LARGE, **LARGEST}.items():
        it.check(name, text, limit_stack if 'walk' in name else None)
    for name in sorted(os.listdir(f'{TOP}/plans')):
        if name.endswith('.toml'):
            with open(f'{TOP}/plans/{name}', 'rb') as file:
                it.check_all(name, file.read())
    for text in over_limits():
        it.check('a text at its limits', text)
    for i in range(times * PLANS):
        it.check_all(f'plan {i}', random_plan(random.Random(f'plan {seed} {i}')))
    for i in range(times * TEXTS):
        it.check(f'text {i}', OddTexts(random.Random(f'text {seed} {i}')).text())
    for i in range(times * TEXTS):
        it.check(f'text {i} of format 3', ShortTexts(random.Random(f'short text {seed} {i}')).text())
    for i in range(times * CERTIFICATES):
        it.verify_mutated(f'certificate {i}', random.Random(f'certificate {seed} {i}'))
    plan = worked.PLAN.encode()
    model = model_of(plan)
    for i, text in enumerate(hostile(model.certificate())):
        it.verify(f'hostile certificate {i}', model, plan, text)


def seen_by(plans):
    """How many of the plans see each wrong definition: the answer differs from the right one."""
    read = [read_text(text) for text in plans]
    right = [Model(*it).check() for it in read]
    return {name: sum(kind(*it).check() != want for it, want in zip(read, right)) for name, kind in WRONG.items()}


def rows_seen_by(count, seed):
    """How many random files over random plans see each wrong definition of rows."""
    seen = dict.fromkeys(WRONG_ROWS, 0)
    for i in range(count):
        dice = random.Random(f'expectations {seed} {i}')
        model = model_of(random_plan(dice))
        answer = model.check()
        if answer is None or not answer[1] or not model.entries():
            continue
        for rows in (random_rows(dice), fitting_rows(dice, model)):
            want = Rows(model, rows).first_miss()
            for name, kind in WRONG_ROWS.items():
                seen[name] += kind(model, rows).first_miss() != want
    return seen


def diffs_seen_by(count, seed):
    """How many random changes of plans see each wrong definition of them."""
    seen = dict.fromkeys(WRONG_DIFFS, 0)
    for i in range(count):
        dice = random.Random(f'change {seed} {i}')
        plan = random_plan(dice)
        models = pair_of(plan, changed_plan(dice, plan))
        if models:
            (old, _), (new, _) = models
            want = Diff(old, new).rows()
            for name, kind in WRONG_DIFFS.items():
                seen[name] += kind(old, new).rows() != want
    return seen


def main():
    words = [int(it) for it in sys.argv[1:] if it != '--wrong']
    times, seed = (words + [1, 1][len(words):])[:2]
    hops = [text for name, text in LARGE.items() if 'hops' not in name or 'overfull' in name]
    by_hand = [text.encode() for text, _ in worked.UNSOUND + worked.SOUND_IN_FORMAT_2]
    seen = seen_by(hops + by_hand + [random_plan(random.Random(f'plan {seed} {i}')) for i in range(200)])
    seen |= rows_seen_by(500, seed) | diffs_seen_by(100, seed)
    if '--wrong' in sys.argv:
        for name, count in seen.items():
            print(f'{name}: {count}')
    unseen = [name for name, count in seen.items() if count == 0]
    if unseen:
        sys.exit(f'seen by no plan: {", ".join(unseen)}')
    if '--wrong' in sys.argv:
        return
    if subprocess.run([f'{TOP}/dr_router', 'simulate', '--help'], stdout=subprocess.DEVNULL).returncode != 0:
        sys.exit('the program is not built')
    if not os.access(CERTIFIER, os.X_OK) and subprocess.run([f'{TOP}/tools/program.py', 'dr_certifier', os.devnull]).returncode != 0:
        sys.exit('the program of the first certificate is not built')
    room = tempfile.mkdtemp(prefix='plans-')
    it = Comparison(room)
    compare_all(it, times, seed)
    subprocess.run(['rm', '-rf', room])
    print(f'plans.py: {it.answers.total()} answers are as expected, {len(seen)} wrong definitions seen')
    print('  ' + ', '.join(f'{name}: {count}' for name, count in sorted(it.answers.items())))


main()
