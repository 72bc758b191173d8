#!/usr/bin/env python3
"""Makes releases of the built program, and installs their packages in a fresh root.

    tests/packaging.py

A fresh root is a folder with the files of this machine's essential packages and of `passwd`, by dpkg's own lists:
nothing is fetched. It needs root, a Debian, and the leave to change roots; else the package is made and looked at
alone, which a line says. DR_ROUTER names the program, where it isn't the one that this repository builds.
"""
import io
import os
import re
import shutil
import stat
import subprocess
import sys
import tarfile
import tempfile
import time

sys.dont_write_bytecode = True
TOP = os.path.dirname(os.path.dirname(os.path.abspath(__file__)))
sys.path.insert(0, f'{TOP}/packaging')
import release
from lib.nodes import LIMIT, PROGRAM, free_port, listening_ports, part10, run_cases, same, stop

CLOSING = '12 passed, 0 failed'
PASSWORDS = 'etc/passwd', 'etc/group'
DEVICES = {'null': 3, 'zero': 5, 'random': 8, 'urandom': 9}


def put(path, text):
    with open(path, 'wb') as file:
        file.write(text if isinstance(text, bytes) else text.encode())


def gate_log(program, closing=CLOSING, sources=None):
    """What ./test leaves, of that program."""
    sources = sources or release.printed('tools/sources')
    return f'sources: {sources}\nkit: a kit\nprogram: {release.digest(program)}\n{closing}\n'


def build(folder, into, log):
    """A run of packaging/build with that log."""
    put(f'{folder}/log', log)
    words = [f'{TOP}/packaging/build', '--program', PROGRAM, '--gate', f'{folder}/log', '--into', f'{folder}/{into}']
    return subprocess.run(words, capture_output=True, text=True, timeout=LIMIT, check=False)


def contents(folder):
    return {name: release.content(f'{folder}/{name}') for name in os.listdir(folder)}


# ---- without a root

def versions():
    """A release's manual page has the version of the sources, once."""
    number = release.version()
    same(release.manual(number).count(f'"dr_router {number}"'.encode()), 1)


def sources():
    """The digest of the sources is that of their list, which `sha256sum` finds right, and which has the program's crates alone."""
    listed = subprocess.run([f'{TOP}/tools/sources', '--list'], capture_output=True, check=True).stdout
    same(release.digest(listed), release.printed('tools/sources'))
    same(subprocess.run(['sha256sum', '--check', '--strict', '--status'], cwd=TOP, input=listed, check=False).returncode, 0)
    paths = [line.split('  ', 1)[1] for line in listed.decode().splitlines()]
    same(paths, sorted(paths))
    for path, is_there in (('crates.txt', True), ('HANDLES', True), ('crates/dr_router/src/main.rt', True), ('crates/dr_base/src/lib.rt', True), ('README.md', False)):
        same((path, path in paths), (path, is_there))
    assert not any(path.startswith('crates/dr_test_wire/') or '/must-fail/' in path or '/out/' in path for path in paths)


def builds():
    """Two builds are the same byte for byte, and what they are made of tells nothing of when, where and by whom."""
    program = release.content(PROGRAM)
    with tempfile.TemporaryDirectory() as folder:
        same(build(folder, 'first', gate_log(program)).returncode, 0)
        before = os.umask(0o077)
        time.sleep(1.1)
        same(build(folder, 'second', gate_log(program)).returncode, 0)
        os.umask(before)
        made = contents(f'{folder}/first')
        same(contents(f'{folder}/second') == made, True)
        number = release.version()
        same(sorted(made), sorted([f'bitrusset_{number}_amd64.deb', f'bitrusset-{number}.tar.gz', 'STATEMENT', 'SHA256SUMS']))
        same(subprocess.run(['sha256sum', '--check', '--strict', '--status', 'SHA256SUMS'], cwd=f'{folder}/first', check=False).returncode, 0)
        archive = tarfile.open(fileobj=io.BytesIO(made[f'bitrusset-{number}.tar.gz']))
        members = archive.getmembers()
        same({(it.uid, it.gid, it.uname, it.gname, it.mtime) for it in members}, {(0, 0, 'root', 'root', release.moment())})
        same([it.name for it in members], sorted(it.name for it in members))
        same(archive.extractfile(f'bitrusset-{number}/dr_router').read() == program, True)
        same(archive.extractfile(f'bitrusset-{number}/STATEMENT').read(), made['STATEMENT'])
        says = release.told(made['STATEMENT'].decode())
        same(says, {'name': 'bitrusset', 'version': number, 'sources': release.printed('tools/sources'), 'kit': 'a kit', 'gate': CLOSING,
                    'program': release.digest(program)})


def refused_builds():
    """No release is made where no gate has passed for these sources and this program."""
    program = release.content(PROGRAM)
    with tempfile.TemporaryDirectory() as folder:
        for log, fault in ((gate_log(program, '11 passed, 1 failed'), 'X1 NoGate'), (gate_log(program, '0 passed, 0 failed'), 'X1 NoGate'),
                           (gate_log(program) + 'more\n', 'X1 NoGate'), (f'{CLOSING}\n', 'X1 NoGate'), ('', 'X1 NoGate'),
                           (gate_log(program, sources=64 * '0'), 'X2 OtherSources'), (gate_log(program + b'\0'), 'X3 OtherProgram')):
            ended = build(folder, 'none', log)
            same((ended.returncode, ended.stdout, ended.stderr.startswith(f'packaging: {fault}: ')), (1, '', True))
        same(os.path.exists(f'{folder}/none'), False)


def checkout(folder):
    """A copy of what the script at the top needs, with no program built."""
    for name in 'dr_router', 'crates.txt', 'HANDLES':
        shutil.copy(f'{TOP}/{name}', folder)
    shutil.copytree(f'{TOP}/tools', f'{folder}/tools')
    shutil.copytree(f'{TOP}/crates', f'{folder}/crates', ignore=shutil.ignore_patterns('out', 'must-fail'))


def releases_of_a_checkout():
    """The script runs a release's program where it is made from the checkout's sources, and says so; else it runs nothing."""
    program = release.content(PROGRAM)
    with tempfile.TemporaryDirectory() as folder:
        same(build(folder, 'dist', gate_log(program)).returncode, 0)
        number = release.version()
        subprocess.run(['tar', 'xzf', f'dist/bitrusset-{number}.tar.gz'], cwd=folder, check=True)
        os.mkdir(f'{folder}/here')
        checkout(f'{folder}/here')
        unpacked = f'{folder}/bitrusset-{number}'

        def run(*words):
            env = {**os.environ, 'DR_ROUTER_RELEASE': f'{unpacked}/dr_router'}
            return subprocess.run([f'{folder}/here/dr_router', *words], env=env, stdin=subprocess.DEVNULL, capture_output=True, timeout=LIMIT, check=False)

        def refuses(fault):
            ended = run('check', f'{TOP}/plans/three-nodes.toml')
            same((ended.returncode, ended.stdout, ended.stderr.startswith(f'dr_router: {fault}: '.encode())), (3, b'', True))

        plan = f'{TOP}/plans/three-nodes.toml'
        for words in ['check', plan], ['check', f'{TOP}/plans/cycle.toml'], ['carry'], []:
            direct, ended = subprocess.run([PROGRAM, *words], stdin=subprocess.DEVNULL, capture_output=True, check=False), run(*words)
            same((ended.returncode, ended.stdout), (direct.returncode, direct.stdout))
            said = ended.stderr.splitlines(True)
            same((b'not proved here' in said[0], CLOSING.encode() in said[0], b''.join(said[1:])), (True, True, direct.stderr))
        told = run('--version')
        wanted = f'dr_router {number}\nsources: {release.printed("tools/sources")}\nprogram: a release\'s, not proved here\n'
        same((told.returncode, told.stdout.decode()), (0, wanted))
        says = release.content(f'{unpacked}/STATEMENT')
        put(f'{unpacked}/STATEMENT', says.replace(CLOSING.encode(), b'11 passed, 1 failed'))
        refuses('V1 NoStatement')
        os.remove(f'{unpacked}/STATEMENT')
        refuses('V1 NoStatement')
        put(f'{unpacked}/STATEMENT', says)
        put(f'{unpacked}/dr_router', program + b'\0')
        refuses('V3 OtherProgram')
        put(f'{unpacked}/dr_router', program)
        same(run('check', plan).returncode, 0)
        for path in 'crates/dr_base/src/lib.rt', 'crates/dr_router/src/main.rt', 'crates.txt', 'HANDLES':
            text = release.content(f'{folder}/here/{path}')
            put(f'{folder}/here/{path}', text + b'\n')
            refuses('V2 OtherSources')
            put(f'{folder}/here/{path}', text)
        put(f'{folder}/here/crates/dr_base/src/more.rt', b'')
        refuses('V2 OtherSources')


def one_library():
    """The program needs the C library alone, and the package says so."""
    shown = subprocess.run(['readelf', '-d', PROGRAM], capture_output=True, text=True, check=False).stdout if shutil.which('readelf') else ''
    needed = set(re.findall(r'\(NEEDED\).*\[(.*)\]', shown))
    assert needed <= {'libc.so.6', 'libm.so.6', 'ld-linux-x86-64.so.2'}, needed


# ---- in a fresh root

def asked(*words):
    return subprocess.run(words, capture_output=True, text=True, check=True).stdout


def essential():
    """The essential packages of this machine, passwd, and all that they depend on, by their names."""
    depends, is_essential = {}, set()
    for line in asked('dpkg-query', '-W', '-f', '${Package}\t${Essential}\t${Pre-Depends}, ${Depends}\n').splitlines():
        name, essential_here, wanted = line.split('\t')
        depends[name] = re.findall(r'(?:^|[,|])\s*([a-z0-9][a-z0-9+.-]+)', wanted)
        if essential_here == 'yes':
            is_essential.add(name)
    found, left = set(), [*is_essential, 'passwd']
    while left:
        name = left.pop()
        if name in depends and name not in found:
            found.add(name)
            left += depends[name]
    return sorted(found)


def furnish(root):
    """Puts the files of those packages into the folder, and tells its dpkg of them."""
    names = essential()
    files = sorted({it for it in asked('dpkg-query', '-L', *names).splitlines() if it.startswith('/') and os.path.lexists(it) and it != '/.'})
    for name in [it for it in os.listdir('/') if os.path.islink(f'/{it}')]:
        os.symlink(os.readlink(f'/{name}'), f'{root}/{name}')
        os.makedirs(os.path.realpath(f'{root}/{name}'), exist_ok=True)
    packing = subprocess.Popen(['tar', '--no-recursion', '-C', '/', '-cf', '-', '-T', '-'], stdin=subprocess.PIPE, stdout=subprocess.PIPE, stderr=subprocess.DEVNULL)
    unpacking = subprocess.Popen(['tar', '-C', root, '-xpf', '-', '--keep-directory-symlink'], stdin=packing.stdout)
    packing.stdout.close()
    packing.stdin.write('\n'.join(f'.{it}' for it in files).encode())
    packing.stdin.close()
    same((packing.wait(), unpacking.wait()), (0, 0))
    for folder in 'var/lib/dpkg/info', 'var/lib/dpkg/updates', 'var/lib/dpkg/triggers', 'tmp', 'dev':
        os.makedirs(f'{root}/{folder}', exist_ok=True)
    put(f'{root}/var/lib/dpkg/status', ''.join(asked('dpkg-query', '-s', it).rstrip('\n') + '\n\n' for it in names))
    for path in os.listdir('/var/lib/dpkg/info'):
        if re.split(r'[:.](?:[a-z0-9]+\.)?', path)[0] in names or path.rpartition('.')[0].partition(':')[0] in names:
            shutil.copy(f'/var/lib/dpkg/info/{path}', f'{root}/var/lib/dpkg/info')
    for name in PASSWORDS:
        shutil.copy(f'{root}/usr/share/base-passwd/{os.path.basename(name)}.master', f'{root}/{name}')
    for name, number in DEVICES.items():
        os.mknod(f'{root}/dev/{name}', 0o666 | stat.S_IFCHR, os.makedev(1, number))
        os.chmod(f'{root}/dev/{name}', 0o666)


class Root:
    """A fresh root with its plan, of free ports, and its nodes."""

    def __init__(self):
        self.folder, self.running = tempfile.mkdtemp(), []

    def __enter__(self):
        try:
            os.chmod(self.folder, 0o755)
            furnish(self.folder)
        except BaseException:
            self.__exit__()
            raise
        return self

    def __exit__(self, *_):
        for process in self.running:
            stop(process)
        shutil.rmtree(self.folder)

    def dpkg(self, *words):
        """What dpkg says there; it must end well."""
        env = {'PATH': '/usr/sbin:/usr/bin:/sbin:/bin', 'DEBIAN_FRONTEND': 'noninteractive'}
        ended = subprocess.run(['chroot', self.folder, 'dpkg', *words], env=env, stdin=subprocess.DEVNULL, capture_output=True, text=True, check=False)
        assert ended.returncode == 0, (words, ended.stdout, ended.stderr)
        return ended.stdout

    def install(self, deb):
        put(f'{self.folder}/tmp/it.deb', deb)
        return self.dpkg('-i', '/tmp/it.deb')

    def owner(self):
        """The numbers of the user by whom nodes run."""
        found = re.search(r'^dr_router:[^:]*:(\d+):(\d+):[^:]*:/var/lib/dr_router:/usr/sbin/nologin$', self.text('etc/passwd'), re.M)
        assert found, self.text('etc/passwd')
        return int(found[1]), int(found[2])

    def words(self, *words):
        user, group = self.owner()
        return ['chroot', f'--userspec={user}:{group}', self.folder, '/usr/bin/dr_router', *words]

    def run(self, *words):
        return subprocess.run(self.words(*words), capture_output=True, timeout=LIMIT, check=False)

    def text(self, path):
        return release.content(f'{self.folder}/{path}').decode()

    def put_plan(self):
        """The sample plan that came with the package, on free ports, and its certificate."""
        self.ports = {}
        text = self.text('usr/share/doc/bitrusset/plans/three-nodes.toml')
        for name in 'CT1', 'GATE', 'ARCH':
            self.ports[name] = free_port()
            text = re.sub(rf'(name = "{name}"\naddress = )"[^"]*"', rf'\1"127.0.0.1:{self.ports[name]}"', text)
        put(f'{self.folder}/etc/dr_router/plan.toml', text)
        checked = self.run('check', '/etc/dr_router/plan.toml')
        same((checked.returncode, checked.stderr), (0, b''))
        put(f'{self.folder}/etc/dr_router/certificate', checked.stdout)

    def at(self, word, node, *more):
        return self.run(*self.line(word, node), *more)

    def line(self, word, node):
        return [word, '/etc/dr_router/plan.toml', '/etc/dr_router/certificate', node, f'/var/lib/dr_router/{node}.db']

    def serve(self, node):
        """A node that serves one association, and listens already."""
        process = subprocess.Popen(self.words(*self.line('serve', node), '--links', '1'), stdout=subprocess.PIPE, stderr=subprocess.PIPE)
        self.running.append(process)
        end = time.monotonic() + LIMIT
        while self.ports[node] not in listening_ports():
            assert process.poll() is None and time.monotonic() < end, (node, process.communicate())
            time.sleep(0.02)
        return process

    def send(self, uid):
        """An image of that UID goes over all nodes, each of which ends."""
        put(f'{self.folder}/tmp/image.dcm', part10(uid))
        serving = [self.serve('ARCH'), self.serve('GATE')]
        sent = self.at('send', 'CT1', '/tmp/image.dcm')
        same((sent.returncode, sent.stderr, sent.stdout.splitlines()[0]), (0, b'', b'new'))
        for process in serving:
            out, err = process.communicate(timeout=LIMIT)
            assert process.returncode == 0, (out, err)

    def lists(self):
        """What each node has."""
        found = [self.at('list', node) for node in ('CT1', 'GATE', 'ARCH')]
        same([(it.returncode, it.stderr) for it in found], 3 * [(0, b'')])
        return [it.stdout.decode() for it in found]


def older_package(program):
    """The package of an older version: the same program under a lower number."""
    says = release.statement_of({'sources': 64 * '0', 'kit': 'a kit', 'gate': CLOSING, 'program': release.digest(program)}, '0.2.0')
    return release.package(program, says, release.moment())


def installation():
    """A package is installed over an older one, whose ledgers it has then; its nodes take an image to the archive; its removal leaves the ledgers."""
    program = release.content(PROGRAM)
    with tempfile.TemporaryDirectory() as folder, Root() as root:
        same(build(folder, 'dist', gate_log(program)).returncode, 0)
        package = release.content(f'{folder}/dist/bitrusset_{release.version()}_amd64.deb')
        root.install(older_package(program))
        home = os.stat(f'{root.folder}/var/lib/dr_router')
        same((home.st_uid, home.st_gid, stat.S_IMODE(home.st_mode)), (*root.owner(), 0o750))
        same(root.text('usr/lib/systemd/system/dr_router@.service').count('/usr/bin/dr_router '), 3)
        root.put_plan()
        same(root.run('verify', '/etc/dr_router/plan.toml', '/etc/dr_router/certificate').stdout, b'yes\n')
        root.send(b'1.2.3.4')
        before = root.lists()
        same('kept\t1.2.3.4\t' in before[2], True)
        owner = root.owner()
        root.install(package)
        same(root.owner(), owner)
        same(root.run('--version').stdout.decode(), f'dr_router {release.version()}\n')
        same(root.text('usr/share/doc/bitrusset/STATEMENT'), release.content(f'{folder}/dist/STATEMENT').decode())
        same(root.lists(), before)
        root.send(b'1.2.3.5')
        after = root.lists()
        same(all(f'kept\t{uid}\t' in after[2] for uid in ('1.2.3.4', '1.2.3.5')), True)
        ledgers = contents(f'{root.folder}/var/lib/dr_router')
        for word in '-r', '-P':
            root.dpkg(word, 'bitrusset')
            same([os.path.exists(f'{root.folder}/usr/bin/{it}') for it in ('dr_router', 'dr_router-backup')], [False, False])
            same(contents(f'{root.folder}/var/lib/dr_router') == ledgers, True)
            same(sorted(os.listdir(f'{root.folder}/etc/dr_router')), ['certificate', 'plan.toml'])
        same(os.path.exists(f'{root.folder}/usr/share/doc/bitrusset'), False)
        root.install(package)
        same(root.lists(), after)


def can_change_roots():
    """Whether a package can be installed in a root of its own here."""
    if os.geteuid() != 0 or not all(shutil.which(it) for it in ('dpkg-query', 'tar', 'chroot')):
        return False
    with tempfile.TemporaryDirectory() as folder:
        try:
            os.mknod(f'{folder}/null', 0o666 | stat.S_IFCHR, os.makedev(1, 3))
            with open(f'{folder}/null', 'wb') as file:
                file.write(b'x')
        except OSError:
            return False
    return subprocess.run(['chroot', '/', 'true'], check=False).returncode == 0


def main():
    if not os.path.exists(PROGRAM):
        sys.exit('packaging: the program is not built')
    os.umask(0o022)
    try:
        release.moment()
    except release.Refused:
        os.environ['SOURCE_DATE_EPOCH'] = '1795719701'
    run_cases('packaging', versions, sources, builds, refused_builds, one_library, releases_of_a_checkout)
    if can_change_roots():
        run_cases('packaging', installation)
    else:
        print('packaging: no package can be installed here: it needs root on a Debian')


if __name__ == '__main__':
    main()
