"""Runs the built program on files of a folder, beside the disk's own syncs: `bench/run store` calls it, and `measure.py PROGRAM FOLDER [COUNTS]`
does it with a program that is built.

A commit can't be faster than the disk: so what the disk takes for an append and its fdatasync is measured by turns with the program,
on a file of the same folder, before each task and after it.
"""
import os
import statistics
import subprocess
import sys
import tempfile
import time

KB, MB = 1 << 10, 1 << 20
COUNTS = {'1 kB': 1000, '512 kB': 200, '32 MB': 8, 'rows': 100_000}
SIZES = {'1 kB': KB, '512 kB': 512 * KB, '32 MB': 32 * MB}
USAGE = 'usage: bench/run store FOLDER [COUNT-OF-1-kB COUNT-OF-512-kB COUNT-OF-32-MB COUNT-OF-ROWS]'


def file_system(folder):
    """The type of the file system that the folder lies on, and its device."""
    found = ('', '?', '?')
    with open('/proc/mounts') as mounts:
        for line in mounts:
            device, at, kind = line.split()[:3]
            within = os.path.realpath(folder) == at or os.path.realpath(folder).startswith(at.rstrip('/') + '/')
            if within and len(at) >= len(found[0]):
                found = (at, kind, device)
    return found[1:]


def syncs(folder, size, count):
    """Appends so many bytes and syncs them, again and again: how long each took, in ms."""
    spent, piece = [], os.urandom(size)
    with tempfile.NamedTemporaryFile(dir=folder, buffering=0) as file:
        for _ in range(count):
            begun = time.monotonic()
            left = memoryview(piece)
            while left:
                left = left[file.write(left):]
            os.fdatasync(file.fileno())
            spent.append(1000 * (time.monotonic() - begun))
    return spent


def run(program, *words):
    """What the program prints, as lists of ms by the first word of the line; its CPU time in ms, and its greatest memory in MB."""
    process = subprocess.Popen([program, *map(str, words)], stdout=subprocess.PIPE, stdin=subprocess.DEVNULL, text=True)
    printed = {}
    for line in process.stdout:
        what, nanoseconds = line.split()
        printed.setdefault(what, []).append(int(nanoseconds) / 1e6)
    process.stdout.close()
    _, status, used = os.wait4(process.pid, 0)
    if status != 0:
        sys.exit(f'the program failed on {words}')
    return printed, 1000 * (used.ru_utime + used.ru_stime), used.ru_maxrss / KB


def shown(spent):
    """Median, mean, the ninth tenth and the greatest."""
    ninth = sorted(spent)[len(spent) * 9 // 10]
    return f'median {statistics.median(spent):8.3f}  mean {statistics.mean(spent):8.3f}  9/10 {ninth:8.3f}  most {max(spent):8.3f} ms'


def row(what, text):
    print(f'{what:<48}{text}', flush=True)


def above(spent, disk):
    return f'{statistics.median(spent) - statistics.median(disk):+.3f} ms by medians, {statistics.mean(spent) - statistics.mean(disk):+.3f} ms by means'


def arriving(program, folder, name, size, count):
    """Items of that size into a new file, with the disk's syncs before and after."""
    few = max(3, min(count, 200) // 2)
    small, alike = syncs(folder, 4 * KB, few), syncs(folder, size, few)
    printed, cpu, memory = run(program, f'{folder}/{size}.db', 'arrive', size, count, 1)
    small, alike = small + syncs(folder, 4 * KB, few), alike + syncs(folder, size, few)
    spent = printed['arrive']
    print(f'{count} items of {name}')
    row('  fdatasync of 4 kB', shown(small))
    row(f'  fdatasync of {name}', shown(alike))
    row('  arrive', shown(spent))
    row('  arrive above a sync of 4 kB', above(spent, small))
    row(f'  arrive above a sync of {name}', above(spent, alike))
    row('  MB a second', f'{size * count / MB / (sum(spent) / 1000):.1f}, the disk alone {size / MB / (statistics.mean(alike) / 1000):.1f}')
    row('  CPU for each, with making the item', f'{cpu / count:.3f} ms; greatest memory {memory:.0f} MB')


def opening(program, path):
    printed, cpu, memory = run(program, path, 'ask', 0)
    row('  opening', f'{printed["open"][0] / 1000:.2f} s, CPU {cpu / 1000:.2f} s, greatest memory {memory:.0f} MB')
    row('  the file, and its log', ', '.join(f'{os.path.getsize(it) / MB:.0f} MB' for it in (path, f'{path}-wal')))


def committing(program, path, task, *numbers):
    """A durable commit each, many of them."""
    printed, cpu, memory = run(program, path, task, *numbers)
    spent = printed[task]
    tenth = max(1, len(spent) // 10)
    row(f'  {task}', shown(spent))
    row('    the first and the last tenth, by medians', f'{statistics.median(spent[:tenth]):.3f}, {statistics.median(spent[-tenth:]):.3f} ms')
    row('    CPU of the run for each', f'{cpu / len(spent):.3f} ms; greatest memory {memory:.0f} MB')


def queueing(program, folder, count):
    """So many rows in the queue, of which none is done: what is due, and the opening."""
    path = f'{folder}/rows.db'
    print(f'{count} items of 1 kB, in the queue')
    committing(program, path, 'arrive', KB, count, 1)
    for calls in 1000, 10000:
        printed, _, _ = run(program, path, 'ask', calls)
        row(f'  {calls} calls of next', f'{1000 * printed["ask"][0] / calls:.2f} us each')
    opening(program, path)


def settling(program, folder, count):
    """As many lines, of half as many items, each of which is then settled."""
    path = f'{folder}/settled.db'
    print(f'{count // 2} items of 1 kB, settled')
    committing(program, path, 'arrive', KB, count // 2, 1)
    committing(program, path, 'settle', count // 2)
    opening(program, path)


def task_of(words):
    """The folder, its file system, and the counts that the words say."""
    if len(words) not in (1, 1 + len(COUNTS)) or not os.path.isdir(words[0]):
        sys.exit(USAGE)
    kind, device = file_system(words[0])
    if kind in ('tmpfs', 'ramfs'):
        sys.exit(f'{words[0]} lies on {kind}, which has no syncs')
    return words[0], f'{kind} ({device})', dict(zip(COUNTS, map(int, words[1:]))) if words[1:] else COUNTS


def measure(program, words):
    """Runs all tasks in a folder of their own within the given folder."""
    place, disk, counts = task_of(words)
    print(f'on {disk}, load {os.getloadavg()[0]:.1f}', flush=True)
    with tempfile.TemporaryDirectory(prefix='store-', dir=place) as folder:
        for name, size in SIZES.items():
            if counts[name]:
                arriving(program, folder, name, size, counts[name])
        if counts['rows']:
            queueing(program, folder, counts['rows'])
            settling(program, folder, counts['rows'])
    print(f'load {os.getloadavg()[0]:.1f}')


if __name__ == '__main__':
    measure(sys.argv[1], sys.argv[2:])
