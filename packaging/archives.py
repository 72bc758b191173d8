"""Archives whose bytes tell nothing of when, where and by whom they were made: members in the order of their names, all
of one moment, all root's."""
import gzip
import io
import os
import tarfile


def packed(text):
    """The text as gzip makes it, with no name and no moment."""
    into = io.BytesIO()
    with gzip.GzipFile(filename="", mode="wb", compresslevel=9, fileobj=into, mtime=0) as file:
        file.write(text)
    return into.getvalue()


def folders_of(paths):
    """The folders in which these paths are."""
    found = set()
    for path in paths:
        while "/" in path:
            path = path.rpartition("/")[0]
            found.add(path)
    return found


def member(name, moment, mode):
    info = tarfile.TarInfo(name)
    info.mtime, info.mode, info.uname, info.gname = moment, mode, "root", "root"
    return info


def tar(files, moment, folders=()):
    """A tar archive of files, each a path with its bytes and its mode, and of the folders that they are in; it begins with the folder './' where
    the paths do."""
    into = io.BytesIO()
    with tarfile.open(fileobj=into, mode="w", format=tarfile.GNU_FORMAT) as archive:
        entries = [(it, None) for it in folders_of([*files, *(f"{it}/" for it in folders)])] + [*files.items()]
        for path, content in sorted(entries, key=lambda it: os.fsencode(it[0])):
            if content is None:
                info = member(path, moment, 0o755)
                info.type = tarfile.DIRTYPE
                archive.addfile(info)
            else:
                info = member(path, moment, content[1])
                info.size = len(content[0])
                archive.addfile(info, io.BytesIO(content[0]))
    return into.getvalue()


def ar(members, moment):
    """An ar archive of these members, each a name with its bytes, in the order given: what a Debian package is (deb(5))."""
    parts = [b"!<arch>\n"]
    for name, text in members:
        parts.append(f"{name:<16}{moment:<12}{0:<6}{0:<6}{'100644':<8}{len(text):<10}`\n".encode())
        parts.append(text + b"\n" * (len(text) % 2))
    return b"".join(parts)
