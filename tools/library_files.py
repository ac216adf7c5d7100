"""The files that the comparisons of this folder go over."""
import os
import sysconfig


def given_folders(program, words):
    """The folders that words name, or Python's library; none, which is told, where they or the program are missing."""
    folders = words or [sysconfig.get_paths()["stdlib"]]
    if os.path.exists(program) and all(map(os.path.isdir, folders)):
        return folders
    print("skipped: the program or the library is missing")
    return []


def files_below(folders, left_out=frozenset()):
    """All .py files below these folders, in order, without those below folders of these names."""
    for top in folders:
        for folder, below, names in os.walk(top):
            below[:] = sorted(name for name in below if name not in left_out)
            for name in sorted(names):
                path = os.path.join(folder, name)
                if name.endswith(".py") and os.path.isfile(path):
                    yield path
