"""Random graphs of six commits: a line has their seconds, and for each two of them 1 for a parent, 2 for an ancestor, 3 for both."""

import os
import random
import subprocess
import tempfile

EMPTY = "4b825dc642cb6eb9a060e54bf8d69288fbee4904"


def commit(name, seconds, parents):
    date = f"{1000000000 + seconds} +0000"
    env = dict(os.environ, GIT_AUTHOR_NAME="A", GIT_AUTHOR_EMAIL="a@x", GIT_COMMITTER_NAME="A",
               GIT_COMMITTER_EMAIL="a@x", GIT_AUTHOR_DATE=date, GIT_COMMITTER_DATE=date)
    words = ["git", "commit-tree", EMPTY, "-m", name]
    for parent in parents:
        words += ["-p", parent]
    return subprocess.run(words, env=env, check=True, capture_output=True, text=True).stdout.strip()


def is_ancestor(old, new):
    return subprocess.run(["git", "merge-base", "--is-ancestor", old, new]).returncode == 0


def main(arguments: list[str]) -> int:
    random.seed(7)
    os.chdir(tempfile.mkdtemp())
    subprocess.run(["git", "init", "-q", "vectors.git", "--bare"], check=True)
    os.chdir("vectors.git")
    subprocess.run(["git", "hash-object", "-t", "tree", "-w", "--stdin"], input=b"", check=True, capture_output=True)
    for graph in range(240):
        ids: list[str] = []
        seconds: list[int] = []
        marks = ""
        for i in range(6):
            parents = [j for j in range(i) if random.random() < 0.35][:3]
            low = max([seconds[j] for j in parents], default=random.randrange(4))
            seconds.append(min(9, low + random.randrange(3)))
            ids.append(commit(f"{graph} {i}", seconds[i], [ids[j] for j in parents]))
            for j in range(i):
                assert not is_ancestor(ids[i], ids[j])
                marks += str((j in parents) + 2 * is_ancestor(ids[j], ids[i]))
            assert is_ancestor(ids[i], ids[i])
        print("".join(map(str, seconds)) + marks)
    return 0
