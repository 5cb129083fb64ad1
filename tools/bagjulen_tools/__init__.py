"""What the tools of this repository are made of.

- `commands`, `measure`, `dev`, `vectors`: a command a module, with `main(arguments) -> int`
- `protocol`: lines, connections, requests, and real `git upload-pack`
- `formats`: scenes, reports, bundles, packs, objects, rows
- `repository`: a real repository, its locks, and what is written into it at once
- `remote`: fetch, clone and mirror, told in Git's words
- `trials`: random repositories and input, what has to come of them, and reasons to differ from Git
- `test_helpers`: programs that the tests run
"""
