"""The checks of the merge gate, each a module with a function `main` that takes the words of its
command line and gives its status. At the top of the repository, `.ci/run` runs all of them, and
`python3 .ci/gate NAME` runs one."""
from pathlib import Path

# The repository.
TOP = Path(__file__).resolve().parents[2]
