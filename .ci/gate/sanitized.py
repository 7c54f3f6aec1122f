"""Programs in C with checks of each access to memory (AddressSanitizer) and of what the standard
leaves undefined (UndefinedBehaviorSanitizer), which gcc and clang put into what they compile. The
libraries are proved, and have none; what the checks see of them are their copies of bytes."""
from pathlib import Path

from gate import children

# What compiles C: the words before the files, and those behind them.
Compiler = tuple[list[str], list[str]]

FLAGS = ("-O1", "-g", "-fno-omit-frame-pointer", "-fsanitize=address,undefined",
         "-fno-sanitize-recover=all")
TOOL = "AddressSanitizer"

# Two programs, and what the checks say of each: memory that was given back, and a sum that has no
# value.
WRONG = {
    "#include <stdlib.h>\nint main(void) { char *a = calloc(4, 1); free(a); return a[0]; }\n":
        b"heap-use-after-free",
    "int main(int n, char **w) { int most = 2147483647; return (most + n) == 0; }\n":
        b"signed integer overflow",
}


def are_there(compiler: Compiler, folder: str) -> bool:
    """Whether a compiler has these checks, and they see what is wrong with two programs."""
    source, program = Path(folder, "wrong.c"), Path(folder, "wrong")
    front, behind = compiler
    for text, told in WRONG.items():
        source.write_text(text, encoding="utf-8")
        words: list[str | Path] = [*front, *FLAGS, "-o", program, source, *behind]
        if children.run(words).returncode:
            return False
        if not program.exists():
            return False
        done = children.run([program], is_merged=True)
        if not done.returncode or told not in done.stdout:
            return False
    return True
