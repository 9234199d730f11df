"""What the Rust answers for about 10,000 strings: reading.txt. A line is: operation, string in hexadecimal, number, and what else the Rust
gave; nothing is a dash.

Operations: 1 and 2, generic reading under Bech32 and Bech32m (prefix in lower case, data part without its checksum, its bytes);
s, segwit reading (version, program)."""

import build
import cases
import inputs
from rust import Rust

VECTORS = build.SOURCE.parents[1] / "vectors"
LISTS = ("bip173_*.txt", "bip350_*.txt", "doc01_cases.txt")


def strings():
    for file in (file for name in LISTS for file in sorted(VECTORS.glob(name))):
        for line in file.read_text(encoding="utf-8").splitlines():
            if line and not line.startswith("#"):
                yield bytes.fromhex(line.split("\t")[0])
    for text, _ in cases.CASES:
        yield text.encode()
    for length in range(0, 5):
        for text in inputs.short(length):
            yield text.encode()
    rng = inputs.seeded(20)
    for text in inputs.symbols_of_every_length(rng, (0, 1, 16, 17, 31)):
        yield text.encode()
    for text, _ in zip(inputs.stream(rng), range(700)):
        yield text.encode()


def shown(content):
    return content.hex() or "-"


def made():
    rust = Rust(build.build())
    lines = []
    for text in dict.fromkeys(strings()):
        for code in (1, 2):
            number, prefix, part, content = rust.read(code, text)
            lines.append(f"{code} {shown(text)} {number} {shown(prefix)} {shown(part)} {shown(content)}")
        number, version, program = rust.read_address(text)
        lines.append(f"s {shown(text)} {number} {version} {shown(program)}")
    return {build.ROOT / "tests/oracle/reading.txt": ("\n".join(lines) + "\n").encode()}
