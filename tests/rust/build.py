"""Builds the Rust crate, unchanged but for a stand-in for its missing module, and what asks it: a shared library, and programs that print."""

import shutil
import subprocess
from pathlib import Path

HERE = Path(__file__).resolve().parent
ROOT = HERE.parents[1]
WORK = ROOT / "out"
SOURCE = ROOT.parent / "shared/docs/src/src"


def lacking():
    """Why the Rust cannot be asked here; None where it can."""
    if not SOURCE.is_dir():
        return "the Rust's sources are not at hand"
    return None if shutil.which("cargo") else "no Rust compiler is at hand"


def at_hand():
    return lacking() is None


def build():
    """The path of the shared library that has the Rust's readers and writers, oracle.rs."""
    work = WORK / "rust-oracle"
    crate_in(work, HERE / "lfsr.rs")
    lay(work / "oracle/src/lib.rs", HERE / "oracle.rs")
    (work / "oracle/Cargo.toml").write_text(
        '[package]\nname = "oracle"\nversion = "0.0.0"\nedition = "2021"\n\n[lib]\ncrate-type = ["cdylib"]\n\n'
        '[dependencies]\nbech32 = { path = "../bech32" }\n\n[profile.release]\nopt-level = 3\n\n[workspace]\n')
    cargo(work / "oracle", "build", "--release")
    return work / "oracle/target/release/liboracle.so"


def printed(name, given=b"", allocator=True, checks=True):
    """What the program NAME/main.rs writes, given these bytes, over the Rust crate with the stand-in NAME/lfsr.rs, or lfsr.rs where it has none.

    The crate is built with or without its allocator, and with or without debug checks."""
    work, own = WORK / f"rust-{name}", HERE / name / "lfsr.rs"
    crate_in(work, own if own.exists() else HERE / "lfsr.rs")
    lay(work / "program/src/main.rs", HERE / name / "main.rs")
    (work / "program/Cargo.toml").write_text(
        f'[package]\nname = "{name}"\nversion = "0.0.0"\nedition = "2021"\n\n[dependencies]\n'
        f'bech32 = {{ path = "../bech32", default-features = {str(allocator).lower()} }}\n\n[workspace]\n')
    return cargo(work / "program", "run", *([] if checks else ["--release"]), given=given)


def crate_in(work, stand_in):
    """Lays the Rust crate into a folder: its own sources, and a stand-in for the module that is missing."""
    shutil.rmtree(work / "bech32", ignore_errors=True)
    shutil.copytree(SOURCE, work / "bech32/src")
    shutil.copy(stand_in, work / "bech32/src/primitives/lfsr.rs")
    (work / "bech32/Cargo.toml").write_text(
        '[package]\nname = "bech32"\nversion = "0.12.0"\nedition = "2021"\n\n'
        '[features]\ndefault = ["std"]\nstd = ["alloc"]\nalloc = []\n')


def lay(at, file):
    at.parent.mkdir(parents=True, exist_ok=True)
    shutil.copy(file, at)


def cargo(folder, *words, given=b""):
    """What cargo, or the program that it runs, writes."""
    ran = subprocess.run(["cargo", *words, "--offline", "--quiet"], cwd=folder, input=given, capture_output=True)
    if ran.returncode:
        raise RuntimeError("the Rust does not build or run: " + ran.stderr.decode(errors="replace")[-2000:])
    return ran.stdout
