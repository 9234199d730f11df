"""Builds a Rust program of this folder over the Rust crate, for release; one that calls ours is linked with the static library out/libface.a."""

import subprocess
import sys
from pathlib import Path

ROOT = Path(__file__).resolve().parents[1]
sys.path[:0] = [str(ROOT / "tests"), str(ROOT / "tests/rust")]

import build
import ours


def program(name, calls_ours=False):
    """The path of the program made of bench/NAME.rs."""
    if not build.at_hand():
        sys.exit("the Rust's sources or cargo are not at hand")
    build.build()
    work = build.WORK / "rust-oracle" / name
    (work / "src").mkdir(parents=True, exist_ok=True)
    (work / "src/main.rs").write_text((ROOT / f"bench/{name}.rs").read_text())
    (work / "Cargo.toml").write_text(f'[package]\nname = "{name}"\nversion = "0.0.0"\nedition = "2021"\n\n'
                                     '[dependencies]\nbech32 = { path = "../bech32" }\n\n[profile.release]\nopt-level = 3\n\n[workspace]\n')
    if calls_ours:
        ours.archives()
        (work / "build.rs").write_text('fn main() {\n    println!("cargo:rustc-link-search=native=%s");\n'
                                       '    println!("cargo:rustc-link-lib=static=face");\n}\n' % ours.OUT)
    subprocess.run(["cargo", "build", "--release", "--offline", "--quiet"], cwd=work, check=True, stderr=subprocess.DEVNULL)
    return work / "target/release" / name
