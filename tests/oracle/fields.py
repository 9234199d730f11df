"""What the Rust answers for the inputs of crates/field_replay. See FIELDS.md."""

import build


def made():
    return {build.ROOT / "crates/field_replay/stdout": build.printed("fields")}
