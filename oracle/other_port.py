"""The port's s3w2_script with some of its text changed, proved and built in a folder outside the repository."""
import proved_port


def build(room, changes, **words):
    """The program's path. A change is a file of the crate, a text that it has once, and what stands in its place."""
    proved_port.copy(room)
    crate = room / "crates" / "s3w2_script"
    for name, old, new in changes:
        text = (crate / name).read_text()
        assert text.count(old) == 1
        (crate / name).write_text(text.replace(old, new))
    return proved_port.program("s3w2_script", room, **words)
