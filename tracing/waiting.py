"""Who is left behind a batch that is blocked, and who waits for whom, by name."""


def waits_of(entry, scene):
    """Gives lines on these, by the lines of the report and by what the scene of the batch has of contracts that are
    acquired; none where the batch is not blocked."""
    cast, lines = scene.cast, []
    for it in entry[1:] if entry[0][2] == "blocked" else ():
        pid = int(it[1]) if it[0] in ("left", "waits") else None
        if it[0] == "left":
            lines.append(f"left {cast.name(pid)} of line {cast.lines.get(pid)}")
        if it[0] == "waits":
            other = int(it[5])
            holder = scene.lent.get(other)
            said = f"waits {cast.name(pid)} for {cast.name(other)}"
            whom = "itself" if holder == pid else cast.name(holder)
            lines.append(said if holder is None else f"{said}, which {whom} has acquired")
    return lines
