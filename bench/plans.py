"""Plans of any size for `fencectl explore`, by family and numbers, as `bench-6x3`."""
import re


def bench(clients, rounds):
    """Applications that draw frames, a queue of the GPU, and a compositor that shows them."""
    apps, frames = range(clients - 2), range(1, rounds + 1)
    yield from ("timeline gpu", "timeline flips", *(f"timeline c{app}" for app in apps), *(f"buffer b{app}" for app in apps))
    yield from (f"fence commit{app}.{frame} c{app} {frame}" for app in apps for frame in frames)
    yield from (f"fence shown{frame} flips {frame}" for frame in frames)
    for app in apps:
        yield f"#client app{app}"
        for frame in frames:
            if frame > 1:
                yield f"wait shown{frame - 1}"
            yield f"export idle{app}.{frame} b{app} write"
            yield f"fence draw{app}.{frame} gpu {(frame - 1) * len(apps) + app + 1}"
            yield f"import b{app} draw{app}.{frame} write"
            yield f"inc c{app} 1"
    yield "#client gpu"
    for frame in frames:
        for app in apps:
            yield from (f"wait idle{app}.{frame}", "inc gpu 1")
    yield "#client compositor"
    for frame in frames:
        for app in apps:
            yield from (f"wait commit{app}.{frame}", f"export ready{app}.{frame} b{app} read")
        yield from (f"wait ready{app}.{frame}" for app in apps)
        yield from (f"test b{app} write" for app in apps)
        yield "inc flips 1"


def reset(clients, rounds):
    """`bench` with one application less, and a watchdog that closes the GPU's timeline at any time."""
    yield from bench(clients - 1, rounds)
    yield from ("#client watchdog", "shut gpu")


def chain(clients, rounds):
    """Stages, each of which waits for the stage before it."""
    yield from (f"timeline t{stage}" for stage in range(clients))
    for stage in range(clients):
        yield f"#client stage{stage}"
        for frame in range(1, rounds + 1):
            if stage:
                yield f"wait s{stage - 1}.{frame}"
            yield from (f"fence s{stage}.{frame} t{stage} {frame}", f"inc t{stage} 1")


def workers(clients, rounds, shared=False):
    """Workers with a buffer each, which wait for nobody: the worst case of a search by every order."""
    buffers = 1 if shared else clients
    yield from (*(f"timeline t{worker}" for worker in range(clients)), *(f"buffer b{buffer}" for buffer in range(buffers)))
    for worker in range(clients):
        buffer = worker % buffers
        yield f"#client w{worker}"
        for frame in range(1, rounds + 1):
            yield from (f"export e{worker}.{frame} b{buffer} write", f"fence f{worker}.{frame} t{worker} {frame}")
            yield from (f"import b{buffer} f{worker}.{frame} write", f"inc t{worker} 1", f"wait f{worker}.{frame}")


def shared(clients, rounds):
    """Workers with one buffer: most orders differ in what the exports list."""
    return workers(clients, rounds, shared=True)


def triple(frames):
    """An application, its queue of the GPU, a compositor (the protocol) and a display (scanout) over three buffers."""
    points = range(1, frames + 1)
    yield from (f"timeline {name}" for name in ("gpu", "commits", "releases", "vblank", "pageflips"))
    yield from ("buffer b0", "buffer b1", "buffer b2")
    yield from (f"fence {file}{point} {file}s {point}" for file in ("commit", "release") for point in points)
    yield from (f"fence flip{point} pageflips {point}" for point in points)
    yield "#client app"
    for point in points:
        buffer = (point - 1) % 3
        if point > 3:
            yield f"wait release{point - 3}"
        yield from (f"export idle{point} b{buffer} write", f"fence draw{point} gpu {point}")
        yield from (f"import b{buffer} draw{point} write", "inc commits 1")
    yield "#client gpu"
    for point in points:
        yield from (f"wait idle{point}", "inc gpu 1")
    yield "#client compositor"
    for point in points:
        buffer = (point - 1) % 3
        yield from (f"wait commit{point}", f"export ready{point} b{buffer} read", f"fence scan{point} vblank {point}")
        yield from (f"import b{buffer} scan{point} read", "inc pageflips 1")
        if point > 1:
            yield "inc releases 1"
    yield "#client display"
    for point in points:
        yield from (f"wait flip{point}", f"wait ready{point}", f"info draw{point}")
        yield from (f"#= ok draw{point} 1 1", f"#= fence gpu sw_sync {point} 1")
        if point > 1:
            yield "inc vblank 1"
    yield from ("inc vblank 1", "#finally")
    for buffer in range(3):
        yield from (f"test b{buffer} read", "#= ok 1")


def pipe(stages, frames):
    """A video pipeline: each stage has a thread that submits and an engine, with two surfaces between stages."""
    links, points = range(stages - 1), range(1, frames + 1)
    yield from (f"timeline {name}{stage}" for name in ("e", "done") for stage in range(stages))
    yield from (f"timeline free{link}" for link in links)
    yield from (f"buffer s{link}.{surface}" for link in links for surface in range(2))
    for link in links:
        yield from (f"fence full{link}.{point} done{link} {point}" for point in points)
        yield from (f"fence empty{link}.{point} free{link} {point}" for point in points)
    for stage in range(stages):
        yield f"#client thread{stage}"
        for point in points:
            yield from submission(stage, point, has_next=stage < stages - 1)
        yield f"#client engine{stage}"
        for point in points:
            if stage > 0:
                yield f"wait in{stage}.{point}"
            if stage < stages - 1:
                yield f"wait out{stage}.{point}"
            if stage > 0:
                yield from (f"info job{stage - 1}.{point}", f"#= ok job{stage - 1}.{point} 1 1")
                yield f"#= fence e{stage - 1} sw_sync {point} 1"
            yield f"inc e{stage} 1"
    yield "#finally"
    for link in links:
        yield from (f"test s{link}.0 read", "#= ok 1", f"test s{link}.1 read", "#= ok 1")


def submission(stage, point, has_next):
    """A frame of a stage's thread in `pipe`."""
    surface = (point - 1) % 2
    if stage > 0:
        yield f"wait full{stage - 1}.{point}"
    if has_next and point > 2:
        yield f"wait empty{stage}.{point - 2}"
    if stage > 0:
        yield f"export in{stage}.{point} s{stage - 1}.{surface} read"
    if has_next:
        yield f"export out{stage}.{point} s{stage}.{surface} write"
    yield f"fence job{stage}.{point} e{stage} {point}"
    if stage > 0:
        yield f"import s{stage - 1}.{surface} job{stage}.{point} read"
    if has_next:
        yield f"import s{stage}.{surface} job{stage}.{point} write"
    yield f"inc done{stage} 1"
    if stage > 0:
        yield f"inc free{stage - 1} 1"


def in_round(number, line):
    """Returns a line of a `#repeat` in that round."""
    return re.sub(r"\$\$|\$\+(\d+)|\$", lambda found: "$" if found[0] == "$$" else str(number + int(found[1] or 0)), line)


def length_of(lines):
    """Returns how many lines a block has that begins above these."""
    depth = 0
    for place, line in enumerate(lines):
        first = (line.split() or [""])[0]
        if first == "#end" and not depth:
            return place
        depth += (first in ("#if", "#repeat")) - (first == "#end")
    raise ValueError("a block without its #end")


def made_once(lines):
    """Writes the outermost `#repeat` of a plan out."""
    while lines:
        line, *lines = lines
        words = line.split()
        if words[:1] == ["#repeat"]:
            length = length_of(lines)
            for number in range(1, int(words[1]) + 1):
                yield from (in_round(number, it) for it in lines[:length])
            lines = lines[length + 1:]
        else:
            yield line


def written_out(text):
    """Returns a plan's text with each `#repeat` written out, as `explore` reads it."""
    return "\n".join(made_once(list(made_once(text.split("\n")))))


FAMILIES = {family.__name__: family for family in (bench, reset, chain, workers, shared, triple, pipe)}


def plan_named(name):
    """Returns the text of a plan by its family and numbers."""
    family, numbers = name.split("-")
    return "\n".join(FAMILIES[family](*map(int, numbers.split("x")))) + "\n"
