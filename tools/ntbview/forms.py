"""The steps and their answers, as the tables of docs/FORMATS.md have them: hints for messages and conditions. In a form
small letters are words, and capitals stand for a name, a number or bytes. The program alone finds faults."""

import functools, itertools


def table(text: str) -> dict[str, tuple[str, ...]]:
    """A table of lines `form; form: answer, answer`."""
    rows = (line.strip().split(": ") for line in text.strip().split("\n"))
    return {form: tuple(answers.split(", ")) for forms, answers in rows for form in forms.split("; ")}


# Each step with its answers, in the order in which they are tested.
STEPS = table("""
    enable P S: notdown, dirty, ok
    train P: notdown, notenabled, spent, ok SESSION
    break P: notup, ok
    drop P: notclosing, ok
    clean P S: notdown, ok
    offer P S: linkdown, already, offered INDEX
    check P S: linkdown, already, notyet, version SEEN OWN, queues SEEN OWN, windows SEEN OWN, size SEEN CAP, up
    ready P S Q: linkdown, notchecked, already, ok
    join P S Q: linkdown, notready, already, notyet, joined
    begin P S Q HEX: linkdown, notready, closed, toolong LEN MAX, busy, again HEAD TAIL, ok NUMBER
    qpdown P S Q: linkdown, notready, closed, busy, again HEAD TAIL, ok NUMBER
    xbegin DEV ADDRESS KIND HEX: linkdown, notready, closed, toolong LEN MAX, busy, stopped, again HEAD TAIL, ok NUMBER
    post P S Q: idle, posted LABEL
    land P S K: nothing, blocked, landed LABEL
    look P S Q: notready, closed, outofturn, empty, peerdown, verdiffers SEEN OWN, long LEN MAX, ready NUMBER LEN
    copy P S Q: outofturn, copied NUMBER PART, frame NUMBER HEX, frame NUMBER -
    clear P S Q: outofturn, cleared NUMBER
    ack P S Q: outofturn, acked NUMBER
    wake DEV: stopped, awake
    irq P S: irq BITS
    mask P S BITS; unmask P S BITS; spad P S INDEX VALUE; poke P S WINDOW OFFSET HEX: ok
    showmem P S AT LEN: mem HEX
    showspad P S INDEX: pad VALUE
    showq P S K: queue COUNT LABEL, queue COUNT -
    relay SWITCH PORT: nothing, short LEN, flood COUNT, filtered, to PORT
    xnext DEV: nothing, linkdown, notready, closed, toolong LEN MAX, busy, again HEAD TAIL, ok NUMBER
""")

# Each macro with its steps, which are its answers' as well.
MACROS = table("""
    send P S Q HEX: begin, post
    xmit DEV ADDRESS KIND HEX: xbegin, post
    landall P S K: land
    recv P S Q; recv P S Q C: look, copy, clear, ack
    offerall P S: offer
""")
READS = table("""
    write S AT HEX ORDER: linkdown, ok
    read S AT LEN: linkdown, read N
    land S K: nothing, blocked, landed write AT LEN, landed read N, part N J, data N HEX
    show S AT LEN: mem HEX
    break: notup, ok
    drop: notclosing, ok
    relink: notdown, spent, ok
""")

# The labels of writes, each with the steps that post it.
POSTED = ("chunk Q N J", "len Q N", "ver Q N", "flag Q N", "down Q N", "bell Q")
OTHERS = {"index Q N": ("ack",), "pad I V": ("offer", "ready", "spad"), "raw W O L": ("poke",)}
LABELS = {**dict.fromkeys(POSTED, ("post",)), **OTHERS}

# The lines of the texts of `run`, its sessions joined, and of `stream`, and the counts at a report's end.
RUN = ("lane PAIR SIDE QUEUE sessions K accepted X left Z", "frame NUMBER HEX")
STREAM = ("stream PAIR SIDE QUEUE items X sessions K", "item NUMBER HEX")
OF_DEVICE = "tx FRAMES BYTES REFUSED rx FRAMES BYTES SHORT"
COUNTS = ("lane PAIR SIDE QUEUE SESSION accepted X delivered Y", f"dev NAME {OF_DEVICE}")

# The causes for which a script is refused.
CAUSES = tuple("nottext badheader unknownword badnumber badname repeated unknownname badhex badgeometry".split())
CAUSES += ("badpair", "badswitch", "toomany")
# The options of a pair: a number of both sides, or of one.
NUMBERS = (f"{name}{side}=N" for name in ("size", "cap", "windows", "queues", "version") for side in ("", "A", "B"))
OPTIONS = ("up", "strict", "raw", *NUMBERS, "mtu=N")

# The forms of lines by part, and of each part by first word, as a message has them.
FORMS: dict[str, tuple[str, ...]] = {
    "declarations": (
        *("host NAME", "pair NAME HOST HOST OPTION..", "dev NAME PAIR SIDE QUEUE ADDRESS stop=K start=K"),
        *("class PAIR SIDE QUEUE C", "switch NAME DEV DEV..", "steps", "traffic"),
    ),
    "steps": (*STEPS, *MACROS, "traffic"),
    "traffic": ("frame PAIR SIDE QUEUE HEX", "flood PAIR SIDE QUEUE COUNT LEN", "break PAIR"),
    "reads": tuple(READS),
}
WRITTEN = {
    part: {first: ", or ".join(alike) for first, alike in itertools.groupby(forms, lambda form: form.split()[0])}
    for part, forms in FORMS.items()
}


@functools.lru_cache(maxsize=256)
def answers_of(part: str, word: str) -> tuple[str, ...]:
    """The forms of the answers that a line of a part can have, by its first word: one for each label in its place."""
    if part in ("counts", "traffic"):
        return COUNTS if part == "counts" else (RUN + STREAM) * (word == "traffic")
    forms = {"steps": STEPS, "reads": READS}.get(part, {})
    macros = {form.split()[0]: steps for form, steps in MACROS.items()} if part == "steps" else {}
    found = dict[str, None]()
    for step in macros.get(word, (word,)):
        labels = [label for label, posts in LABELS.items() if step != "post" or "post" in posts]
        answers = next((answers for form, answers in forms.items() if form.split()[0] == step), ())
        found.update((answer.replace("LABEL", label), None) for answer in answers for label in labels)
    return tuple(found)
