"""Random small scripts for tools/explore-brute: the same seed gives the same script."""
import random

PARTS = ("ring", "ring", "queues", "classes", "raw", "bells", "lost", "handshake", "pairs", "reverse")


def payload(dice):
    """The bytes of a frame: mostly one, seldom more than one write takes."""
    count = dice.choice([1, 1, 1, 1, 2, 129])
    return "".join(f"{dice.randrange(97, 107):02x}" for _ in range(count))


def queue_of(dice, queues):
    """One of the queues."""
    return dice.randrange(queues)


def send_steps(dice, pair, side, queue):
    """A frame that is sent whole or in parts, or only begun."""
    if dice.random() < 0.7:
        return [f"send {pair} {side} {queue} {payload(dice)}"]
    return [f"begin {pair} {side} {queue} {payload(dice)}"] + [f"post {pair} {side} {queue}"] * dice.randrange(0, 5)


def receive_steps(dice, pair, side, queue):
    """A receiver that goes all its way, or some of it."""
    if dice.random() < 0.6:
        return [f"recv {pair} {side} {queue}" + dice.choice(["", "", " 2"])]
    steps = [f"{word} {pair} {side} {queue}" for word in ("look", "copy", "clear", "ack")]
    return steps[: dice.randrange(1, 5)]


def show_steps(dice, pair, side, queue):
    """Something that is shown, or taken."""
    return [dice.choice([
        f"irq {pair} {side}",
        f"showq {pair} {side} {dice.randrange(2)}",
        f"showspad {pair} {side} {dice.choice([0, 1, 12])}",
        f"showmem {pair} {side} {dice.choice([0, 1003, 1011, 1019, 4092])} 4",
        f"look {pair} {side} {queue}",
    ])]


def raw_steps(dice, pair, side, _):
    """Bytes that are written past the transport: anywhere, into a header, or over the index word."""
    text = dice.choice(["61", "6263", "000000000100000001000000", "01000000", "03000000", "00000000"])
    return [f"poke {pair} {side} 0 {dice.choice([0, 0, 1, 1011, 1019, 4092])} {text}"]


def bell_steps(dice, pair, side, _):
    """Doorbells that are masked, unmasked or taken, and a scratchpad."""
    return [dice.choice([f"mask {pair} {side} 1", f"unmask {pair} {side} 1", f"irq {pair} {side}", f"irq {pair} {side}",
                         f"spad {pair} {side} 12 {dice.randrange(1, 4)}"])]


def lost_steps(dice, pair, side, queue):
    """A link that is lost, and perhaps comes up again."""
    steps = [f"break {pair}"]
    if dice.random() < 0.8:
        steps += [f"drop {pair}"]
        if dice.random() < 0.6:
            steps += [f"clean {pair} A", f"clean {pair} B", f"enable {pair} A", f"enable {pair} B", f"train {pair}",
                      f"offer {pair} {side}", f"look {pair} {side} {queue}"]
    return steps


def land_steps(dice, pair, side, _):
    """Landings of the script's own."""
    return [f"land {pair} {side} {dice.choice([0, 0, 1, 3])}"]


def handshake_script(dice, pair):
    """Both sides' handshakes, each in its order, mixed with one another."""
    steps = [f"enable {pair} A", f"enable {pair} B", f"train {pair}"]
    both = []
    for side in "AB":
        count = dice.choice([3, 5, 5, 5])
        both.append([f"offer {pair} {side}"] * count + [f"check {pair} {side}", f"ready {pair} {side} 0", f"join {pair} {side} 0"])
    keep = dice.randrange(6, 13)
    while any(both) and len(steps) < 3 + keep:
        rest = dice.choice([one for one in both if one])
        steps.append(rest.pop(0))
    if dice.random() < 0.5:
        steps.insert(dice.randrange(4, len(steps) + 1), f"landall {pair} {dice.choice('AB')} {dice.randrange(1, 6)}")
    return steps + [f"check {pair} A"]


def plain_script(dice, part, pairs, queues):
    """Frames, landings and looks on pairs that are up."""
    makers = [send_steps, receive_steps, receive_steps, show_steps, land_steps]
    makers += {"raw": [raw_steps] * 5, "bells": [bell_steps] * 4, "lost": [lost_steps] * 2}.get(part, [])
    steps = []
    for _ in range(dice.randrange(3, 7)):
        pair = dice.choice(pairs)
        maker = dice.choice(makers)
        sender = "A" if part not in ("reverse", "raw", "bells") or dice.random() < 0.7 else "B"
        receives = maker in (receive_steps, show_steps, bell_steps)
        side = "BA"["AB".index(sender)] if receives else sender
        steps += maker(dice, pair, side, queue_of(dice, queues))
    return steps


def random_script(seed):
    """One script, of a part that the seed chooses."""
    dice = random.Random(seed)
    part = dice.choice(PARTS)
    pairs = ["p", "q"] if part == "pairs" else ["p"]
    queues = 2 if part in ("queues", "classes") else 1
    options = "size=4096 mtu=1023" + (f" queues={queues}" if queues > 1 else "")
    options += " strict" if dice.random() < 0.3 else ""
    options += " raw" if part == "raw" else ""
    options += " version=5" if dice.random() < 0.15 else ""
    options += "" if part == "handshake" else " up"
    lines = ["ntb 1", "host a", "host b"] + [f"pair {pair} a b {options}" for pair in pairs]
    if part == "classes":
        lines += ["class p A 1 3"] + (["class p B 1 3"] if dice.random() < 0.5 else [])
    if part in ("ring", "reverse") and dice.random() < 0.3:
        lines.append("dev d p A 0 020000000001 stop=1 start=2")
    steps = handshake_script(dice, "p") if part == "handshake" else plain_script(dice, part, pairs, queues)
    return "\n".join(lines + ["steps"] + steps) + "\n"
