#!/usr/bin/env python3
"""The text of a trace as a term of antt: a record of phases, files, guests and rings."""

USES = [line for line in """use Rattle.std.specs.Prelude.{◌≡◌, ℕ, refl, Some, None, List, [], ◌∷◌, codes, true, false}
use Rattle.tap_trace.specs.declared.answer.Answer.TheVariants as answer
use Rattle.tap_ledger.specs.declared.error.TapErr.TheVariants as tap
use Rattle.tap_ledger.specs.declared.error.Invalid.TheVariants as invalid
use Rattle.tap_ledger.specs.declared.error.Busy.TheVariants as busy
use Rattle.tap_ledger.specs.declared.error.TooBig.TheVariants as big
use Rattle.tap_trace.specs.declared.causes.VhostText.TheVariants as vhost
use Rattle.tap_trace.specs.declared.causes.DriveText.TheVariants as drive
use Rattle.tap_trace.specs.declared.kind.Kind.TheVariants as kind
use Rattle.tap_trace.specs.declared.turn.TurnText.TheVariants as turn
use Rattle.tap_trace.specs.declared.turn.ChainText.TheVariants as chain
use Rattle.tap_trace.specs.declared.trace.OpText.TheVariants as text
use Rattle.tap_trace.specs.declared.trace.Trace.{Trace}
use Rattle.tap_ledger.specs.declared.fate.Fate.TheVariants as fate
use Rattle.tap_ledger.specs.declared.fate.Cause.TheVariants as cause
use Rattle.tap_ledger.specs.declared.side.Side.TheVariants as side
use Rattle.tap_frame.specs.declared.reading.BadFrame.TheVariants as bad
use Rattle.scen_words.specs.declared.command.Command.TheVariants as command
""".split("\n") if line]

BAD = ["", "ShortPi", "ShortHdr", "HdrBeyond", "ShortEther", "HdrShort", "TooLong"]


def listed(xs):
    return "(" + "".join(f"{x} ∷ " for x in xs) + "[])"


def bytes_of(digits):
    return listed(str(int(digits[i:i + 2], 16)) for i in range(0, len(digits), 2))


def name(text):
    a, t, p = text.split(".")
    return f"(record {{ actor = {a}; turn = {t}; part = {p} }})"


def flag(text):
    return "true" if text == "1" else "false"


def some(text):
    return "None" if text == "-" else f"(Some {text})"


def op_text(w):
    k = w[0]
    if k == "setiff":
        return f'(text.SetIff {w[1]} (codes "{w[2]}") {int(w[3], 16)})'
    if k == "learn":
        return f"(text.Learn {w[1]} {int(w[2], 16)})"
    if k == "back":
        return f"(text.Back {w[1]} side.{w[2].capitalize()} {some(w[3])})"
    c = {"setqueue": lambda: f"command.SetQueue {w[1]} {int(w[2], 16)}", "close": lambda: f"command.Close {w[1]}",
         "persist": lambda: f"command.Persist {w[1]} {flag(w[2])}", "hdrsize": lambda: f"command.HdrSize {w[1]} {w[2]}",
         "steer": lambda: f"command.Steer {w[1]} {some(w[2])}", "filter": lambda: f"command.Filter {w[1]} {some(w[2])}",
         "tick": lambda: f"command.Tick {w[1]}", "resize": lambda: f"command.Resize {w[1]} {w[2]}"}[k]()
    return f"(text.Words ({c}))"


def drop(w):
    if w[0] in ("NoQueue", "Filtered"):
        return f"(answer.Dropped None cause.{w[0]})"
    if w[0] == "Gone":
        return f"(answer.Dropped (Some {w[1]}) (cause.Gone {w[2]} {w[3]} {flag(w[4])}))"
    return f"(answer.Dropped (Some {w[1]}) (cause.{w[0]} {' '.join(w[2:])}))"


def err(w):
    if w[0] == "EINVAL" and w[1].isdigit():
        return f"(answer.Room {w[1]})"
    if w == ["EBUSY"]:
        return "answer.Busy"
    if w[0] == "EAGAIN":
        return f"(answer.Again {w[1]})"
    if len(w) == 1:
        return f"(answer.Tap tap.{w[0]})"
    sub = {"EINVAL": "invalid", "EBUSY": "busy", "E2BIG": "big"}[w[0]]
    return f"(answer.Tap (tap.{w[0]} {sub}.{w[1]}))"


def derr(w):
    return f"(answer.Drive drive.{w[0]})" if len(w) == 1 else f"(answer.Drive (drive.{w[0]} {' '.join(w[1:])}))"


def turn_end(w):
    return f"(turn.{w[0].capitalize()} {' '.join(w[1:])})" if len(w) > 1 else f"turn.{w[0].capitalize()}"


def chain(w):
    if w[0] == "got":
        return f"(chain.Got {name(w[1])} {w[2]} {int(w[3], 16)})"
    return f"(chain.Refused {w[1]} bad.{BAD[int(w[2])]})"


def answer(w, more):
    """The term of an answer whose further lines are `more`."""
    k = w[0]
    if k == "ok" and len(w) == 1:
        return "answer.Done"
    if k == "ok" and more:
        return f"(answer.Resized {w[1]} {' '.join(more[0][1:])})"
    if k == "turn":
        return f"(answer.Turn {w[1]} {w[2]} {turn_end(w[3:])} {listed(chain(m) for m in more)})"
    table = {"ok": lambda: f"(answer.Version {w[1]})", "host": lambda: f"(answer.Host {w[1]} {int(w[2], 16)})",
             "base": lambda: f"(answer.Base {w[1]})", "bytes": lambda: f"(answer.Peeked {bytes_of(w[1])})",
             "posted": lambda: f"(answer.Posted {w[1]})", "nodriver": lambda: "answer.NoDriver",
             "harvest": lambda: f"(answer.Harvested {listed('(' + x.replace(':', ', ') + ')' for x in w[1:])})",
             "fault": lambda: f"(answer.Fault {w[1]})", "bad": lambda: f"(answer.Bad bad.{BAD[int(w[1])]})",
             "placed": lambda: f"(answer.Placed {' '.join(w[1:])})", "drop": lambda: drop(w[1:]),
             "read": lambda: f"(answer.Read {name(w[1])} {w[2]} {bytes_of(w[3])})", "err": lambda: err(w[1:]),
             "derr": lambda: derr(w[1:]),
             "verr": lambda: f"(answer.Vhost (vhost.{' '.join(w[1:])}))"}
    return table[k]()


def fate(w):
    if w[0] in ("waiting", "read", "guest"):
        return f"fate.{w[0].capitalize()}"
    return f"(fate.Discarded (cause.{w[0].capitalize()} {' '.join(w[1:])}))" if len(w) > 1 else f"(fate.Discarded cause.{w[0].capitalize()})"


def step(w):
    k, r = w[0], w[1:]
    if k == "copy":
        return f"(kind.Copy {r[0]} {r[1]} {r[2]} {'None' if r[3] == '-' else '(Some ' + name(r[3]) + ')'})"
    if k in ("publish", "notices", "backend"):
        return f"(kind.{k.capitalize()} {' '.join(r[:-1])} {flag(r[-1])})"
    word = {"getbase": "GetBase"}.get(k, k.capitalize())
    return f"(kind.{word} {' '.join(r)})" if r else f"kind.{word}"


def record(**fields):
    return "(record { " + "; ".join(f"{k} = {v}" for k, v in fields.items()) + " })"


def term(trace):
    """The term of a trace's text."""
    lines = [x.split(" ") for x in trace.rstrip("\n").split("\n")]
    assert lines[0] == ["taptrace", "1"] and lines[-1] == ["end"]
    phases, files, guests, rings = [], [], [], []
    i = 1
    while lines[i] != ["end"]:
        w = lines[i]
        i += 1
        if w[0] == "phase":
            phases.append((w[2], [], []))
        elif w[0] == "op":
            phases[-1][1].append(record(version=w[1], command=w[2], text=op_text(w[3:])))
        elif w[0] == "ans":
            more = []
            while lines[i][0] in ("resize", "got", "refused"):
                more.append(lines[i])
                i += 1
            phases[-1][2].append(record(actor=w[1], command=w[2], seen=w[3], answer=answer(w[4:], more)))
        elif w[0] == "file":
            files.append((w, []))
        elif w[0] == "line":
            files[-1][1].append(record(place=w[1], epoch=w[2], name=name(w[3]), len=w[4], fate=fate(w[5:])))
        elif w[0] == "guest":
            guests.append((w[1], []))
        elif w[0] == "step":
            guests[-1][1].append(record(actor=w[1], command=w[2], kind=step(w[3:])))
        elif w[0] == "ring":
            rings.append((w, []))
        elif w[0] == "base":
            rings[-1][1].append((w[1], []))
        elif w[0] == "used":
            rings[-1][1][-1][1].append(f"({w[1]}, {w[2]}, {w[3]})")
        else:
            raise ValueError(w)
    return record(
        phases=listed(record(actors=p[0], ops=listed(p[1]), answers=listed(p[2])) for p in phases),
        files=listed(record(file=f[0][1], claimed=f[0][2], freed=f[0][3], lines=listed(f[1])) for f in files),
        guests=listed(record(guest=g[0], steps=listed(g[1])) for g in guests),
        rings=listed(record(vhost=r[0][1], ring=r[0][2], lists=listed(record(base=b, used=listed(u)) for b, u in r[1]))
                     for r in rings))
