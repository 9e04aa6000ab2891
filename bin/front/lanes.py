"""Draws a run in rounds: a lane for each processor, where it works, and where it waits for whom."""

from html import escape

import turns

INK, SOFT, WAIT, STEP = "#222", "#667", "#b3412e", "#1f6fb2"
COLOURS = ("#cfe3f5", "#f6e3b4", "#d5ecd0", "#e7d7f0", "#f8d6cf", "#d3eceb", "#ece6c8", "#dfe0ea")
LANE, LEFT, TOP = 30, 92, 74


def picture(program, plan, told):
    """The picture as SVG; `told` is what stands below its heading."""
    model = turns.Model(program, plan)
    lanes, rounds = turns.run(model)
    scale = max(0.18, min(16.0, 1080 / max(rounds, 1)))
    bottom = TOP + LANE * plan.workers
    parts = [text(12, 22, f"{plan.workers} processors, {model.executed} executions of {len(plan.phases)} phases: {rounds} rounds of one step of each", 13)]
    parts += [text(12, 40, told, 11, SOFT)] if told else []
    work = [sum(it.end - it.begin + 1 for it in lane if it.kind == "work") for lane in lanes]
    for processor, lane in enumerate(lanes):
        y = TOP + LANE * processor
        parts.append(text(12, y + 14, f"processor {processor}", 11))
        parts.append(text(12, y + 25, f"{100 * work[processor] // max(rounds, 1)}% at work", 9, SOFT))
        for it in lane:
            parts.append(span(it, LEFT + (it.begin - 1) * scale, y, (it.end - it.begin + 1) * scale))
    step = next(it for it in (1, 2, 5, 10, 20, 50, 100, 200, 500, 1000, 2000, 5000) if it * scale >= 44)
    for it in range(0, rounds + 1, step):
        x = LEFT + it * scale
        parts.append(f'<line x1="{x:g}" y1="{TOP - 4}" x2="{x:g}" y2="{bottom}" stroke="#ddd" stroke-width="0.7"/>')
        parts.append(text(x, TOP - 8, str(it), 9, SOFT, "middle"))
    y = bottom + 24
    for phase in plan.phases:
        parts.append(f'<rect x="12" y="{y - 10}" width="24" height="12" fill="{COLOURS[(phase.number - 1) % len(COLOURS)]}" stroke="{INK}" stroke-width="0.5"/>')
        shown = next((line.strip() for number, line in phase.lines if number == phase.line), "")
        many = f", {phase.times} times" if phase.times and phase.times > 1 else ""
        parts.append(text(44, y, f"phase {phase.number}, line {phase.line}{many}: {shown}", 11, SOFT))
        y += 16
    parts.append(f'<rect x="12" y="{y - 10}" width="24" height="12" fill="url(#waits)" stroke="{WAIT}" stroke-width="0.5"/>')
    parts.append(text(44, y, "waits for the processor whose number stands there", 11, SOFT))
    parts.append(f'<rect x="372" y="{y - 10}" width="12" height="12" fill="{STEP}"/>')
    parts.append(text(392, y, "posts how far it has come, or sees that another has come as far as it needs", 11, SOFT))
    width, height = max(LEFT + rounds * scale + 20, 840), y + 18
    return "\n".join([
        f'<svg xmlns="http://www.w3.org/2000/svg" width="{width:g}" height="{height:g}" viewBox="0 0 {width:g} {height:g}" font-family="sans-serif" role="img">',
        f"<title>A run on {plan.workers} processors in {rounds} rounds</title>",
        f'<defs><pattern id="waits" width="5" height="5" patternUnits="userSpaceOnUse" patternTransform="rotate(45)"><rect width="5" height="5" fill="white"/><rect width="1.6" height="5" fill="{WAIT}"/></pattern></defs>',
        f'<rect width="{width:g}" height="{height:g}" fill="white"/>', *parts, "</svg>", "",
    ])  # fmt: skip


def span(it, x, y, width):
    """What a processor does in some rounds."""
    if it.kind == "step":
        return f'<rect x="{x:g}" y="{y + 4}" width="{width:g}" height="{LANE - 8}" fill="{STEP}"/>'
    fill = "url(#waits)" if it.kind == "wait" else COLOURS[(it.phase - 1) % len(COLOURS)]
    edge = WAIT if it.kind == "wait" else INK
    box = f'<rect x="{x:g}" y="{y + 4}" width="{width:g}" height="{LANE - 8}" fill="{fill}" stroke="{edge}" stroke-width="0.4"/>'
    label = str(it.on if it.kind == "wait" else it.phase)
    if width < 7 * len(label) + 3:
        return box
    back = f'<rect x="{x + width / 2 - 6:g}" y="{y + 9}" width="12" height="12" fill="white"/>' if it.kind == "wait" else ""
    return box + back + text(x + width / 2, y + 19, label, 10, edge, "middle")


def text(x, y, words, size=12, fill=INK, anchor="start"):
    return f'<text x="{x:g}" y="{y:g}" xml:space="preserve" font-size="{size}" fill="{fill}" text-anchor="{anchor}">{escape(words)}</text>'
