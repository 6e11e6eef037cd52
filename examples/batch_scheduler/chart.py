"""A Gantt chart by node, as SVG: each job is a bar on each of its nodes."""

LEFT, RIGHT, TOP, LANE, WIDTH, BOTTOM = 64, 20, 12, 20, 900, 36
COLOURS = ("#4878a8", "#d07838", "#58944c", "#b04850", "#7c68a4", "#8a6a50", "#bc6ca0", "#6c7480")
STYLE = "text{font:12px sans-serif;fill:#333}.lane{stroke:#ddd}.bar text{fill:#fff;font-size:11px;text-anchor:middle}.tick{text-anchor:middle}"


def steps(end):
    """Round dates, some five to ten of them, up to the end."""
    step = 1
    while end / step > 10:
        step *= 5 if str(step)[0] == "1" else 2
    return range(0, int(end) + 1, step)


def chart(jobs, nodes):
    end = max(job.ended for job in jobs)
    scale, height = (WIDTH - LEFT - RIGHT) / end, TOP + LANE * len(nodes)
    lines = [f'<svg xmlns="http://www.w3.org/2000/svg" width="{WIDTH}" height="{height + BOTTOM}" viewBox="0 0 {WIDTH} {height + BOTTOM}">',
             f'<style>{STYLE}</style><rect width="100%" height="100%" fill="#fff"/>']
    for row, node in enumerate(nodes):
        y = TOP + row * LANE
        lines.append(f'<text x="8" y="{y + 14}">{node}</text><line class="lane" x1="{LEFT}" x2="{WIDTH - RIGHT}" y1="{y}" y2="{y}"/>')
    for date in steps(end):
        x = LEFT + date * scale
        lines.append(f'<line class="lane" x1="{x:.1f}" x2="{x:.1f}" y1="{TOP}" y2="{height}"/>'
                     f'<text class="tick" x="{x:.1f}" y="{height + 18}">{date} s</text>')
    for job in jobs:
        x, width = LEFT + job.started * scale, (job.ended - job.started) * scale
        told = f"job {job.number}: {job.nodes} nodes, from {job.started:.3f} to {job.ended:.3f} s, waited {job.started - job.submitted:.3f} s"
        lines.append(f'<g class="bar"><title>{told}</title>')
        for host in job.hosts:
            y = TOP + nodes.index(host.name) * LANE
            lines.append(f'<rect x="{x:.1f}" y="{y + 1}" width="{width:.1f}" height="{LANE - 2}" fill="{COLOURS[job.number % 8]}"/>')
            if width > 20:
                lines.append(f'<text x="{x + width / 2:.1f}" y="{y + 14}">{job.number}</text>')
        lines.append("</g>")
    return "\n".join(lines) + "\n</svg>\n"
