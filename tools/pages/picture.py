#!/usr/bin/env python3
"""Makes one picture of a day of a plan from the page that shift_plan wrote: its styles, its drawings and its texts, one below the other.
    tools/pages/picture.py FOLDER/plan.html DAY PICTURE.svg"""
import html
import re
import sys

WIDTH, LABELS, CHART, BAR, TOP = 960, 280, 150, 14, 26


def placed(drawing, x, y, width, height):
    """A drawing of the page at a place of the picture."""
    return re.sub(r"<svg ", '<svg x="%d" y="%d" width="%d" height="%d" ' % (x, y, width, height), drawing, count=1)


def text(words, x, y, kind="label"):
    return '<text class="%s" x="%d" y="%d">%s</text>' % (kind, x, y, html.escape(html.unescape(words), quote=False))


def picture(page, day):
    style = re.search(r"<style>(.*?)</style>", page, re.S).group(1)
    shapes = " ".join(re.findall(r"^(?:\.covered|\.need|\.grid|\.work)\{.*$", style, re.M))
    patterns = re.search(r"<defs>.*?</defs>", page, re.S).group(0)
    section = re.search(r"<h2>Day %d</h2>(.*?)</section>" % day, page, re.S).group(1)
    chart = re.search(r'<svg class="chart".*?</svg>', section, re.S).group(0)
    axis = re.findall(r"<span[^>]*>([^<]+)</span>", section.partition('<span class="axis">')[2].partition("<svg")[0])
    # of a bar's two lines the second tells the breaks, which the bar shows
    bars = re.findall(r'<div class="row"><span>([^<]*)(?:<br>[^<]*)?</span>(<svg class="bar".*?</svg>)</div>', section, re.S)
    hours = re.findall(r"<span>(\d\d:\d\d)</span>", section)
    width, lines = WIDTH - LABELS - 10, [text("Day %d" % day, 10, 18, "head")]
    lines += [placed(chart, LABELS, TOP, width, CHART), text("up to " + axis[0], 10, TOP + CHART // 2)]
    lines += [text(hour, LABELS + width * at // len(hours), TOP + CHART + 14, "hour") for at, hour in enumerate(hours)]
    below = TOP + CHART + 22
    for at, (label, bar) in enumerate(bars):
        lines += [placed(bar, LABELS, below + at * (BAR + 4), width, BAR), text(label, 10, below + at * (BAR + 4) + BAR - 3)]
    height = below + len(bars) * (BAR + 4) + 8
    fonts = ".label{font:12px sans-serif}.hour{font:10px sans-serif;fill:#333}.head{font:bold 15px sans-serif}"
    head = '<svg xmlns="http://www.w3.org/2000/svg" viewBox="0 0 %d %d" width="%d" height="%d">' % (WIDTH, height, WIDTH, height)
    ground = '<rect width="%d" height="%d" fill="#fff"/>' % (WIDTH, height)
    return "\n".join([head, "<style>%s %s</style>" % (shapes, fonts), patterns, ground, *lines, "</svg>", ""])


def main(page, day, out):
    with open(page) as source, open(out, "w") as picture_file:
        picture_file.write(picture(source.read(), int(day)))


main(*sys.argv[1:])
