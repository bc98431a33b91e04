"""The style of the page of `report`: on a screen in light and dark, and on A4. Its colours have the contrast of WCAG AA."""
from typing import Dict

from pictures import COLOURS, rules

LIGHT = {
    "paper": "#ffffff", "ink": "#1d2329", "soft": "#56616b", "line": "#d9dee3", "wash": "#f5f7f9", "link": "#0b5394", "word": "#7a2e8c",
    "comment": "#56616b", "digits": "#8a4500", "ok": "#1d6b2a", "ok-wash": "#e4f3e6", "warn": "#7a4d00", "warn-wash": "#fdf1d6",
    "bad": "#a3261a", "bad-wash": "#fce8e6", "none": "#4d5761", "none-wash": "#e9edf0",
}
DARK = {
    "paper": "#15191d", "ink": "#e3e8ec", "soft": "#a9b3bc", "line": "#343d46", "wash": "#1c2126", "link": "#8fc1f5", "word": "#d9a5e8",
    "comment": "#a3aeb8", "digits": "#f0b27a", "ok": "#8fdc98", "ok-wash": "#1d3a22", "warn": "#f3c56b", "warn-wash": "#43330f",
    "bad": "#ff9c91", "bad-wash": "#4a211d", "none": "#b6c0c9", "none-wash": "#2b333a",
}
# The classes of pictures in the dark; in the light they are as drawn.
DARK_PICTURES = {
    "paper": {"fill": "#15191d"}, "text": {"fill": "#dfe5ea"}, "title": {"fill": "#9cc7f2"}, "note": {"fill": "#a3adb7"},
    "broken-text": {"fill": "#ff9c91"}, "line": {"stroke": "#9cc7f2"}, "arrow": {"fill": "#9cc7f2"}, "grid": {"stroke": "#3a434c"},
    "high": {"fill": "#24435f"}, "high-folded": {"fill": "#20344a"}, "mark": {"fill": "#58302b"},
    "holds": {"fill": "#233d27", "stroke": "#7fd086"}, "open": {"fill": "#2a3138", "stroke": "#a3adb7"},
    "broken": {"fill": "#53302c", "stroke": "#ff8f82"},
}

SCREEN = """
*{box-sizing:border-box}
html{font-size:16px;-webkit-text-size-adjust:100%;scroll-padding-top:1rem}
body{margin:0;background:var(--paper);color:var(--ink);font:1rem/1.55 system-ui,-apple-system,"Segoe UI","DejaVu Sans",sans-serif}
main,body>header,body>footer{max-width:72rem;margin:0 auto;padding:0 1.5rem}
body>header{padding-top:2.2rem}
h1{font-size:1.9rem;line-height:1.2;margin:0 0 .4rem}
h2{font-size:1.3rem;line-height:1.3;margin:0}
h3{font-size:1rem;margin:1.8rem 0 .4rem;padding-bottom:.2rem;border-bottom:1px solid var(--line)}
h4{font-size:.92rem;font-weight:600;margin:1rem 0 .2rem}
h1,h2,h4,p,li,td,th,figcaption{overflow-wrap:anywhere}
th[scope=row]{min-width:11.5rem}
th code{white-space:nowrap}
p{margin:.4rem 0 .7rem;max-width:46rem}
a{color:var(--link)}
a:focus-visible,.scroll:focus-visible{outline:3px solid var(--link);outline-offset:2px}
.soft,.soft a{color:var(--soft)}
code,pre{font-family:"DejaVu Sans Mono",ui-monospace,Menlo,Consolas,monospace;font-size:.86em}
table{border-collapse:collapse;width:100%;font-size:.94rem}
th,td{text-align:left;vertical-align:top;padding:.4rem .7rem .4rem 0;border-bottom:1px solid var(--line)}
thead th{color:var(--soft);font-weight:600;font-size:.84rem;white-space:nowrap}
th[scope=row]{font-weight:400}
.scroll{overflow-x:auto;max-width:100%}
.badge{display:inline-block;white-space:nowrap;border-radius:1rem;padding:.06rem .65rem;font-size:.82rem;font-weight:600;border:1px solid currentColor}
.ok{color:var(--ok);background:var(--ok-wash)}
.warn{color:var(--warn);background:var(--warn-wash)}
.bad{color:var(--bad);background:var(--bad-wash)}
.none{color:var(--none);background:var(--none-wash)}
.counts{display:flex;flex-wrap:wrap;gap:.5rem;margin:1rem 0;padding:0;list-style:none}
main>section,main>nav{margin:2rem 0;padding:1.2rem 1.5rem 1.4rem;border:1px solid var(--line);border-radius:.7rem}
section>header{display:flex;flex-wrap:wrap;gap:.3rem .9rem;align-items:center}
.sentence{font-size:1.06rem;margin-top:.5rem}
pre{background:var(--wash);border:1px solid var(--line);border-radius:.5rem;padding:.7rem .9rem;margin:.5rem 0;line-height:1.5}
pre .word{color:var(--word);font-weight:600}
pre .comment{color:var(--comment);font-style:italic}
pre .digits{color:var(--digits)}
pre .name{color:var(--link)}
pre .number{color:var(--soft);user-select:none;display:inline-block;width:2.6em;text-align:right;margin-right:1em}
figure{margin:.5rem 0 .8rem;max-width:100%;min-width:0}
figcaption{font-size:.92rem}
svg{display:block;height:auto}
.figures{display:flex;flex-wrap:wrap;gap:.2rem 2.2rem;align-items:flex-start}
ul{margin:.3rem 0;padding-left:1.2rem}
nav h2{margin-bottom:.4rem}
.finding+.finding{margin-top:1.4rem;padding-top:.6rem;border-top:1px dotted var(--line)}
.tests{columns:17rem;padding:0;list-style:none}
.tests li{break-inside:avoid}
.tests .badge,figure .badge{border:0;padding:0;background:none;min-width:4em}
body>footer{color:var(--soft);font-size:.88rem;padding-bottom:3rem}
.unseen{position:absolute;left:-9999px}
.unseen:focus{left:1rem;top:1rem;background:var(--paper);padding:.5rem}
@media (max-width:40rem){
 main,body>header,body>footer{padding-left:1rem;padding-right:1rem}
 main>section,main>nav{padding:1rem;border-radius:.5rem}
 h1{font-size:1.5rem}
 thead{position:absolute;left:-9999px}
 tr{display:block;border-bottom:1px solid var(--line);padding:.4rem 0}
 td,th[scope=row]{display:block;border:0;padding:.1rem 0}
 td:empty{display:none}
 th[scope=row],td[data-head=status]{display:inline-block;min-width:0;margin-right:.6rem}
 td[data-head]:not([data-head=status]):not([data-head=sentence])::before{content:attr(data-head) ": ";color:var(--soft);font-size:.84rem}
}
"""
PRINT = """
@media print{
 @page{size:A4;margin:16mm 15mm}
 html{font-size:9.5pt}
 main,body>header,body>footer{max-width:none;padding:0}
 main>section,main>nav{border:0;border-top:1.5pt solid var(--ink);border-radius:0;padding:8pt 0;margin:12pt 0}
 h2,h3,h4,h3+p,figcaption,section>header,.sentence,.finding>p:first-child{break-after:avoid}
 pre{orphans:4;widows:4}
 svg,tr,table:not(.long),p,li,h4,.tests,figure:not(.long){break-inside:avoid}
 svg{max-width:100%;max-height:240mm}
 .scroll{overflow:visible}
 .figures{display:block}
 .figures figure:not(.long){display:inline-block;vertical-align:top;margin-right:2rem}
 pre{white-space:pre-wrap}
 .badge,pre,svg{-webkit-print-color-adjust:exact;print-color-adjust:exact}
 a{color:inherit;text-decoration:none}
}
"""


def variables(colours: Dict[str, str]) -> str:
    return ":root{" + ";".join(f"--{name}:{value}" for name, value in colours.items()) + "}"


def style() -> str:
    """The whole style sheet."""
    return (f"\n:root{{color-scheme:light dark}}\n{variables(LIGHT)}\n{rules(COLOURS, 'svg ')}"
            f"\n@media screen and (prefers-color-scheme:dark){{{variables(DARK)}{rules(DARK_PICTURES, 'svg ')}}}{SCREEN}{PRINT}")
