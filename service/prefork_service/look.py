"""How both pages look: the one of a service (view.py), and the one that rehearses (page/build writes this to look.css). The
workers of a generation have a colour, g0 to g3; a cell is half full while its worker starts, and full once it is ready."""

LOOK = """:root {
  color-scheme: light dark;
  --ink: #1c2430; --soft: #4c5766; --line: #d5dbe3; --edge: #7f8a99; --paper: #fff; --ground: #f4f6f9;
  --good: #146c43; --warn: #8a5300; --bad: #b02a37; --accent: #2f6fb5;
  --g0: #2f6fb5; --g1: #1e8a5a; --g2: #a05aa8; --g3: #b5702f;
}
@media (prefers-color-scheme: dark) {
  :root {
    --ink: #e4e9f0; --soft: #a3afbe; --line: #36404d; --edge: #76828f; --paper: #1a212b; --ground: #12171e;
    --good: #5fc990; --warn: #e0a85a; --bad: #f08a94; --accent: #6aa8ea;
    --g0: #6aa8ea; --g1: #55c791; --g2: #cf93d6; --g3: #e0a168;
  }
}
* { box-sizing: border-box; }
body { color: var(--ink); background: var(--ground); }
section, details:not(section details) { background: var(--paper); border: 1px solid var(--line); border-radius: 8px; }
:focus-visible { outline: 2px solid var(--accent); outline-offset: 1px; }
.soft { color: var(--soft); }
.g0 { --mine: var(--g0); }
.g1 { --mine: var(--g1); }
.g2 { --mine: var(--g2); }
.g3 { --mine: var(--g3); }
i { display: inline-block; border: 2px solid var(--mine, var(--soft)); border-radius: 2px; }
i.ready { background: var(--mine, var(--soft)); }
i.starting { background: linear-gradient(to top, var(--mine, var(--soft)) 45%, transparent 45%); }
"""
