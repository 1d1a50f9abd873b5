"""How the page looks: at any width, light and dark, and printed. The colours are those of Okabe and Ito, which the colour-blind tell apart."""

STYLE = """
:root { color-scheme: light dark; --ink: #1a1a1a; --soft: #595959; --paper: #fff; --panel: #f5f5f3; --line: #d4d4d0; --ground: #e4e4df;
  --data: #0072b2; --unread: #d55e00; --tied: #009e73; --untied: #d55e00; --sound: #009e73; --unsound: #d55e00;
  --gpt: #1a1a1a; --ntfs: #0072b2; --xfs: #009e73; --btrfs: #b3568a; --lvm: #e69f00; --ext: #7a4a1e; }
@media (prefers-color-scheme: dark) { :root { --ink: #ececec; --soft: #a8a8a8; --paper: #16181a; --panel: #202326; --line: #3a3f44;
  --ground: #34393e; --data: #56b4e9; --unread: #ff8c3b; --tied: #2bc79b; --untied: #ff8c3b; --sound: #2bc79b; --unsound: #ff8c3b;
  --gpt: #ececec; --ntfs: #56b4e9; --xfs: #2bc79b; --btrfs: #e29cc4; --lvm: #f0c419; --ext: #c9a27e; } }
* { box-sizing: border-box; }
body { margin: 0 auto; padding: 1.5rem clamp(.75rem, 3vw, 2.5rem) 3rem; max-width: 1200px; background: var(--paper); color: var(--ink);
  font: 15px/1.5 system-ui, "Segoe UI", Roboto, "DejaVu Sans", sans-serif; }
h1 { font-size: 1.6rem; line-height: 1.25; margin: 0 0 .25rem; }
h2 { font-size: 1.15rem; margin: 2.2rem 0 .6rem; padding-bottom: .25rem; border-bottom: 1px solid var(--line); }
h3 { font-size: 1rem; margin: 1.2rem 0 .3rem; overflow-wrap: anywhere; }
p { margin: .4rem 0; max-width: 75ch; }
.soft, .disk > p { color: var(--soft); font-size: .87rem; max-width: none; overflow-wrap: anywhere; }
code, pre, .mono { font-family: ui-monospace, "DejaVu Sans Mono", Menlo, Consolas, monospace; font-size: .85em; overflow-wrap: anywhere; }
pre { background: var(--panel); border: 1px solid var(--line); border-radius: 4px; padding: .6rem .75rem; margin: .4rem 0; white-space: pre-wrap; }
.verdict { background: var(--panel); border-left: 4px solid var(--tied); padding: .6rem .9rem; border-radius: 0 4px 4px 0; margin: .8rem 0; }
.verdict p { max-width: none; overflow-wrap: anywhere; }
.verdict.none { border-color: var(--unread); }
.disk { margin: .9rem 0; break-inside: avoid; }
.disk h3 { margin-bottom: 0; }
.lane { display: grid; grid-template-columns: 7.5em 1fr; gap: .6em; align-items: center; margin: 3px 0; }
.lane > span { font-size: .78rem; color: var(--soft); text-align: right; line-height: 1.15; overflow-wrap: anywhere; }
.lane svg { display: block; width: 100%; height: 16px; }
.axis div { display: flex; justify-content: space-between; border-top: 1px solid var(--line); font-size: .72rem; color: var(--soft); }
.axis i { font-style: normal; white-space: nowrap; }
.ground { fill: var(--ground); } .data { fill: var(--data); } .unread { fill: var(--unread); } .tied { fill: var(--tied); }
.untied { fill: var(--untied); } .sound { fill: var(--sound); } .unsound { fill: var(--unsound); }
.tick { fill: none; stroke-width: 2px; vector-effect: non-scaling-stroke; }
.gpt { stroke: var(--gpt); } .ntfs { stroke: var(--ntfs); } .xfs { stroke: var(--xfs); } .btrfs { stroke: var(--btrfs); } .lvm { stroke: var(--lvm); }
.ext { stroke: var(--ext); }
.legend { display: flex; flex-wrap: wrap; gap: .3rem 1.3rem; font-size: .82rem; list-style: none; padding: 0; margin: .5rem 0 1rem; }
.legend li { display: flex; align-items: center; gap: .45em; }
.legend svg { width: 22px; height: 14px; flex: none; }
table { border-collapse: collapse; width: 100%; font-size: .87rem; margin: .5rem 0; }
th { text-align: left; font-weight: 600; color: var(--soft); white-space: nowrap; }
th, td { padding: .3rem .7rem .3rem 0; vertical-align: top; border-bottom: 1px solid var(--line); }
td { overflow-wrap: anywhere; min-width: 5em; }
td[data-name="what"] { min-width: 11em; } td[data-name="set"] { min-width: 18em; } td[data-name="why"] { min-width: 15em; }
td[data-name="loosened"] { min-width: 8em; } td[data-name="outcome"] { min-width: 7em; }
td.n { min-width: 0; }
td.n, th.n { text-align: right; white-space: nowrap; }
tr { break-inside: avoid; }
.rating { font-weight: 700; white-space: nowrap; }
dl { display: grid; grid-template-columns: max-content 1fr; gap: .2rem 1rem; margin: .5rem 0; font-size: .9rem; }
dt { color: var(--soft); } dd { margin: 0; overflow-wrap: anywhere; min-width: 0; }
ul.plain { padding-left: 1.2em; margin: .4rem 0; } ul.plain li { margin: .15rem 0; overflow-wrap: anywhere; }
@media (max-width: 640px) {
  body { font-size: 14px; }
  .lane { grid-template-columns: 4.6em 1fr; gap: .45em; }
  .lane > span { font-size: .7rem; }
  .axis i:nth-child(even) { display: none; }
  table, tbody, tr, td { display: block; width: 100%; }
  thead { position: absolute; left: -9999px; }
  tr { border-bottom: 1px solid var(--line); padding: .4rem 0; }
  tr td, tr td.n { min-width: 0; }
  td, td.n { border: 0; padding: .08rem 0; text-align: left; white-space: normal; display: grid; grid-template-columns: 6.8em 1fr; gap: .5em; }
  td > div { min-width: 0; overflow-wrap: anywhere; } td.empty { display: none; }
  td::before { content: attr(data-name); color: var(--soft); }
  dl { grid-template-columns: 1fr; gap: 0; } dt { margin-top: .4rem; }
}
@media print {
  :root { color-scheme: light; --ink: #000; --soft: #444; --paper: #fff; --panel: #f5f5f3; --line: #bbb; --ground: #e4e4df; --data: #0072b2;
    --unread: #d55e00; --tied: #009e73; --untied: #d55e00; --sound: #009e73; --unsound: #d55e00; --gpt: #000; --ntfs: #0072b2; --xfs: #009e73;
    --btrfs: #b3568a; --lvm: #e69f00; --ext: #7a4a1e; }
  * { print-color-adjust: exact; -webkit-print-color-adjust: exact; }
  body { max-width: none; padding: 0; font-size: 10.5pt; }
  h2, h3 { break-after: avoid; }
  table { font-size: 9pt; }
  @page { margin: 16mm 14mm; }
}
"""
