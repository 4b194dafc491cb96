"""How the page of a study looks: on a screen, on a narrow one, and in print."""

STYLE = """
:root { --ink: #1c2430; --faint: #5b6675; --rule: #d4d9e0; --ground: #f5f7f9; --red: #b3261e; --amber: #b26a00;
  --blue: #1f5f99; --green: #2e6b3f; }
* { box-sizing: border-box; }
html { -webkit-text-size-adjust: 100%; }
body { margin: 0 auto; padding: 1.2rem 1.4rem 3rem; max-width: 84rem; color: var(--ink); background: #fff;
  font: 15px/1.5 system-ui, "Segoe UI", Roboto, "Helvetica Neue", Arial, "DejaVu Sans", sans-serif; }
h1 { font-size: 1.7rem; line-height: 1.2; margin: 0 0 .2rem; overflow-wrap: anywhere; }
h2 { font-size: 1.25rem; margin: 2.2rem 0 .5rem; padding-top: .6rem; border-top: 2px solid var(--ink); }
h3 { font-size: 1.02rem; margin: 1.3rem 0 .4rem; }
p { margin: .4rem 0 .7rem; max-width: 62rem; }
ul, ol { margin: .3rem 0 .8rem; padding-left: 1.4rem; max-width: 60rem; }
ol { padding-left: 2.9rem; }
li { margin: .2rem 0; overflow-wrap: anywhere; }
a { color: var(--blue); }
code { font: .88em/1.4 ui-monospace, "DejaVu Sans Mono", Menlo, Consolas, monospace; overflow-wrap: anywhere; }
nav { display: flex; flex-wrap: wrap; gap: .1rem .9rem; margin: .7rem 0 0; font-size: .92rem; }
.faint, .made { color: var(--faint); }
.made { font-size: .86rem; }
.scroll { overflow-x: auto; margin: .5rem 0 .9rem; }
table { border-collapse: collapse; font-size: .86rem; }
th, td { padding: .22rem .55rem; text-align: left; vertical-align: top; border-bottom: 1px solid var(--rule); }
th { vertical-align: bottom; font-weight: 600; border-bottom: 1.5px solid var(--ink); background: #fff; }
tbody tr:nth-child(even) td { background: var(--ground); }
.n { text-align: right; font-variant-numeric: tabular-nums; white-space: nowrap; }
.name { font-weight: 600; white-space: nowrap; }
th.n { white-space: normal; }
th.sum { font: inherit; font-weight: 600; }
td.sum { font: .8em/1.35 ui-monospace, "DejaVu Sans Mono", Menlo, Consolas, monospace; overflow-wrap: anywhere;
  min-width: 17em; }
.w { display: inline-block; max-width: 100%; overflow-wrap: anywhere; }
.wrap { overflow-wrap: anywhere; min-width: 11em; }
table.units { font-size: .8rem; }
.units th, .units td { padding: .2rem .32rem; }
.keeps .e { min-width: 6.5em; }
.keeps td:first-child, .keeps th:first-child { position: sticky; left: 0; z-index: 1; }
.keeps tbody tr:nth-child(odd) td:first-child { background: #fff; }
.keeps td:first-child { box-shadow: inset 0 -1px 0 var(--rule); }
.one { white-space: nowrap; }
.v { white-space: nowrap; }
.reaches { color: var(--red); font-weight: 600; }
.undecided, .varies { color: var(--amber); font-weight: 600; }
.signed { margin: .6rem 0 .4rem; }
.signed th { white-space: nowrap; border-bottom: 0; vertical-align: bottom; padding-left: 0; }
.signed td { min-width: 18rem; border-bottom: 1px solid var(--faint); }
.signed tr:nth-child(even) td { background: none; }
.signed .blank { height: 1.9rem; border-bottom: 1px dotted var(--faint); }
.below { color: var(--green); }
.outside, .none { color: var(--faint); }
.answer { border: 2px solid var(--ink); border-radius: 4px; padding: .2rem 1rem .4rem; background: var(--ground);
  break-inside: avoid; }
.answer p { max-width: none; }
.list { display: flex; flex-wrap: wrap; gap: .15rem .9rem; margin: .2rem 0 .7rem; padding: 0; list-style: none;
  max-width: none; }
.list li { margin: 0; white-space: nowrap; }
.list b { font-weight: 600; }
.write { display: block; height: 1.5rem; border-bottom: 1px dotted var(--faint); max-width: 44rem; }
svg { display: block; font-family: inherit; fill: var(--ink); }
svg text { font-size: 12px; }
.map svg text { font-size: 13px; }
.map svg .mid { font-size: 12px; }
svg .mid { text-anchor: middle; font-size: 10px; fill: var(--faint); }
svg .grid { fill: none; stroke: #c3cad3; stroke-width: 1; }
svg .threshold { fill: none; stroke: var(--red); stroke-width: 1.2; stroke-dasharray: 4 3; }
svg .lobe { fill-opacity: .17; stroke-width: 1.3; }
svg .lobe.reaches { fill: #b3261e; stroke: #b3261e; } svg .axis.reaches { stroke: #b3261e; }
svg .lobe.undecided { fill: #b26a00; stroke: #b26a00; } svg .axis.undecided { stroke: #b26a00; }
svg .lobe.below { fill: #2e6b3f; stroke: #2e6b3f; } svg .axis.below { stroke: #2e6b3f; }
svg .lobe.outside { fill: #5b6675; stroke: #5b6675; } svg .axis.outside { stroke: #5b6675; }
svg .axis { fill: none; stroke-width: 1.3; }
svg .sector { fill: #1f5f99; fill-opacity: .55; stroke: #fff; stroke-width: .6; }
svg .ring { font-size: 11px; paint-order: stroke; stroke: #fff; stroke-width: 3px; }
.roses { display: grid; grid-template-columns: repeat(auto-fill, minmax(8.2rem, 1fr)); gap: .5rem .7rem;
  margin: .6rem 0; }
figure { margin: 0; break-inside: avoid; }
.roses figure { text-align: center; }
.roses svg { width: 100%; max-width: 9rem; margin: 0 auto; }
figcaption { font-size: .82rem; line-height: 1.3; }
.many { display: flex; flex-wrap: wrap; gap: .5rem 2rem; align-items: center; }
.many p { flex: 1 1 20rem; }
.many svg { width: 17rem; max-width: 100%; }
.map svg { width: 100%; min-width: 40rem; border: 1px solid var(--rule); }
svg .link { fill: none; stroke: #8b96a5; }
svg .arrow { fill: #4a5665; }
svg .blocked { stroke-dasharray: 2 4; }
svg .bar { fill: none; stroke: var(--ink); stroke-width: 1.3; }
svg .station { stroke: #fff; stroke-width: .8; fill: #aab3be; }
svg .station.reaches { fill: #b3261e; } svg .station.undecided { fill: #e08a00; }
svg .station.outage { fill: #fff; stroke: #b3261e; stroke-width: 2.2; }
svg .station.below { fill: #2e6b3f; }
.map text { paint-order: stroke; stroke: #fff; stroke-width: 3px; }
.map .bar { paint-order: normal; }
.key { display: flex; flex-wrap: wrap; gap: .1rem 1.1rem; font-size: .85rem; margin: .4rem 0; padding: 0;
  list-style: none; max-width: none; }
.key i { display: inline-block; width: .75em; height: .75em; border-radius: 50%; margin-right: .35em; }
.strips figure { margin: 0 0 .35rem; }
.strips figcaption { display: flex; flex-wrap: wrap; gap: 0 1rem; }
.strip { width: 100%; height: 3.6rem; background: var(--ground); }
svg .curve { fill: none; stroke: var(--blue); stroke-width: 1.2; vector-effect: non-scaling-stroke; }
svg .zero { fill: none; stroke: #aab3be; stroke-width: 1; vector-effect: non-scaling-stroke; }
svg .mark { fill: none; stroke: var(--amber); stroke-width: 1; stroke-dasharray: 2 3;
  vector-effect: non-scaling-stroke; }
.strip .threshold { vector-effect: non-scaling-stroke; }
.charts figure { margin: 0 0 .8rem; }
.charts figcaption { display: flex; flex-wrap: wrap; gap: 0 1rem; }
.charts svg { width: 100%; min-width: 40rem; }
svg .tick { fill: none; stroke: var(--rule); stroke-width: 1; }
svg .beside { stroke: #e08a00; stroke-width: 1; }
.chart .end { text-anchor: end; }
.chart .mid { font-size: 12px; fill: var(--ink); }
.times { display: flex; justify-content: space-between; font-size: .8rem; color: var(--faint); }
@media (max-width: 40rem) {
  body { padding: .8rem .8rem 2rem; font-size: 14px; }
  h1 { font-size: 1.35rem; }
  .roses { grid-template-columns: repeat(auto-fill, minmax(6.6rem, 1fr)); }
  .answer { padding: .1rem .7rem .3rem; }
  .keeps .e { min-width: 9em; }
  .wrap { min-width: 17em; }
  .signed { width: 100%; }
  .signed td { min-width: 0; width: 60%; }
}
@page { size: A4; margin: 14mm 12mm; }
@page wide { size: A4 landscape; margin: 11mm; }
@media print {
  html { font-size: 9.5pt; }
  body { max-width: none; padding: 0; font-size: 1rem; }
  nav { display: none; }
  h2, h3, .key, h2 + p { break-after: avoid; }
  #map { break-inside: avoid; }
  .scroll { overflow: visible; }
  .wide { page: wide; }
  .wide table.units { font-size: 6.4pt; width: 100%; }
  .wide th, .wide td { padding: .12rem .25rem; }
  table { font-size: 8pt; }
  tr { break-inside: avoid; }
  thead { display: table-header-group; }
  .keeps td:first-child, .keeps th:first-child { position: static; }
  .map svg, .charts svg { min-width: 0; }
  .roses { grid-template-columns: repeat(6, 1fr); }
  .sum, .wrap { min-width: 0; }
  .keeps .e { min-width: 8em; }
  * { -webkit-print-color-adjust: exact; print-color-adjust: exact; }
}
"""
