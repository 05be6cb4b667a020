//! How a report looks, on a screen and on paper.

/// Fonts are those of the machine. Colours have a contrast of at least 4.5 to 1 to the page, and kinds of blocks
/// differ in their pattern as well.
pub const SHEET: &str = r#"
:root { color-scheme: light; }
* { box-sizing: border-box; }
body { margin: 0; background: #fff; color: #1a1a1a;
  font: 16px/1.5 Georgia, "Times New Roman", "DejaVu Serif", serif; }
main { max-width: 47rem; margin: 0 auto; padding: 2rem 1.5rem 4rem; }
h1 { font-size: 1.7rem; line-height: 1.25; margin: 0 0 .25rem; overflow-wrap: anywhere; }
h2 { font-size: 1.25rem; margin: 2.25rem 0 .6rem; padding-bottom: .2rem; border-bottom: 1px solid #999; }
h2.part { font-size: 1.5rem; margin-top: 3rem; border-bottom: 3px double #555; }
h3 { font-size: 1.05rem; margin: 1.5rem 0 .4rem; }
p { margin: .5rem 0; }
.made, .note { color: #444; font-size: .9rem; }
code { font: .87em/1.4 ui-monospace, "DejaVu Sans Mono", Menlo, Consolas, monospace; overflow-wrap: anywhere; }
code.bits b { background: #ffe08a; text-decoration: underline; }
table { border-collapse: collapse; width: 100%; font-size: .92rem; font-variant-numeric: tabular-nums lining-nums; }
th, td { text-align: left; vertical-align: top; padding: .25rem .6rem .25rem 0; border-bottom: 1px solid #ddd; font-weight: normal; }
thead th { border-bottom: 1px solid #555; font-weight: bold; }
.facts th { width: 9.5rem; color: #444; }
.number { text-align: right; }
td.number:last-child, th.number:last-child { padding-right: 0; }
.good { color: #0b6b3a; }
.open { color: #8a3b00; }
figure { margin: .75rem 0; }
figcaption { color: #444; font-size: .9rem; margin-top: .4rem; }
td svg { margin-top: .4rem; }
svg { display: block; width: 100%; height: auto; overflow: visible; }
svg text { font: 11px "DejaVu Sans", Arial, Helvetica, sans-serif; fill: #333; }
@media print {
  body { font-size: 10.5pt; }
  main { max-width: none; padding: 0; }
  h1, h2, h3 { break-after: avoid; }
  tr, figure, section.id { break-inside: avoid; }
  thead { display: table-header-group; }
  code.bits b { background: none; border-bottom: 1.5pt solid #000; }
  svg, svg * { print-color-adjust: exact; -webkit-print-color-adjust: exact; }
}
@page { margin: 18mm 16mm; }
"#;
