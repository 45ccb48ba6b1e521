"""The looks of a picture: dark on light, with a colour for each object; it needs no script."""

STYLE = '''
:root { color-scheme: light; }
* { box-sizing: border-box; }
body { margin: 0; background: #fff; color: #1a1a1a; font: 15px/1.45 system-ui, "DejaVu Sans", sans-serif; }
.text { position: sticky; left: 0; width: 100vw; max-width: 960px; padding: 12px 16px; }
h1 { font-size: 22px; line-height: 1.2; margin: 4px 0 8px; }
p, ul { margin: 6px 0; } ul { padding-left: 22px; }
code, pre, .item, .call, .state, .mark, legend b, label b { font-family: "DejaVu Sans Mono", Menlo, Consolas, monospace; }
code, pre { font-size: 13px; }
a { color: #0b4fa0; }
a:focus-visible, input:focus-visible, summary:focus-visible { outline: 3px solid #0b4fa0; outline-offset: 2px; }
.verdict { border-left: 6px solid #1b6e35; background: #eef7f0; padding: 8px 12px; margin: 10px 0; }
.verdict.bad { border-color: #b00020; background: #fdf0f1; }
.verdict strong { font-size: 16px; }
fieldset { border: 1px solid #767676; border-radius: 4px; margin: 10px 0; padding: 6px 10px 8px; }
fieldset ul { list-style: none; padding: 0; margin: 0; display: grid; gap: 2px 18px;
  grid-template-columns: repeat(auto-fill, minmax(270px, 1fr)); }
label { display: inline-block; padding: 2px 0; }
fieldset small { display: block; margin-left: 42px; font-size: 13px; color: #3d3d3d; }
.sw { display: inline-block; width: 12px; height: 12px; border-radius: 6px; background: var(--c); margin: 0 4px; }
.part { position: relative; width: var(--w); margin: 0 0 14px; }
.part svg { position: absolute; left: 0; top: 30px; pointer-events: none; }
.part path { fill: none; stroke: var(--c); stroke-width: 2.5; }
.part .life { stroke: #b9b9b9; stroke-width: 2; }
.part .ctl { stroke: #6b6b6b; stroke-width: 1.5; stroke-dasharray: 4 4; }
.part .back { stroke: #b00020; stroke-width: 3; stroke-dasharray: 9 4; }
table { border-collapse: collapse; table-layout: fixed; width: var(--w); position: relative; }
thead th { height: 30px; padding: 0 6px; background: #ececec; font-size: 14px; text-align: left; position: sticky; top: 0;
  z-index: 2; border-left: 1px solid #c4c4c4; }
thead small { font-weight: normal; }
tbody th { font: 12px/20px system-ui, "DejaVu Sans", sans-serif; color: #4a4a4a; text-align: right;
  padding: 6px 8px 0 0; vertical-align: top; }
td { padding: 0; vertical-align: top; border-left: 1px solid #e2e2e2; overflow: hidden; white-space: nowrap; }
tbody tr { border-top: 1px solid #ececec; }
.c { padding: 6px 4px 6px var(--g); position: relative; }
.call, .state, .mark { font-size: 12px; line-height: 16px; height: 16px; overflow: hidden; text-overflow: ellipsis; }
.call { color: #3d3d3d; font-style: italic; } .state { color: #3d3d3d; }
.it { height: 20px; line-height: 20px; font-size: 13px; overflow: hidden; text-overflow: ellipsis; }
.item { scroll-margin-top: 70px; } .item b { color: var(--c); }
.item.rep { color: #3d3d3d; margin-left: 8px; } .item.rep:first-child { margin-left: 0; }
.dot { position: absolute; width: 13px; height: 13px; margin: 4px 0 0 -7px; border-radius: 50%; background: var(--c);
  border: 2px solid #fff; box-shadow: 0 0 0 1px var(--c); }
.dot.look { background: #fff; border-color: var(--c); } .dot.ctl { --c: #4a4a4a; border-radius: 2px; }
a.dot::after { content: ""; position: absolute; inset: -7px; }
.mark { color: #b00020; font-weight: bold; }
.flaw { box-shadow: inset 0 0 0 3px #b00020; background: #fdf0f1; }
.oncycle { box-shadow: inset 0 0 0 2px #b00020; }
.stuck { background: #fff4df; box-shadow: inset 0 0 0 2px #8a5a00; } .stuck .mark { color: #6e4700; }
.c:focus-within, .c:has(:target) { box-shadow: inset 0 0 0 3px #0b4fa0; background: #eaf2fc; }
details { margin: 10px 0 30px; } details pre { columns: 260px; }
@media print {
  .text { position: static; width: auto; max-width: none; padding: 0 1px 8px 0; } body { font-size: 12px; }
  .part { zoom: var(--z); break-inside: avoid; } thead th { position: static; }
  input, .jump, fieldset li:first-child { display: none; } fieldset { break-inside: avoid; } details { display: none; }
  fieldset small { font-size: 11px; margin-left: 22px; }
  * { -webkit-print-color-adjust: exact; print-color-adjust: exact; }
}
'''


def colour(number):
    """A dark colour for each number, far from those of the numbers beside it and from the red of what is wrong."""
    return 'hsl(%d 80%% 26%%)' % (20 + (0.62 + number * 0.618034) % 1 * 310)


def object_style(numbers):
    """The colours of objects, and what is dimmed where one of them is chosen."""
    rules = []
    for number in numbers:
        chosen = '.page:has(#pick-%d:checked)' % number
        rules.append('.k%d { --c: %s; }' % (number, colour(number)))
        rules.append('%s .c:not(.k%d) { opacity: .3; } %s .ln:not(.k%d) { opacity: .07; }'
                     % (chosen, number, chosen, number))
    return '\n'.join(rules)
