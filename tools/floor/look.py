"""How sheets look on paper, on a screen and on a phone, and the script that keeps ticks."""

STYLE = '''@page{size:A4;margin:12mm}
*{box-sizing:border-box}
body{font:11pt/1.3 Arial,Helvetica,sans-serif;color:#000;margin:1em auto;max-width:190mm;padding:0 2mm}
section{margin-bottom:3em}h1{font-size:16pt;line-height:1.2;margin:0}
h2{font-size:13pt;margin:1.1em 0 .3em;break-after:avoid}
table{border-collapse:collapse;width:100%}
th,td{text-align:left;padding:1mm 1.5mm;border-bottom:.2mm solid #888;vertical-align:top}
th{border-bottom:.5mm solid #000;vertical-align:bottom}thead{display:table-header-group}tr{break-inside:avoid}
.right{text-align:right;font-variant-numeric:tabular-nums;white-space:nowrap}.facts{margin:1mm 0}
.names td{overflow-wrap:anywhere}.name{min-width:27mm}
.head{display:grid;grid-template-columns:1fr auto;column-gap:5mm}.head p{margin:.5mm 0}
.head .of{font-weight:700;font-size:14pt;line-height:1.2}
.head .run{grid-column:1/3}.fields{grid-column:1/3;display:flex;gap:6mm;height:9mm;align-items:flex-end}
.fields span{flex:1;border-bottom:.3mm solid #000}
.picks{table-layout:fixed}.picks td{word-break:break-all;vertical-align:middle}
.picks tr>:nth-child(1){width:13mm}.picks tr>:nth-child(2){width:30mm}
.picks tr>:nth-child(4){width:24mm}.picks tr>:nth-child(5){width:48mm}.picks tr>:nth-child(6){width:14mm}
.picks :is(td,th):is(:nth-child(1),:nth-child(4)){text-align:right}
.picks td:nth-child(2),.picks td:nth-child(4),.big{font-size:14pt;font-weight:700;line-height:1.2}
.picks .note td{font-size:11pt;font-weight:700;border-bottom-style:dashed;text-align:left;word-break:normal}
.code path{stroke:#000;stroke-width:32;fill:none}.code{margin-right:4mm}
.picks .codes td{padding-left:8mm;text-align:left;line-height:0}
.has-note td{border-bottom:0}.place{white-space:nowrap}
input{appearance:none;-webkit-appearance:none;width:7mm;height:7mm;border:.5mm solid #000;border-radius:1mm}
input{margin:0;background:#fff;vertical-align:top}
input:checked::after{content:"\\2713";display:block;font:700 16pt/6mm sans-serif;text-align:center}
.picture svg{display:block;width:100%}.bar{border-bottom:4mm solid #444;height:0;margin-top:.5mm}
.loads td:last-child{width:50%}
.carts{columns:3;padding-left:3em;margin:.3em 0;font-size:11pt}
.totals{display:grid;grid-template-columns:repeat(auto-fit,minmax(42mm,1fr));gap:2mm;margin:3mm 0;padding-right:.3mm}
.totals div{border:.3mm solid #000;padding:1.5mm 2mm}.totals b{display:block;font-size:14pt}
.forgets::before{content:"Ticks are not kept by this browser.";font-weight:700}
@media screen{section{content-visibility:auto;contain-intrinsic-size:auto 60em}.page{display:contents}
.again .head,.again thead,.head .of{display:none}
.picture{position:sticky;top:0;background:#fff;z-index:1;border-bottom:1px solid #000}
.picture svg{max-height:45vh}}
@media screen and (max-width:640px){body{margin:0;padding:0 6px}.fields{display:none}
.picture{overflow:auto;max-height:45vh}.picture svg{max-height:none;width:640px}
table:not(.picks){display:block;overflow-x:auto}.carts{columns:1}.picks,.picks tbody{display:block}
.picks thead{display:none}
.picks tr{display:grid;grid-template-columns:2.1em 1fr auto 44px;border-bottom:1px solid #888;padding:4px 0}
.picks .has-note{border-bottom:0}.picks tr>td:nth-child(n){width:auto;border:0;padding:1px 4px}
.picks td:nth-child(3){grid-area:2/2/3/4}.picks td:nth-child(4){grid-area:1/3}
.picks td:nth-child(5){grid-area:3/2/4/4}.picks td:nth-child(6){grid-area:1/4/4/5;align-self:center}
.picks .note,.picks .codes{display:block}.picks .codes>td:first-child{padding-left:2.1em}
.code{max-width:100%;display:block;margin:10px 0}input{width:36px;height:36px}
input:checked::after{line-height:32px}}
@media print{body{margin:0;padding:0;max-width:none}section,.page{break-after:page}
section.cart{break-after:auto}section{margin:0}
section:last-of-type,section:last-of-type .page:last-child{break-after:auto}
a{color:inherit;text-decoration:none}.picks tr{height:9mm}.picks .note,.picks thead tr{height:6mm}}'''

# Ticks are kept by the browser, by day and cart, so that a page that is loaded again has them.
SCRIPT = '''(function(){var name="waveplan "
function boxes(cart){return Array.from(cart.querySelectorAll("input"))}
function ticks(cart){return boxes(cart).map(function(box){return box.checked?1:0}).join("")}
function keep(cart){localStorage.setItem(name+cart.dataset.key,ticks(cart))}
function show(cart){var kept=localStorage.getItem(name+cart.dataset.key)
if(kept)boxes(cart).forEach(function(box,place){box.checked=kept[place]==="1"})}
try{document.querySelectorAll("[data-key]").forEach(show)
document.addEventListener("change",function(event){var cart=event.target.closest("[data-key]");if(cart)keep(cart)})}
catch(why){document.body.className="forgets"}})()'''
