"""How the page looks, and what moves on it."""

STYLE = """
:root{color-scheme:light dark;--ink:#1c2126;--soft:#5c6670;--line:#d8dde2;--back:#fff;--raised:#f5f7f9;
--value:#1a6b3c;--fault:#a8232a;--budget:#8a5a00;--mark:#e6eef8}
@media(prefers-color-scheme:dark){:root{--ink:#e4e8ec;--soft:#98a3ae;--line:#343b43;--back:#14181c;--raised:#1c2227;
--value:#7fd1a0;--fault:#f2878c;--budget:#e5b567;--mark:#1f2d3d}}
*{box-sizing:border-box}
body{margin:0;background:var(--back);color:var(--ink);font:15px/1.45 system-ui,sans-serif}
header{padding:.8rem 1.2rem;border-bottom:1px solid var(--line)}
h1{font-size:1.05rem;margin:0}
main{display:grid;grid-template-columns:minmax(0,3fr) minmax(0,2fr);align-items:start}
article{display:grid;grid-template-columns:3.2rem minmax(0,3fr) minmax(0,2fr);gap:.6rem;padding:.25rem .6rem;
border-bottom:1px solid var(--line);cursor:pointer}
article.here{background:var(--mark)}
.number{color:var(--soft);text-align:right;font-variant-numeric:tabular-nums}
pre,code,ol{font-family:ui-monospace,monospace;font-size:13px;margin:0}
pre{white-space:pre-wrap;overflow-wrap:anywhere}
code{overflow-wrap:anywhere}
.value{color:var(--value)}.fault{color:var(--fault)}.budget{color:var(--budget)}
summary{color:var(--soft);font-size:13px}
ol{padding-left:2.2rem;color:var(--soft);overflow-wrap:anywhere}
.printed::before{content:"| "}
.count{color:var(--ink)}
.classes{position:sticky;top:0;max-height:100vh;overflow:auto;padding:.8rem 1.2rem;border-left:1px solid var(--line)}
.classes input{width:100%}
.classes li{margin:.15rem 0}
small,.classes sub{color:var(--soft)}
.graph{overflow:auto}
.graph svg{max-width:100%;height:auto}
.graph svg text{fill:currentColor}
.graph svg polygon{fill:none;stroke:currentColor}
.graph svg g.graph>polygon{stroke:none}
.graph svg path{stroke:currentColor;fill:none}
.graph svg g.edge polygon{fill:currentColor}
@media(max-width:900px){main{display:block}.classes{position:static;border-left:0}
article{grid-template-columns:3.2rem minmax(0,1fr)}.answer{grid-column:2}}
"""

SCRIPT = """
const at=document.getElementById("at"),rows=[...document.querySelectorAll("article")];
function show(){const n=+at.value;
document.querySelectorAll(".state").forEach((it,i)=>it.hidden=i!==shown[n]);
rows.forEach((it,i)=>it.classList.toggle("here",i===n));
document.getElementById("line").value=rows[n].dataset.line;}
at.addEventListener("input",show);
rows.forEach((it,i)=>it.addEventListener("click",()=>{at.value=i;show();}));
const asked=parseInt(location.hash.slice(1));
if(asked>=0&&asked<rows.length)at.value=asked;
show();
"""
