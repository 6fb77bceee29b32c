"""The style of the pages, and the script with which the live page refreshes itself."""

from ...explain._html import STYLE as STORY_STYLE

EVERY = 2  # seconds between two refreshes with scripting
EVERY_WITHOUT = 10  # and without
NOW = "/now"  # the path of the changing part

LIVE_STYLE = """
:root { color-scheme: light dark; --blue: #2f5f9e; --track: #e3e8ef; --soft-red: #fbeceb; }
body { padding-top: 1.4rem; overflow-wrap: anywhere; }
a { color: var(--blue); } a:focus-visible { outline: 2px solid var(--blue); outline-offset: 2px; }
header.top { display: flex; flex-wrap: wrap; gap: .2rem 1rem; align-items: baseline;
  justify-content: space-between; font-size: .9rem; color: var(--soft); margin-bottom: 1.2rem; }
header.top strong { color: var(--ink); }
.state { margin: 0 0 1.2rem; padding: 1rem 1.2rem; border-radius: 10px; border: 1px solid
  var(--line); border-left: 6px solid var(--soft); background: var(--box); }
.state h1 { margin: 0 0 .25rem; font-size: 1.55rem; } .state p { margin: .15rem 0; }
.state.serial { border-left-color: var(--green); }
.state.violated { border-left-color: var(--red); background: var(--soft-red); }
.state.pending, .state.spent, .state.incomplete { border-left-color: var(--amber); }
dl.figures { display: grid; grid-template-columns: repeat(auto-fit, minmax(9.5rem, 1fr));
  gap: .8rem; margin: 0 0 .5rem; }
dl.figures div { border: 1px solid var(--line); border-radius: 10px; padding: .6rem .8rem; }
dl.figures dt { color: var(--soft); font-size: .82rem; }
dl.figures dd { margin: 0; font-size: 1.35rem; font-weight: 600;
  font-variant-numeric: tabular-nums; }
dl.figures dd small { display: block; font-size: .82rem; font-weight: 400; color: var(--soft); }
ol.violations { list-style: none; padding: 0; max-width: none; }
ol.violations li { border: 1px solid var(--red); border-radius: 10px; padding: .7rem 1rem;
  margin: .6rem 0; overflow-wrap: anywhere; }
ol.violations a { font-weight: 700; font-size: 1.05rem; }
.share { display: grid; grid-template-columns: 8rem minmax(6rem, 1fr) minmax(12rem, 20rem);
  gap: .3rem 1rem; align-items: center; margin: .5rem 0; }
.share svg { width: 100%; height: .8rem; } .share .track { fill: var(--track); }
.share .part { fill: var(--green); }
td.count, th.count { text-align: right; white-space: nowrap; padding-right: 1.2rem;
  font-variant-numeric: tabular-nums; width: 7rem; }
td.time { white-space: nowrap; } td.shape code { color: var(--ink); }
.wide { -webkit-overflow-scrolling: touch; }
th:first-child { width: auto; }
details { margin: .6rem 0; } summary { cursor: pointer; font-weight: 600; }
details.transaction { border: 1px solid var(--line); border-radius: 10px; padding: .5rem .9rem; }
details.transaction pre { margin: .2rem 0; padding: .4rem .6rem; }
.ran { display: grid; grid-template-columns: 7rem minmax(0, 1fr); gap: .1rem .8rem;
  margin: .5rem 0; } .ran .at { color: var(--soft); font-variant-numeric: tabular-nums;
  font-size: .88rem; padding-top: .45rem; }
.ran .read { display: block; margin: .1rem 0 .5rem; padding-left: .6rem;
  border-left: 3px solid var(--blue); }
.origin { font-weight: 600; overflow-wrap: anywhere; }
#lost { display: none; color: var(--amber); } #lost.on { display: inline; }
@media (max-width: 40rem) {
  body { padding: 1rem .9rem 2rem; } .state h1 { font-size: 1.3rem; }
  .share { grid-template-columns: 1fr; gap: .1rem; margin: .9rem 0; }
  .ran { grid-template-columns: 1fr; } .ran .at { padding-top: .3rem; }
  dl.figures { grid-template-columns: 1fr 1fr; }
  table.stack thead { display: none; } table.stack tr { display: block; padding: .5rem 0;
    border-bottom: 1px solid var(--line); }
  table.stack td { display: block; border: 0; padding: .1rem 0; text-align: left; width: auto; }
  table.stack td[data-of]::before { content: attr(data-of) ": "; color: var(--soft); }
}
@media (prefers-color-scheme: dark) {
  :root { --ink: #e3e8ef; --soft: #9aa6b5; --line: #333d4a; --paper: #14181e; --box: #1c222b;
    --red: #f2726a; --green: #5cc489; --amber: #e0ae52; --blue: #86b4f0; --track: #2a323d;
    --soft-red: #2b1a1c; }
  .verdict, ol.reasons .mark, svg .number { color: #14181e; fill: #14181e; }
  ol.reasons .mark { background: #8491a1; } ol.reasons .circle .mark { background: var(--red); }
  svg .mark circle { stroke: var(--paper); } svg .mark.other circle { fill: #8491a1; }
  svg polyline { stroke: #86b4f0; }
}
"""
STYLE = STORY_STYLE + LIVE_STYLE

# Open details stay open. While the page is hidden, nothing is requested.
SCRIPT = """
(function () {
  var place = document.getElementById("now"), lost = document.getElementById("lost");
  function look() {
    if (document.hidden) { return; }
    fetch("%s", {cache: "no-store"}).then(function (answer) {
      if (!answer.ok) { throw new Error(answer.status); }
      return answer.text();
    }).then(function (text) {
      lost.className = "";
      if (place.dataset.text === text) { return; }
      var open = {}, all = place.querySelectorAll("details[id]"), at;
      for (at = 0; at < all.length; at++) { open[all[at].id] = all[at].open; }
      place.innerHTML = text;
      place.dataset.text = text;
      all = place.querySelectorAll("details[id]");
      for (at = 0; at < all.length; at++) {
        if (all[at].id in open) { all[at].open = open[all[at].id]; }
      }
    }).catch(function () { lost.className = "on"; });
  }
  setInterval(look, %d);
  document.addEventListener("visibilitychange", look);
})();
""" % (NOW, EVERY * 1000)
