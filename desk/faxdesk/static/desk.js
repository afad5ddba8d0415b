// Shows what is new without loading the page again. Without it the pages work, and are loaded by hand.
"use strict";
const PAUSE = 5000; // milliseconds

async function refresh() {
  if (document.hidden || document.activeElement?.closest("#shown")) return;
  try {
    const reply = await fetch(location.href, { cache: "no-store", headers: { Accept: "text/html" } });
    if (!reply.ok) return;
    const found = new DOMParser().parseFromString(await reply.text(), "text/html").getElementById("shown");
    const shown = document.getElementById("shown");
    if (found && shown && found.innerHTML !== shown.innerHTML) shown.replaceWith(found);
  } catch (fault) {
    // the next try follows
  }
}

if (document.getElementById("shown")) setInterval(refresh, PAUSE);

// A form that was sent isn't sent twice by a second press. The desk accepts it once all the same.
document.addEventListener("submit", event => {
  for (const button of event.target.querySelectorAll("button")) setTimeout(() => { button.disabled = true; });
});

// A page that the browser kept has the token of a fax that was sent.
window.addEventListener("pageshow", event => {
  if (event.persisted) location.reload();
});
