"use strict";
// Has the page show what changed, without its reader losing their place: once changes come, the table is fetched again.
{
  const PAUSE = 1000;
  const live = document.getElementById("live");
  const main = document.getElementById("main");
  let waiting = 0;
  let count = 0;

  const isReading = () => {
    const active = document.activeElement;
    return active && main.contains(active) && ["INPUT", "SELECT"].includes(active.tagName);
  };

  const say = (text) => { live.textContent = text; };

  const refresh = async () => {
    waiting = 0;
    if (isReading()) {
      say(`${count} verdicts changed; the page shows them when it is loaded again.`);
      return;
    }
    const answer = await fetch(location.href, { headers: { Accept: "text/html" } });
    if (!answer.ok) return;
    const fresh = new DOMParser().parseFromString(await answer.text(), "text/html").getElementById("main");
    if (!fresh) return;
    const open = Array.from(main.querySelectorAll("details"), (one) => one.open);
    main.replaceChildren(...fresh.childNodes);
    main.querySelectorAll("details").forEach((one, place) => { one.open = open[place] || false; });
    say(`${count} verdicts changed since the page was opened.`);
  };

  const path = location.pathname;
  if (["/machines", "/advisories", "/changes"].some((one) => path === one || path.startsWith(`${one}/`))) {
    const events = new EventSource("/events");
    events.addEventListener("change", () => {
      count += 1;
      if (!waiting) waiting = setTimeout(refresh, PAUSE);
    });
    events.addEventListener("open", () => { document.documentElement.dataset.live = "yes"; });
  }
}
