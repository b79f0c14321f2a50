"use strict";
// The filter of the page. All that it looks at stands in the page already; it is read when it is first asked for.
{
  const form = document.getElementById("filter");
  const MOST_OPEN = 300;
  let index = null;
  let waiting = 0;

  const lower = (element) => element.textContent.trim().toLowerCase();

  const rowsOf = (list) => Array.from(list.children, (element) => {
    const text = lower(element);
    return { element, text, machine: element.firstChild.textContent.trim().toLowerCase() };
  });

  const groupsOf = (advisory) => Array.from(advisory.querySelectorAll("ul"), (list) => (
    { element: list.parentNode, truth: list.dataset.truth, count: list.parentNode.querySelector("small"), rows: rowsOf(list) }
  ));

  const told = (advisory) => Array.from(advisory.querySelectorAll(".id, .title, .about"), lower).join(" ");

  const read = () => {
    const advisories = Array.from(document.querySelectorAll(".advisory"), (element) => (
      { element, text: told(element), isOpen: element.open, groups: groupsOf(element) }
    ));
    const machines = Array.from(document.querySelectorAll("#machines li"), (element) => (
      { element, name: lower(element.querySelector("a")) }
    ));
    return { advisories, machines, names: new Set(machines.map((machine) => machine.name)) };
  };

  const wanted = () => {
    const [q, machine, truth] = ["q", "machine", "truth"].map((name) => form.elements[name].value.trim());
    return { q, machine, truth, words: q.toLowerCase().split(/\s+/).filter(Boolean), name: machine.toLowerCase() };
  };

  // A whole name means that machine alone, and anything else each machine that has it in its name.
  const machineTest = (name) => (index.names.has(name) ? (other) => other === name : (other) => other.includes(name));

  const show = (element, isShown) => {
    if (element.hidden === isShown) element.hidden = !isShown;
    return isShown;
  };

  const filterGroup = (group, words, isMachine, truth, left) => {
    let count = 0;
    for (const row of group.rows) {
      const isShown = (!truth || truth === group.truth) && isMachine(row.machine) && words.every((word) => row.text.includes(word));
      if (show(row.element, isShown)) {
        count += 1;
        left.add(row.machine);
      }
    }
    const machines = group.rows.length === 1 ? "machine" : "machines";
    group.count.textContent = count === group.rows.length ? `${count} ${machines}` : `${count} of ${group.rows.length} ${machines}`;
    show(group.element, count > 0);
    return count;
  };

  const filterAdvisories = (asked, isMachine, left) => index.advisories.map((advisory) => {
    const words = asked.words.filter((word) => !advisory.text.includes(word));
    let count = 0;
    for (const group of advisory.groups) count += filterGroup(group, words, isMachine, asked.truth, left);
    show(advisory.element, count > 0);
    return count;
  });

  const apply = () => {
    const asked = wanted();
    const isAsked = Boolean(asked.q || asked.machine || asked.truth);
    if (index === null && !isAsked) return;
    index = index || read();
    const isMachine = machineTest(asked.name);
    const left = new Set();
    const counts = filterAdvisories(asked, isMachine, left);
    const rows = counts.reduce((sum, count) => sum + count, 0);
    index.advisories.forEach(({ element, isOpen }) => { element.open = isAsked ? rows <= MOST_OPEN : isOpen; });
    const isNarrow = Boolean(asked.q || asked.truth);
    for (const { element, name } of index.machines) show(element, isNarrow ? left.has(name) : isMachine(name));
    document.getElementById("nothing").hidden = rows > 0;
    const advisories = counts.filter((count) => count > 0).length;
    form.querySelector("output").textContent = isAsked ? `Shown: ${rows} rows of ${advisories} advisories` : "";
  };

  const fromAddress = () => {
    const given = new URLSearchParams(location.hash.slice(1));
    for (const name of ["q", "machine", "truth"]) form.elements[name].value = given.get(name) || "";
    apply();
  };

  const toAddress = () => {
    const { q, machine, truth } = wanted();
    const given = new URLSearchParams(Object.entries({ q, machine, truth }).filter(([, value]) => value));
    history.replaceState(null, "", given.size ? `#${given}` : location.pathname + location.search);
  };

  const later = () => {
    clearTimeout(waiting);
    waiting = setTimeout(() => { apply(); toAddress(); }, 150);
  };

  if (form) {
    form.hidden = false;
    for (const link of document.querySelectorAll("#machines a")) {
      link.href = `#${new URLSearchParams({ machine: link.textContent.trim() })}`;
    }
    form.addEventListener("input", later);
    form.addEventListener("reset", () => setTimeout(later));
    form.addEventListener("submit", (event) => event.preventDefault());
    addEventListener("hashchange", fromAddress);
    fromAddress();
  }
}
