// Looks answers up: all of them were worked out by the proved library when the page was made.
"use strict";
(function () {
  const data = JSON.parse(document.getElementById("data").textContent);
  const byId = (id) => document.getElementById(id);
  const state = { entry: 0, segment: data.segments.length ? 0 : -1 };
  document.body.classList.remove("no-script");

  function setText(id, text) {
    const element = byId(id);
    if (element) element.textContent = text;
  }

  // Steps.

  function showRegisters(entry, before) {
    data.registers.forEach((name, k) => {
      const text = entry.registers[k];
      setText("register-" + name, text);
      byId("register-" + name).parentNode.classList.toggle("changed", before !== null && before.registers[k] !== text);
    });
    const isNext = before !== null && before.step + 1 >= entry.step;
    setText("changes", before === null || isNext ? "" : "“New” is against step " + before.step + ", the one kept before it.");
  }

  function showStep() {
    const entry = data.entries[state.entry];
    const before = state.entry > 0 ? data.entries[state.entry - 1] : null;
    setText("step-title", entry.title);
    setText("step-did", entry.did);
    setText("step-said", entry.said);
    showRegisters(entry, before);
    setText("stepper-text", entry.summary);
    byId("step-back").disabled = state.entry === 0;
    byId("step-on").disabled = state.entry === data.entries.length - 1;
    byId("cursor").style.left = entry.percent + "%";
    const chart = byId("chart");
    chart.setAttribute("aria-valuenow", String(entry.step));
    chart.setAttribute("aria-valuetext", entry.summary);
    const listing = byId("listing");
    const old = listing.querySelector("tr.chosen");
    if (old) {
      old.classList.remove("chosen");
      old.setAttribute("aria-selected", "false");
    }
    const row = byId("e" + state.entry);
    row.classList.add("chosen");
    row.setAttribute("aria-selected", "true");
    listing.setAttribute("aria-activedescendant", row.id);
  }

  // Scrolls a box alone, not the page, so that the row is in it below the head.
  function showRow(box, row) {
    const head = row.closest("table").querySelector("thead").offsetHeight;
    const place = row.getBoundingClientRect();
    const frame = box.getBoundingClientRect();
    if (place.top < frame.top + head) box.scrollTop -= frame.top + head - place.top;
    else if (place.bottom > frame.bottom) box.scrollTop += place.bottom - frame.bottom;
  }

  function choose(entry) {
    state.entry = Math.max(0, Math.min(data.entries.length - 1, entry));
    showStep();
    showSegment();
    showRow(byId("listing-box"), byId("e" + state.entry));
  }

  // The entry whose place in the chart is nearest.
  function nearest(percent) {
    let low = 0;
    let high = data.entries.length - 1;
    while (low < high) {
      const middle = (low + high) >> 1;
      if (data.entries[middle].percent < percent) low = middle + 1;
      else high = middle;
    }
    const isBelow = low > 0 && percent - data.entries[low - 1].percent <= data.entries[low].percent - percent;
    return isBelow ? low - 1 : low;
  }

  // Segments.

  function answerRow(range) {
    const answer = data.answers[range[3]];
    const row = document.createElement("tr");
    const words = document.createElement("th");
    words.scope = "row";
    words.textContent = range[0] === range[1] ? "word " + range[0] : "words " + range[0] + " to " + range[1];
    const what = document.createElement("div");
    what.className = "note";
    what.textContent = range[2];
    words.append(what);
    const cell = document.createElement("td");
    const said = document.createElement("div");
    said.className = answer.passes ? "answer yes" : "answer no";
    said.textContent = answer.text;
    said.title = answer.short;
    const asks = document.createElement("div");
    asks.className = "note";
    asks.textContent = answer.asks;
    cell.append(said, asks);
    row.append(words, cell);
    return row;
  }

  function showSegment() {
    document.querySelectorAll(".chosen[data-segment]").forEach((element) => mark(element, false));
    if (state.segment < 0) return;
    const number = data.segments[state.segment];
    document.querySelectorAll("[data-segment='" + number + "']").forEach((element) => mark(element, true));
    if (!data.entries.length) return;
    const entry = data.entries[state.entry];
    const row = data.rows[data.tables[entry.table][state.segment]];
    const start = data.rows[data.tables[data.entries[0].table][state.segment]];
    setText("call-title", "CALL to s" + number);
    setText("call-from", entry.from);
    setText("call-descriptor", row.descriptor + (row.descriptor === start.descriptor ? "" : " (changed since the start)"));
    byId("call-answers").replaceChildren(...row.ranges.map(answerRow));
  }

  function mark(element, isChosen) {
    element.classList.toggle("chosen", isChosen);
    if (element.tagName === "BUTTON") element.setAttribute("aria-pressed", String(isChosen));
    const button = element.querySelector("button");
    if (button) button.setAttribute("aria-pressed", String(isChosen));
  }

  function chooseSegment(element) {
    const found = element.closest("[data-segment]");
    if (!found) return;
    state.segment = data.segments.indexOf(Number(found.dataset.segment));
    showSegment();
    const row = document.querySelector("tr.chosen[data-segment]");
    if (row) showRow(row.closest(".segments"), row);
  }

  // What the user does.

  const KEYS = {
    ArrowLeft: () => state.entry - 1,
    ArrowRight: () => state.entry + 1,
    ArrowUp: () => state.entry - 1,
    ArrowDown: () => state.entry + 1,
    PageUp: () => state.entry - 10,
    PageDown: () => state.entry + 10,
    Home: () => 0,
    End: () => data.entries.length - 1,
  };

  // Left and right everywhere; the other keys where steps have the focus, since elsewhere they move the page.
  function onKey(event) {
    const go = KEYS[event.key];
    if (!go || event.altKey || event.ctrlKey || event.metaKey || event.shiftKey) return;
    const isSteps = event.target.closest("#chart, #listing") !== null;
    if (!isSteps && event.key !== "ArrowLeft" && event.key !== "ArrowRight") return;
    event.preventDefault();
    choose(go());
  }

  document.querySelectorAll(".pick").forEach((place) => place.addEventListener("click", (event) => chooseSegment(event.target)));
  if (data.entries.length) {
    document.addEventListener("keydown", onKey);
    byId("step-back").addEventListener("click", () => choose(state.entry - 1));
    byId("step-on").addEventListener("click", () => choose(state.entry + 1));
    byId("listing").addEventListener("click", (event) => {
      const row = event.target.closest("tr[id^=e]");
      if (row) choose(Number(row.id.slice(1)));
    });
    byId("chart").addEventListener("click", (event) => {
      const box = byId("chart").getBoundingClientRect();
      choose(nearest(((event.clientX - box.left) * 100) / box.width));
    });
  }
  if (data.entries.length) showStep();
  showSegment();
})();
