"use strict";
(function () {
  var box = document.getElementById("filter"), found = document.getElementById("found");
  var rows = Array.prototype.slice.call(document.querySelectorAll("[data-find]"));
  var groups = Array.prototype.slice.call(document.querySelectorAll("tbody, .lane"));
  box.parentNode.hidden = false;

  function shows(row, wanted) {
    return row.getAttribute("data-find").toLowerCase().split(" ").some(function (name) { return name.indexOf(wanted) >= 0; });
  }

  function filter() {
    var wanted = box.value.trim().toLowerCase(), count = 0;
    rows.forEach(function (row) {
      if (row.classList.contains("lane")) { return; }
      var lane = row.closest(".lane");
      var fits = !wanted || shows(row, wanted) || lane && shows(lane, wanted);
      row.hidden = !fits;
      if (fits && wanted && row.parentNode.nodeName === "TBODY" && row.closest(".places")) { count += 1; }
    });
    groups.forEach(function (group) {
      if (group.querySelector("[data-find]")) { group.hidden = !group.querySelector("[data-find]:not([hidden])"); }
    });
    found.textContent = wanted ? (count ? count + " in the table of placement" : "None in the table of placement") : "";
  }

  var pending;
  box.addEventListener("input", function () { clearTimeout(pending); pending = setTimeout(filter, 120); });

  function light(event) {
    var bar = event.target.closest && event.target.closest(".timeline li");
    document.querySelectorAll(".before, .pointed").forEach(function (one) { one.classList.remove("before", "pointed"); });
    document.documentElement.classList.toggle("pointing", Boolean(bar && bar.dataset.after));
    if (!bar) { return; }
    bar.classList.add("pointed");
    (bar.dataset.after || "").split(" ").forEach(function (number) {
      var one = number && document.getElementById("action-" + number);
      if (one) { one.classList.add("before"); }
    });
  }
  document.addEventListener("mouseover", light);
  document.addEventListener("focusin", light);

  // Arrow keys lead through the cells of the table of placement; the focused one shows its total.
  document.addEventListener("keydown", function (event) {
    var region = event.target.closest && event.target.closest(".wide");
    var step = { ArrowLeft: [0, -1], ArrowRight: [0, 1], ArrowUp: [-1, 0], ArrowDown: [1, 0] }[event.key];
    if (!region || !step || !region.querySelector(".places") || /INPUT|SUMMARY|A/.test(event.target.nodeName) && event.target !== region) { return; }
    var lines = Array.prototype.slice.call(region.querySelectorAll("tbody tr:not(.top):not([hidden])"));
    var cell = event.target.closest("td"), next;
    if (!cell) {
      next = lines[0] && lines[0].cells[2];
    } else {
      var line = lines[lines.indexOf(cell.parentNode) + step[0]];
      next = line && cell.cellIndex + step[1] > 1 && line.cells[cell.cellIndex + step[1]];
    }
    if (next) {
      if (cell) { cell.removeAttribute("tabindex"); }
      next.tabIndex = -1;
      next.setAttribute("aria-label", (next.textContent || "nothing") + ", total " + next.dataset.total);
      next.focus();
      event.preventDefault();
    }
  });

  var opened = [];
  window.addEventListener("beforeprint", function () {
    opened = Array.prototype.slice.call(document.querySelectorAll("#losses details:not([open]), #run details:not([open])"));
    opened.forEach(function (one) { one.open = true; });
  });
  window.addEventListener("afterprint", function () { opened.forEach(function (one) { one.open = false; }); });
})();
