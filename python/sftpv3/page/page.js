"use strict";
// Everything can be read without this: it marks what belongs together, opens many fields at once, and filters rows.
(function () {
  var FIELDS = ["kind", "path", "id", "code", "session"], HINT = "Words that a row has to have, such as READ, " +
    "or kind:READ path:/a/b id:7 code:EOF,2";
  function both(picture, exchange, on) {
    picture.querySelectorAll('[data-x="' + exchange + '"]').forEach(function (one) {
      one.classList.toggle("on", on);
    });
  }
  function made(kind, parent, text) {
    var one = document.createElement(kind);
    if (text) { one.textContent = text; }
    parent.appendChild(one);
    return one;
  }
  function tools(picture) {
    var line = document.createElement("div");
    line.className = "tools";
    [["Open all fields", true], ["Close all", false]].forEach(function (pair) {
      var button = made("button", line, pair[0]);
      button.type = "button";
      button.addEventListener("click", function () {
        picture.querySelectorAll(".row:not([hidden]) > details").forEach(function (one) { one.open = pair[1]; });
      });
    });
    picture.parentNode.insertBefore(line, picture);
  }
  // The terms of a filter: each has the fields that it looks at, and texts of which one has to be there.
  function terms(text) {
    return text.trim().split(/\s+/).filter(Boolean).map(function (word) {
      var colon = word.indexOf(":"), name = word.slice(0, Math.max(0, colon)).toLowerCase();
      if (!/^[a-z]+$/.test(name)) { return { fields: FIELDS, texts: [word.toLowerCase()], whole: false }; }
      if (FIELDS.indexOf(name) < 0) { return { unknown: name }; }
      var given = word.slice(colon + 1).toLowerCase(), whole = name !== "path" && name !== "session";
      return { fields: [name], texts: whole ? given.split(",") : [given], whole: whole };
    });
  }
  function holds(row, term) {
    return term.fields.some(function (name) {
      var value = (row.dataset[name] || "").toLowerCase(), words = value.split(" ");
      return term.texts.some(function (text) { return term.whole ? words.indexOf(text) >= 0 : value.includes(text); });
    });
  }
  function counted(number, noun) { return number.toLocaleString("en") + " " + noun + (number === 1 ? "" : "s"); }
  function said(picture, matched, all, unknown) {
    var noun = picture.dataset.noun, left = Number(picture.dataset.left);
    if (unknown.length) { return "There is no field " + unknown[0] + ": there are " + FIELDS.join(", ") + "."; }
    var rest = "; " + counted(left, noun) + " that this page does not show " + (left === 1 ? "was" : "were");
    return matched.toLocaleString("en") + " of " + counted(all, noun) + " match" +
      (left ? rest + " not searched." : ".");
  }
  function apply(picture, input, output) {
    var wanted = terms(input.value), rows = picture.querySelectorAll(".row"), matched = 0, kept = {};
    var unknown = wanted.map(function (term) { return term.unknown; }).filter(Boolean);
    rows.forEach(function (row) {
      var on = unknown.length > 0 || wanted.every(function (term) { return holds(row, term); });
      row.hidden = !on;
      matched += on;
      if (on && row.dataset.x) { kept[row.dataset.x] = true; }
    });
    picture.querySelectorAll(".bar, .tick").forEach(function (one) {
      one.hidden = wanted.length > 0 && !unknown.length && !kept[one.dataset.x];
    });
    input.setAttribute("aria-invalid", String(unknown.length > 0));
    output.textContent = wanted.length ? said(picture, matched, rows.length, unknown) : "";
  }
  function filter(picture, number) {
    var line = document.createElement("div"), label = made("label", line, "Filter"), input = made("input", line);
    var output = made("output", line), hint = made("p", line, HINT), name = "filter-" + number;
    line.className = "filter";
    line.setAttribute("role", "search");
    label.htmlFor = input.id = name;
    hint.id = name + "-hint";
    input.type = "search";
    input.autocomplete = "off";
    input.spellcheck = false;
    input.setAttribute("aria-describedby", hint.id);
    output.setAttribute("role", "status");
    output.htmlFor = name;
    input.addEventListener("input", function () { apply(picture, input, output); });
    picture.parentNode.insertBefore(line, picture);
    // a link to a row that the filter hides shows all rows
    document.addEventListener("click", function (event) {
      var link = event.target.closest('a[href^="#"]'), row = link && document.getElementById(link.hash.slice(1));
      if (row && row.hidden && picture.contains(row)) {
        input.value = "";
        apply(picture, input, output);
      }
    });
  }
  document.querySelectorAll(".picture").forEach(function (picture, number) {
    tools(picture);
    filter(picture, number + 1);
    ["mouseover", "mouseout", "focusin", "focusout"].forEach(function (kind) {
      picture.addEventListener(kind, function (event) {
        var row = event.target.closest("[data-x]");
        if (row) { both(picture, row.dataset.x, kind === "mouseover" || kind === "focusin"); }
      });
    });
    picture.addEventListener("click", function (event) {
      var bar = event.target.closest(".bar");
      if (!bar) { return; }
      var rows = picture.querySelectorAll('.row[data-x="' + bar.dataset.x + '"] > details');
      var open = Array.prototype.every.call(rows, function (one) { return one.open; });
      rows.forEach(function (one) { one.open = !open; });
    });
    picture.addEventListener("keydown", function (event) {
      var step = { ArrowDown: 1, ArrowUp: -1 }[event.key];
      if (!step || event.target.tagName !== "SUMMARY") { return; }
      var all = Array.prototype.slice.call(picture.querySelectorAll(".row:not([hidden]) > details > summary"));
      var next = all[all.indexOf(event.target) + step];
      if (next) { next.focus(); event.preventDefault(); }
    });
  });
}());
