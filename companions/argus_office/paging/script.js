(function () {
  "use strict";
  var data = JSON.parse(document.getElementById("data").textContent);
  var panel = document.querySelector(".panel"), notice = document.getElementById("world");
  var demand = document.getElementById("demand");
  var places = {}, world = null, chosen = null;
  document.documentElement.classList.add("js");
  function all(within, what) { return Array.prototype.slice.call(within.querySelectorAll(what)); }
  function made(name, text, kind) {
    var it = document.createElement(name);
    if (text !== undefined) it.textContent = text;
    if (kind) it.className = kind;
    return it;
  }
  function put(box) {
    for (var k = 1; k < arguments.length; k++) box.appendChild(typeof arguments[k] === "string" ? document.createTextNode(arguments[k]) : arguments[k]);
    return box;
  }

  // Where the cells stand: each gets its number by its place, and what keys and readers of screens need.
  function numbered(runs) {
    var found = [];
    for (var k = 0; k < runs.length; k += 3) for (var n = 0; n < runs[k + 2]; n++) found.push(runs[k] + n * runs[k + 1]);
    return found;
  }
  all(document, "section.table").forEach(function (section, at) {
    var table = data.places.tables[at], cells = numbered(table.cells), next = 0;
    all(section, "table.cells").forEach(function (sheet) {
      sheet.setAttribute("role", "grid");
      all(sheet, "tr").forEach(function (tr) {
        tr.setAttribute("role", "row");
        for (var k = 0; k < tr.cells.length; k++) {
          var td = tr.cells[k];
          if (td.nodeName === "TH") { td.setAttribute("role", td.scope === "col" ? "columnheader" : "rowheader"); continue; }
          var c = cells[next++];
          td.id = "t" + table.number + "c" + c;
          td.dataset.c = c;
          td.tabIndex = -1;
          td.setAttribute("role", "gridcell");
          (places[c] = places[c] || []).push(td);
        }
      });
      folds(sheet);
    });
  });
  // A head that others stand below can be folded, but for that of the total.
  function folds(sheet) {
    [all(sheet, "tbody th"), all(sheet, "thead th").slice(1)].forEach(function (heads) {
      var above = {};
      heads.forEach(function (th) { if (th.dataset.parent) above[th.dataset.parent] = true; });
      heads.forEach(function (th, k) {
        if (above[k] && th.dataset.parent !== undefined) {
          var button = made("button", undefined, "fold");
          button.type = "button";
          button.setAttribute("aria-expanded", "true");
          button.setAttribute("aria-label", "unfold or fold " + th.querySelector("bdi").textContent);
          th.insertBefore(button, th.firstChild);
        }
        th.appendChild(made("span", undefined, "below"));
      });
    });
  }
  // A cell's name: its codes but for the totals, with the names of their variables where it is full or codes could be mixed up.
  function called(c, isFull) {
    var td = places[c][0], table = data.places.tables[sections_.indexOf(td.closest("section.table"))], pairs = [];
    var sheet = td.closest(".sheet").dataset.sheet.split(" ");
    table.variables.forEach(function (variable, k) {
      var at = k === table.down ? td.parentNode.sectionRowIndex : k === table.across ? td.cellIndex - 1 : +sheet[table.others.indexOf(k)];
      if (at > 0) pairs.push([variable, table.codes[k][at]]);
    });
    pairs.sort(function (a, b) { return a[0] - b[0]; });
    return pairs.length === 0 ? "the total" : pairs.map(function (it) {
      return isFull || data.places.ambiguous ? data.places.variables[it[0]] + " " + it[1] : it[1] || "(empty code)";
    }).join(" \u00B7 ");
  }
  var sections_ = all(document, "section.table");

  // Folding: rows and columns below a code that isn't open are put away, in all sheets of a table alike.
  var sections = all(document, "section.table").map(function (section) {
    var it = { section: section, sheets: all(section, ".sheet"), down: { open: {} }, across: { open: {} } };
    var first = it.sheets[0];
    it.down.heads = all(first, "tbody th");
    it.across.heads = all(first, "thead th").slice(1);
    [it.down, it.across].forEach(function (way) {
      way.parents = way.heads.map(function (th) { return th.dataset.parent === undefined ? null : +th.dataset.parent; });
    });
    return it;
  });
  function isSeen(way, k) {
    for (var up = way.parents[k]; up; up = way.parents[up]) if (!way.open[up]) return false;
    return true;
  }
  function isBelow(way, k, top) {
    for (var up = way.parents[k]; up !== null && up !== undefined; up = way.parents[up]) if (up === top) return true;
    return false;
  }
  function seen(it, way) { return it[way].heads.map(function (_, k) { return isSeen(it[way], k); }); }
  function fold(it) {
    if (!it.section.querySelector(".fold")) return;
    var rows = seen(it, "down"), columns = seen(it, "across");
    it.sheets.forEach(function (sheet) {
      var heads = all(sheet, "thead th").slice(1), lines = all(sheet, "tbody tr");
      var inRow = lines.map(function () { return 0; }), inColumn = heads.map(function () { return 0; });
      lines.forEach(function (tr, r) {
        tr.classList.toggle("folded", !rows[r]);
        for (var k = 0; k < heads.length; k++) {
          var td = tr.cells[k + 1];
          td.classList.toggle("folded", !columns[k]);
          if (td.classList.contains("x")) { inRow[r]++; inColumn[k]++; }
        }
      });
      heads.forEach(function (th, k) { th.classList.toggle("folded", !columns[k]); tell(it.across, th, k, inColumn); });
      lines.forEach(function (tr, r) { tell(it.down, tr.cells[0], r, inRow); });
    });
  }
  // A code that is folded says how many hidden cells stand below it.
  function tell(way, th, k, hidden) {
    var button = th.querySelector(".fold"), count = 0;
    if (!button) return;
    button.setAttribute("aria-expanded", way.open[k] ? "true" : "false");
    if (!way.open[k]) hidden.forEach(function (many, at) { if (many && isBelow(way, at, k)) count += many; });
    th.querySelector(".below").textContent = count ? count + " x" : "";
  }
  function unfold(way, k) { for (var up = way.parents[k]; up; up = way.parents[up]) way.open[up] = true; }
  sections.forEach(function (it) {
    it.section.addEventListener("click", function (event) {
      var button = event.target.closest("button");
      if (!button) return;
      if (button.classList.contains("fold")) {
        var th = button.parentNode, way = th.scope === "row" ? it.down : it.across;
        var k = th.scope === "row" ? th.parentNode.sectionRowIndex : th.cellIndex - 1;
        way.open[k] = !way.open[k];
        fold(it);
      } else if (button.dataset.all) {
        [it.down, it.across].forEach(function (way) {
          way.open = {};
          if (button.dataset.all === "open") way.heads.forEach(function (_, k) { way.open[k] = true; });
        });
        fold(it);
      }
    });
    var others = all(it.section, "select[data-other]");
    it.select = function (at) {
      at.split(" ").forEach(function (k, n) { if (others[n]) others[n].value = k; });
      it.sheets.forEach(function (sheet) { sheet.classList.toggle("off", others.length > 0 && sheet.dataset.sheet !== at); });
    };
    it.select(others.map(function (select) { return select.value; }).join(" "));
    others.forEach(function (select) {
      select.addEventListener("change", function () { it.select(others.map(function (one) { return one.value; }).join(" ")); });
    });
    fold(it);
    it.sheets.forEach(function (sheet) { var td = sheet.querySelector("td"); if (td) td.tabIndex = 0; });
  });

  // Keys: arrows step through the cells that can be seen.
  function step(td, dx, dy) {
    var tr = td.parentNode, k = td.cellIndex;
    do {
      if (dx) { k += dx; td = tr.cells[k]; } else { tr = dy > 0 ? tr.nextElementSibling : tr.previousElementSibling; td = tr && tr.cells[k]; }
    } while (td && td.nodeName === "TD" && td.offsetParent === null);
    return td && td.nodeName === "TD" ? td : null;
  }
  var keys = { ArrowLeft: [-1, 0], ArrowRight: [1, 0], ArrowUp: [0, -1], ArrowDown: [0, 1] };
  document.addEventListener("keydown", function (event) {
    var td = event.target.closest && event.target.closest("td[data-c]"), way = keys[event.key];
    if (event.key === "Escape" && panel) close();
    if (!td || !way || event.altKey || event.ctrlKey || event.metaKey) return;
    var next = step(td, way[0], way[1]);
    if (next) next.focus();
    event.preventDefault();
  });
  document.addEventListener("focusin", function (event) {
    var td = event.target.closest && event.target.closest("td[data-c]");
    if (!td) return;
    all(td.closest("table"), 'td[tabindex="0"]').forEach(function (it) { it.tabIndex = -1; });
    td.tabIndex = 0;
    choose(td.dataset.c);
  });
  document.addEventListener("click", function (event) {
    var td = event.target.closest("td[data-c]"), link = event.target.closest("a[data-to]"), button = event.target.closest("button[data-world]");
    if (td) { td.focus(); if (chosen !== td.dataset.c) choose(td.dataset.c); }
    if (link) { event.preventDefault(); go(link.dataset.to); }
    if (button) showWorld(+button.dataset.world);
  });

  // The chosen cell and its facts.
  function choose(c) {
    if (!panel) return;
    (places[chosen] || []).forEach(function (td) { td.classList.remove("chosen"); });
    chosen = c;
    (places[c] || []).forEach(function (td) { td.classList.add("chosen"); });
    var shown = isHidden(c) ? facts(+c) : plain(c);
    panel.querySelector(".hint").hidden = true;
    var box = panel.querySelector(".chosen");
    box.textContent = "";
    var button = made("button", "Close", "close");
    button.type = "button";
    button.addEventListener("click", close);
    put(box, button, shown);
    panel.classList.remove("empty");
    panel.scrollTop = 0;
    mark(isHidden(c) ? shown : null);
  }
  function close() {
    (places[chosen] || []).forEach(function (td) { td.classList.remove("chosen"); });
    chosen = null;
    mark(null);
    panel.querySelector(".chosen").textContent = "";
    panel.querySelector(".hint").hidden = false;
    panel.classList.add("empty");
  }
  // The cells that the chosen one's facts speak of.
  function mark(shown) {
    all(document, "td.beside").forEach(function (td) { td.classList.remove("beside"); });
    if (shown) all(shown, "a[data-to]").forEach(function (a) {
      (places[a.dataset.to] || []).forEach(function (td) { if (a.dataset.to !== chosen) td.classList.add("beside"); });
    });
  }

  // Amounts: whole units or fractions of them, exact at any size.
  function fraction(text) { var at = String(text).split("/"); return { n: BigInt(at[0]), d: BigInt(at[1] || 1) }; }
  function plus(a, b) { return { n: a.n * b.d + b.n * a.d, d: a.d * b.d }; }
  function minus(a, b) { return plus(a, { n: -b.n, d: b.d }); }
  function isLess(a, b) { return a.n * b.d < b.n * a.d; }
  function near(a) { return Number(a.n * 1000000n / a.d) / 1000000; }
  function grouped(text) { return String(text).replace(/\B(?=(\d{3})+$)/g, "\u202F"); }
  function show(a, isSigned) {
    var n = a.n < 0n ? -a.n : a.n, d = a.d, places = data.decimals, about = "";
    while (n % d !== 0n && places < data.decimals + 3) { n *= 10n; places++; }
    var whole = n / d, rest = n % d * 2n;
    if (rest !== 0n) { about = "\u2248\u202F"; if (rest > d || (rest === d && whole % 2n === 1n)) whole++; }
    var digits = String(whole).padStart(places + 1, "0"), end = digits.length - places;
    return about + (a.n < 0n ? "\u2212" : isSigned && a.n > 0n ? "+" : "") + grouped(digits.slice(0, end)) + (places ? "." + digits.slice(end) : "");
  }

  // The columns of the data are taken apart when the first of their values is asked for.
  var columns = {}, ranks = null;
  function column(name) { return columns[name] = columns[name] || (data.facts[name] === undefined ? [] : data.facts[name].split(" ")); }
  function hiddenCells() {
    return Object.keys(places).map(Number).filter(isHidden).sort(function (a, b) { return a - b; });
  }
  function isHidden(c) { return !!panel && places[c] !== undefined && places[c][0].classList.contains("x"); }
  function rank(c) {
    if (!ranks) { ranks = {}; hiddenCells().forEach(function (it, k) { ranks[it] = k; }); }
    return ranks[c];
  }
  function hasFacts() { return !!data.facts && data.facts.records !== undefined; }
  function ofHidden(name, c) { return fraction(column(name)[rank(c)]); }
  function truth(c) {
    if (!hasFacts()) return isHidden(c) ? null : fraction(places[c][0].textContent.replace(/[\u202F.]/g, ""));
    if (data.base) return fraction(column("value")[c]);
    return isHidden(c) ? ofHidden("value", c) : fraction(places[c][0].textContent.replace(/[\u202F.]/g, ""));
  }
  function range(c) {
    if (!data.ranges) return null;
    columns.low = columns.low || data.ranges[0].split(" ");
    columns.high = columns.high || data.ranges[1].split(" ");
    var low = columns.low[rank(c)], high = columns.high[rank(c)];
    return low === "-" ? null : { low: fraction(low), high: high === "*" ? null : fraction(high) };
  }
  function kind(c) {
    return Array.prototype.filter.call(places[c][0].classList, function (it) { return KINDS.indexOf(it) >= 0; })[0];
  }
  var KINDS = ["freq", "nk", "p", "pq", "zero", "u", "s", "step", "repair", "extra"];
  function isPrimary(c) { return KINDS.indexOf(kind(c)) < 7; }
  function markOf(c) { return places[c][0].querySelector("small").textContent; }
  function named(group, c) {
    var of = columns[group + " by cell"];
    if (!of) {
      of = columns[group + " by cell"] = {};
      Object.keys((data.facts || {})[group] || {}).forEach(function (name) {
        data.facts[group][name].split(" ").forEach(function (it) { of[it] = name; });
      });
    }
    return of[c];
  }

  // Sentences: texts, cells by their numbers, and sums.
  function link(c) {
    var a = made("a", called(c));
    a.href = (isHidden(c) ? "#f" + c : "#" + places[c][0].id);
    a.dataset.to = c;
    return a;
  }
  function sentence(parts, kind) {
    var box = made(kind ? "span" : "p", undefined, kind);
    parts.forEach(function (it) {
      put(box, typeof it === "string" ? it : typeof it === "number" ? link(it) : sentence(it, "sum"));
    });
    return box;
  }
  function some(items, box) {
    var count = items.length > 12 ? 12 : items.length;
    for (var k = 0; k < count; k++) {
      if (k) put(box, k === count - 1 && count === items.length ? " and " : ", ");
      items[k](box);
    }
    if (count < items.length) put(box, " and " + (items.length - count) + " more");
  }
  function pairs(items) {
    var list = made("dl");
    items.forEach(function (it) {
      if (it[1] !== "" && it[1] !== undefined) put(list, put(made("div"), made("dt", it[0]), made("dd", it[1])));
    });
    return list;
  }

  // The facts of a hidden cell.
  function facts(c) {
    var box = made("article", undefined, "facts"), at = rank(c), isOne = isPrimary(c);
    var tables = places[c].map(function (td) { return td.closest("section").dataset.table; });
    tables = tables.filter(function (it, k) { return tables.indexOf(it) === k; });
    var where = (tables.length > 1 ? "tables " : "table ");
    where += tables.length > 1 ? tables.slice(0, -1).join(", ") + " and " + tables[tables.length - 1] : tables[0];
    put(box, made("h3", called(c, true)));
    var tags = put(made("p", undefined, "tags"), made("i", "x", "swatch " + kind(c)), " ", made("b", (isOne && hasFacts() ? "sensitive: " : "") + markOf(c)));
    put(box, put(tags, " \u00B7 cell " + c + " \u00B7 " + where));
    if (hasFacts()) put(box, pairs([["true value", show(truth(c))], ["records", grouped(column("records")[c])],
      ["largest", show(fraction(column("largest")[c]))], ["second", show(fraction(column("second")[c]))]]));
    if (range(c)) put(box, bar(c, isOne));
    put(box, made("h4", "Why it is hidden"), sentence(data.why[at]));
    if (!isOne) put(box, made("h4", "Why it must stay hidden"), sentence(data.need[at]));
    put(box, worlds(c, isOne));
    return box;
  }
  // The interval of a hidden cell against its protection levels. Everything in the picture stands in its caption too.
  function bar(c, isOne) {
    var at = range(c), low = at.low, high = at.high, known = hasFacts(), value = known ? truth(c) : null;
    var under = known && isOne ? minus(value, ofHidden("down", c)) : value, over = known && isOne ? plus(value, ofHidden("up", c)) : value;
    var ends = [low, high, under, over].filter(function (it) { return it !== null; });
    var least = ends.reduce(function (a, b) { return isLess(b, a) ? b : a; }), most = ends.reduce(function (a, b) { return isLess(a, b) ? b : a; });
    var wide = near(minus(most, least));
    if (high === null) wide += Math.max(wide, 1);
    wide = Math.max(wide, 1);
    function x(it) { return Math.round(10 * (20 + 320 * near(minus(it, least)) / wide)) / 10; }
    var right = high === null ? 348 : x(high);
    var svg = drawn("svg", { viewBox: "0 0 360 70", role: "img" });
    put(svg, drawn("line", { "class": "axis", x1: 8, y1: 38, x2: 352, y2: 38 }));
    put(svg, drawn("rect", { "class": "range", x: x(low), y: 30, width: Math.max(Math.round(10 * (right - x(low))) / 10, 2), height: 16, rx: 3 }));
    if (high === null) put(svg, drawn("path", { "class": "range", d: "M346 24 L360 38 L346 52 Z" }));
    if (known && isOne) put(svg, drawn("path", { "class": "level", d: "M" + x(under) + " 18 V24 H" + Math.max(x(over), x(under) + 1) + " V18" }));
    if (known) put(svg, drawn("path", { "class": "truth", d: "M" + x(value) + " 26 V50" }), drawn("circle", { "class": "truth", cx: x(value), cy: 38, r: 3.5 }));
    put(svg, drawn("text", { "class": "end", x: Math.max(x(low), 20), y: 64 }, show(low)));
    if (high === null || x(high) - x(low) > 90) put(svg, drawn("text", { "class": "end right", x: Math.min(right, 352), y: 64 }, high === null ? "open" : show(high)));
    var isPoint = high !== null && !isLess(low, high);
    var keys = [["k-range", "readers of the tables can tell: " + (isPoint ? show(low) : show(low) + " to " + (high === null ? "no end" : show(high)))]];
    if (known && isOne) keys.push(["k-level", "must be left open: " + show(under) + " to " + show(over) + " (" + show(ofHidden("down", c)) + " below, " + show(ofHidden("up", c)) + " above)"]);
    if (known) keys.push(["k-truth", "true value: " + show(value)]);
    svg.setAttribute("aria-label", keys.map(function (it) { return it[1]; }).join("; "));
    var caption = made("figcaption");
    keys.forEach(function (it) { put(caption, made("span", it[1], "key " + it[0]), " "); });
    return put(made("figure"), svg, caption);
  }
  // The complete tables by the cells that move in them: of each which, and by how much.
  var moving = null;
  function moves(k) {
    var it = data.worlds[k];
    return it[3] === "" ? [] : it[3].split(" ").map(function (move) { move = move.split(":"); return [+move[0], { n: BigInt(move[1]), d: BigInt(it[2]) }]; });
  }
  function movesOf(c) {
    if (!moving) {
      moving = {};
      data.worlds.forEach(function (_, k) {
        moves(k).forEach(function (it) { (moving[it[0]] = moving[it[0]] || []).push([k, it[1]]); });
      });
    }
    return moving[c] || [];
  }
  // The two complete tables of a sensitive cell; of another one those that take it highest and lowest.
  function worlds(c, isOne) {
    var box = document.createDocumentFragment(), mine = movesOf(c), found = [], zero = { n: 0n, d: 1n };
    var lead = "Both agree with everything that is shown.";
    if (isOne) data.worlds.forEach(function (it, k) {
      if (it[0] === c) found.push(mine.filter(function (move) { return move[0] === k; })[0] || [k, zero]);
    });
    else {
      lead = "The certificate\u2019s complete tables in which it lies highest and lowest. Each agrees with everything that is shown.";
      var high = mine[0], low = mine[0];
      mine.forEach(function (it) { if (!isLess(it[1], high[1])) high = it; if (isLess(it[1], low[1])) low = it; });
      if (high) found = high === low ? [high] : [high, low];
    }
    if (!found.length) return isOne ? box : made("p", "It lies at its true value in all complete tables of the certificate.", "small");
    var list = made("ul", undefined, "worlds");
    found.forEach(function (it) { put(list, oneWorld(c, it[0], it[1])); });
    return put(box, made("h4", "Complete tables"), made("p", lead, "small"), list);
  }
  function oneWorld(c, k, off) {
    var line = made("li"), value = truth(c), size = off.n < 0n ? { n: -off.n, d: off.d } : off;
    var said = off.n === 0n ? "at its true value" : show(size) + (off.n > 0n ? " above" : " below") + " its true value";
    if (value === null) put(line, "It lies ", made("b", said), ".");
    else put(line, "It is ", made("b", show(plus(value, off))), ", " + said + ".");
    var others = moves(k).filter(function (it) { return it[0] !== c; });
    if (others.length) {
      put(line, " With it: ");
      some(others.map(function (it) {
        return function (box) {
          var was = truth(it[0]);
          put(box, link(it[0]), " " + (was === null ? show(it[1], true) : show(was) + " \u2192 " + show(plus(was, it[1]))));
        };
      }), line);
      put(line, ".");
    }
    if (data.worlds[k][0] !== c) put(line, " It was made for ", link(data.worlds[k][0]), ".");
    var button = made("button", "Show it in the tables", "screen");
    button.type = "button";
    button.dataset.world = k;
    return put(line, " ", button);
  }

  // The facts of a cell that is shown.
  function plain(c) {
    var box = made("article", undefined, "facts"), td = places[c][0], known = hasFacts();
    put(box, made("h3", called(c, true)));
    var status = named("status", c), rules = named("rules", c);
    var kind = status === undefined ? "" : status === "primary" ? " \u00B7 sensitive" : " \u00B7 always shown";
    if (rules) kind += status === "primary" ? ": " + rules : " \u00B7 named by " + rules + ", but not sensitive";
    var isRounded = data.base && known;
    put(box, made("p", (isRounded ? "rounded" : "shown") + " \u00B7 cell " + c + kind, "tags"));
    if (isRounded) put(box, ruler(c), made("p", rounded(c)));
    put(box, pairs([["shown", td.firstChild.textContent], ["true value", isRounded ? show(truth(c)) : ""], ["records", known ? column("records")[c] : ""],
      ["largest", known ? show(fraction(column("largest")[c])) : ""], ["second", known ? show(fraction(column("second")[c])) : ""]]));
    return box;
  }
  // A rounded cell between the multiples next to its true value.
  function between(c) {
    var base = BigInt(data.base), value = truth(c).n, shown = BigInt(places[c][0].firstChild.textContent.replace(/[\u202F.]/g, ""));
    var below = value / base * base;
    return { value: value, shown: shown, below: below, above: below + base, share: near({ n: value - below, d: base }) };
  }
  function amount(n) { return show({ n: n < 0n ? -n : n, d: 1n }); }
  function rounded(c) {
    var it = between(c);
    if (it.below === it.value) return "It is a multiple of " + amount(BigInt(data.base)) + ", and shown as it is.";
    var other = it.shown !== it.below ? it.below : it.above;
    return "Its true value " + amount(it.value) + " lies between " + amount(it.below) + " and " + amount(it.above) + "; it is shown as " + amount(it.shown) +
      ", " + amount(it.shown - it.value) + " away, and " + amount(other) + " would be " + amount(other - it.value) + " away.";
  }
  // A rounded cell as a picture: the multiples, which of them is shown, and where the true value lies.
  function ruler(c) {
    var it = between(c), at = 40 + 280 * it.share, shown = it.shown === it.below ? 40 : 320;
    var svg = drawn("svg", { viewBox: "0 0 360 70", "aria-hidden": "true" });
    put(svg, drawn("line", { "class": "axis", x1: 8, y1: 38, x2: 352, y2: 38 }));
    put(svg, drawn("rect", { "class": "range", x: Math.min(at, shown), y: 32, width: Math.max(Math.abs(at - shown), 1), height: 12 }));
    [[40, it.below], [320, it.above]].forEach(function (one) {
      put(svg, drawn("path", { "class": one[0] === shown ? "tick on" : "tick", d: "M" + one[0] + " 26 V50" }));
      put(svg, drawn("text", { "class": "end middle", x: one[0], y: 64 }, amount(one[1])));
    });
    put(svg, drawn("circle", { "class": "truth", cx: at, cy: 38, r: 4 }));
    return put(made("figure"), svg);
  }
  function drawn(name, given, text) {
    var it = document.createElementNS("http://www.w3.org/2000/svg", name);
    Object.keys(given).forEach(function (key) { it.setAttribute(key, given[key]); });
    if (text !== undefined) it.textContent = text;
    return it;
  }
  function go(c) {
    var all_ = places[c] || [], here = chosen !== null && places[chosen] ? places[chosen][0].closest("section") : null;
    var td = all_.filter(function (it) { return it.closest("section") === here; })[0] || all_[0];
    if (!td) return;
    sections.forEach(function (it) {
      if (!it.section.contains(td)) return;
      it.select(td.closest(".sheet").dataset.sheet);
      unfold(it.down, td.parentNode.sectionRowIndex);
      unfold(it.across, td.cellIndex - 1);
      fold(it);
    });
    td.focus({ preventScroll: true });
    td.scrollIntoView({ block: "center", inline: "center" });
  }

  // What hidden cells show: x, true values, or a complete table of the certificate.
  function render() {
    var view = document.querySelector('input[name="view"]:checked'), isTrue = view && view.value === "v", off = {};
    if (world !== null) moves(world).forEach(function (it) { off[it[0]] = it[1]; });
    all(document, "td.x").forEach(function (td) {
      var b = td.querySelector("b"), c = td.dataset.c, by = off[c], value = world !== null || isTrue ? truth(c) : null;
      if (!b) return;
      b.textContent = value !== null ? show(by ? plus(value, by) : value) : by ? show(by, true) : "x";
      td.classList.toggle("moved", !!by);
      if (by) b.setAttribute("data-way", by.n > 0n ? " \u25B4" : " \u25BE"); else b.removeAttribute("data-way");
    });
  }
  function showWorld(k) {
    world = k;
    var it = data.worlds[k];
    if (notice) {
      notice.hidden = false;
      notice.querySelector("span").textContent = "A complete table that agrees with all that is shown, in which " + called(it[0]) + " lies " +
        (it[1] > 0 ? "above" : "below") + " its true value. Cells that differ from their true values have an arrow.";
    }
    render();
  }
  if (notice) notice.querySelector("button").addEventListener("click", function () { world = null; notice.hidden = true; render(); });
  all(document, 'input[name="view"]').forEach(function (it) {
    it.checked = it.value === "x";
    it.addEventListener("change", function () { world = null; notice.hidden = true; render(); });
  });

  // The list of hidden cells: so many lines at first, more where it is scrolled down; a click on a column's head puts it in order.
  var LINES = 200, list = document.querySelector("table.sortable"), order = null, way = {};
  function room(c) {
    var at = range(c), sides = [];
    if (!hasFacts() || !at || !isPrimary(c)) return null;
    var value = truth(c), down = ofHidden("down", c), up = ofHidden("up", c);
    function over(a, b) { return { n: a.n * b.d, d: a.d * b.n }; }
    if (down.n > 0n) sides.push(over(minus(value, at.low), down));
    if (up.n > 0n && at.high !== null) sides.push(over(minus(at.high, value), up));
    return sides.length ? sides.reduce(function (a, b) { return isLess(b, a) ? b : a; }) : null;
  }
  // What a line is put in order by, for each column; "" stands last.
  function keysOf(c) {
    var at = range(c), isKnown = hasFacts(), left = room(c), needs = isKnown && isPrimary(c);
    return [c, called(c), markOf(c), isKnown ? near(truth(c)) : "", isKnown ? +column("records")[c] : "", at ? near(at.low) : "",
      needs ? near(minus(truth(c), ofHidden("down", c))) : "", left ? near(left) : ""];
  }
  function compare(a, b) {
    if (a === "" || b === "") return (a === "") - (b === "");
    return typeof a === "number" ? a - b : a.localeCompare(b);
  }
  function line(c) {
    var tr = made("tr"), at = range(c), isKnown = hasFacts(), left = room(c), needs = isKnown && isPrimary(c);
    var tenths = left ? left.n * 10n / left.d : 0n;
    var items = [String(c), link(c), put(document.createDocumentFragment(), made("i", "x", "swatch " + kind(c)), " " + markOf(c)),
      isKnown ? show(truth(c)) : "", isKnown ? column("records")[c] : "", at ? show(at.low) + " to " + (at.high === null ? "no end" : show(at.high)) : "",
      needs ? show(minus(truth(c), ofHidden("down", c))) + " to " + show(plus(truth(c), ofHidden("up", c))) : "",
      left ? tenths / 10n + "." + tenths % 10n + "\u202F\u00D7" : ""];
    all(list, "thead th").forEach(function (th) { put(tr, put(made("td", undefined, th.className), items[+th.dataset.k])); });
    return tr;
  }
  function ordered() {
    if (order) return order;
    order = hiddenCells().map(function (c) { return { c: c, keys: keysOf(c), room: room(c) }; });
    order.sort(function (a, b) {
      if (!a.room || !b.room) return !a.room - !b.room || a.c - b.c;
      return isLess(a.room, b.room) ? -1 : isLess(b.room, a.room) ? 1 : a.c - b.c;
    });
    return order;
  }
  function draw(upTo) {
    var body = list.tBodies[0], lines = ordered();
    for (var k = body.rows.length; k < Math.min(upTo, lines.length); k++) body.appendChild(line(lines[k].c));
  }
  function more() {
    var box = list.parentNode;
    if (box.scrollTop + box.clientHeight > box.scrollHeight - 600) draw(list.tBodies[0].rows.length + LINES);
  }
  if (list) {
    list.parentNode.addEventListener("scroll", more);
    if (window.IntersectionObserver) {
      var watch = new IntersectionObserver(function (seen) {
        if (seen.some(function (it) { return it.isIntersecting; })) { watch.disconnect(); draw(LINES); }
      }, { rootMargin: "800px" });
      watch.observe(list.parentNode);
    } else draw(Infinity);
    all(list, "thead th").forEach(function (th) {
      var k = +th.dataset.k;
      th.tabIndex = 0;
      function sort() {
        var turn = way[k] = -(way[k] || -1);
        ordered().sort(function (a, b) {
          var x = a.keys[k], y = b.keys[k];
          return x === "" || y === "" ? compare(x, y) : turn * compare(x, y);
        });
        list.tBodies[0].textContent = "";
        draw(LINES);
      }
      th.addEventListener("click", sort);
      th.addEventListener("keydown", function (event) { if (event.key === "Enter" || event.key === " ") { event.preventDefault(); sort(); } });
    });
  }

  // A cell is found by its number or by parts of its codes.
  var find = document.getElementById("find"), names = null, MATCHES = 12;
  function sought() {
    var box = document.getElementById("found"), words = find.value.toLowerCase().split(/[\s\u00B7,]+/).filter(Boolean), count = 0;
    box.textContent = "";
    if (!words.length) return;
    names = names || Object.keys(places).map(function (c) { return [c, called(c, true).toLowerCase()]; });
    names.map(function (it) { return [score(it, words), it[0]]; }).filter(function (it) { return it[0]; }).sort(function (a, b) {
      return b[0] - a[0] || a[1] - b[1];
    }).forEach(function (it) {
      if (count++ < MATCHES) put(box, put(made("li"), named_(it[1])));
    });
    put(box, made("li", count === 0 ? "no cell has these codes" : count > MATCHES ? grouped(count - MATCHES) + " more" : "", "small"));
  }
  // Each word stands in the name; whole codes before parts, and few codes before many.
  function score(it, words) {
    if (words.length === 1 && words[0] === it[0]) return 1000;
    var codes = it[1].split(/[\s\u00B7]+/), sum = 100 - codes.length;
    for (var k = 0; k < words.length; k++) {
      if (it[1].indexOf(words[k]) < 0) return 0;
      if (codes.indexOf(words[k]) >= 0) sum += 200 / words.length;
    }
    return sum;
  }
  function named_(c) {
    var a = link(c);
    a.textContent = called(c, true) + (isHidden(c) ? " (x)" : "");
    return a;
  }
  if (find) {
    find.addEventListener("input", sought);
    find.addEventListener("keydown", function (event) {
      var first = document.querySelector("#found a");
      if (event.key === "Enter" && first) { event.preventDefault(); go(first.dataset.to); }
      if (event.key === "Escape") { find.value = ""; sought(); }
    });
  }

  // On paper a table that is wider than a page goes in pieces, each with the heads of its rows.
  function cut(table) {
    var starts = table.dataset.pieces.split(" ").map(Number), count = table.tHead.rows[0].cells.length - 1;
    starts.forEach(function (start, n) {
      var end = n + 1 < starts.length ? starts[n + 1] : count, piece = table.cloneNode(true);
      piece.removeAttribute("data-pieces");
      piece.classList.add("piece");
      all(piece, "[id]").forEach(function (it) { it.removeAttribute("id"); });
      all(piece, "tr").forEach(function (tr) { for (var k = count; k > 0; k--) if (k <= start || k > end) tr.deleteCell(k); });
      table.parentNode.appendChild(piece);
    });
    table.classList.add("in-pieces");
  }
  function join() {
    all(document, "table.piece").forEach(function (it) { it.parentNode.removeChild(it); });
    all(document, "table.in-pieces").forEach(function (it) { it.classList.remove("in-pieces"); });
  }
  // The list and the facts of every hidden cell go on paper only where that is asked for, and are drawn then.
  var paper = document.getElementById("all-facts");
  function fill() {
    if (!demand || !demand.checked || !paper || paper.querySelector("article")) return;
    if (list) draw(Infinity);
    paper.hidden = false;
    ordered();
    hiddenCells().forEach(function (c) { var it = facts(c); it.id = "f" + c; paper.appendChild(it); });
  }
  function empty() {
    if (!paper) return;
    all(paper, "article").forEach(function (it) { paper.removeChild(it); });
    paper.hidden = true;
  }
  window.addEventListener("beforeprint", function () { join(); all(document, "table[data-pieces]").forEach(cut); fill(); });
  window.addEventListener("afterprint", function () { join(); empty(); });
  function demanded() { document.body.classList.toggle("demanded", demand.checked); }
  if (demand) { demand.addEventListener("change", demanded); demanded(); }
  if (panel) { document.body.classList.add("has-panel"); panel.classList.add("empty"); }
})();
