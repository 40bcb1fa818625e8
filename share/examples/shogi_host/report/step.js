(function () {
  var space = "http://www.w3.org/2000/svg", at = 0;
  var data = JSON.parse(document.getElementById("plies").textContent);
  var place = data.place, last = data.plies.length - 1;
  var find = function (name) { return document.getElementById(name); };
  var pieces = find("pieces"), rows = document.querySelectorAll("tr[data-ply]");

  function put(name, attributes, text) {
    var element = document.createElementNS(space, name);
    Object.keys(attributes).forEach(function (key) { element.setAttribute(key, attributes[key]); });
    element.textContent = text || "";
    pieces.appendChild(element);
  }

  function piece(letter, x, y) {
    var black = letter.toUpperCase() === letter;
    put("use", { href: "#" + (black ? "black" : "white") + "-" + letter.toUpperCase(), x: x, y: y });
  }

  function center(file, rank) {
    return [place.left + (9.5 - file) * place.cell, place.up + (rank - 0.5) * place.cell];
  }

  function board(sfen) {
    sfen.split(" ")[0].split("/").forEach(function (row, rank) {
      var file = 9;
      (row.match(/\+?[A-Za-z]|\d/g) || []).forEach(function (cell) {
        if (/\d/.test(cell)) { file -= +cell; return; }
        var to = center(file, rank + 1);
        piece(cell, to[0], to[1]);
        file -= 1;
      });
    });
    var held = [0, 0];
    (sfen.split(" ")[2].match(/\d*[A-Za-z]/g) || []).forEach(function (hand) {
      var letter = hand.slice(-1), count = hand.slice(0, -1), black = letter.toUpperCase() === letter;
      var step = (held[+black] += 1) - 0.5, bottom = place.up + 9 * place.cell;
      var x = black ? place.right : place.stand / 2;
      var y = black ? bottom - place.cell * step : place.up + place.cell * step;
      piece(letter, x - 5, y);
      if (count) { put("text", { x: x + 11, y: y + 13, "font-size": 13, fill: "var(--ink)" }, count); }
    });
  }

  function show(number) {
    at = Math.max(0, Math.min(last, number));
    var ply = data.plies[at];
    pieces.textContent = "";
    if (ply.last) {
      var to = center(ply.last[0], ply.last[1]), half = place.cell / 2;
      put("rect", { x: to[0] - half, y: to[1] - half, width: place.cell, height: place.cell, fill: "var(--seen)",
        stroke: "var(--edge)", "stroke-width": 0.8 });
    }
    board(ply.sfen);
    find("at").textContent = ply.head;
    find("said").textContent = ply.said;
    find("better").textContent = ply.better;
    find("notes").textContent = ply.notes;
    find("now").setAttribute("transform", "translate(" + at * data.step + " 0)");
    rows.forEach(function (row) { row.classList.toggle("now", +row.dataset.ply === at); });
    find("back").disabled = find("first").disabled = at === 0;
    find("on").disabled = find("last").disabled = at === last;
  }

  find("first").onclick = function () { show(0); };
  find("back").onclick = function () { show(at - 1); };
  find("on").onclick = function () { show(at + 1); };
  find("last").onclick = function () { show(last); };
  document.addEventListener("keydown", function (event) {
    if (event.altKey || event.ctrlKey || event.metaKey || event.shiftKey) { return; }
    var way = { ArrowLeft: -1, ArrowRight: 1 }[event.key];
    if (way) { show(at + way); event.preventDefault(); }
  });
  find("curve").addEventListener("click", function (event) {
    if (event.target.closest("a")) { return; }
    var box = find("curve").getBoundingClientRect();
    show(Math.round(((event.clientX - box.left) / box.width * place.wide - place.begin) / data.step));
  });
  rows.forEach(function (row) {
    row.onclick = function () { show(+row.dataset.ply); find("game").scrollIntoView({ block: "nearest" }); };
  });
  document.body.classList.add("steps");
  find("game").hidden = false;
  find("now").removeAttribute("display");
  // An address that ends with #ply34 begins there.
  show(+(/^#ply(\d+)$/.exec(location.hash) || [0, 0])[1]);
})();
