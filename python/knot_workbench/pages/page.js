"use strict";
// Draws the diagrams of a page that tools/show.py makes, as tools/draw.py draws them.
(function () {
  const data = JSON.parse(document.getElementById("data").textContent);
  const cell = 24, ink = "#222222", space = "http://www.w3.org/2000/svg";
  document.body.classList.add("scripted");

  function inkOf(colour) {
    return colour === null || colour === undefined ? ink : data.palette[colour % data.palette.length];
  }

  function shape(name, attributes, text) {
    const made = document.createElementNS(space, name);
    for (const key of Object.keys(attributes)) made.setAttribute(key, attributes[key]);
    if (text !== undefined) made.textContent = text;
    return made;
  }

  // The pieces of a row from left to right, each with its colour: a row is cut where it passes under a column.
  function pieces(xs, os, colours, row) {
    const ends = [xs.indexOf(row), os.indexOf(row)].sort((a, b) => a - b);
    const found = [];
    let start = ends[0], colour = colours ? colours[start] : null;
    for (let column = ends[0] + 1; column < ends[1]; column++) {
      if (Math.min(xs[column], os[column]) < row && row < Math.max(xs[column], os[column])) {
        found.push([start, column, colour]);
        start = column;
        if (colours) colour = (xs[column] < os[column] ? data.back : data.over)[colour][colours[column]];
      }
    }
    found.push([start, ends[1], colour]);
    return found;
  }

  function drawInto(svg, xs, os, colours, band, room) {
    const size = xs.length, left = (room - size) * cell / 2 + cell / 2, foot = 0.3 * cell + (room + size) * cell / 2;
    const x = column => left + (column + 0.5) * cell, y = row => foot - (row + 0.5) * cell, gap = 0.2 * cell;
    const strands = shape("g", { fill: "none", "stroke-width": 0.11 * cell, "stroke-linecap": "round" });
    const words = shape("g", { "font-family": "sans-serif", "font-size": 0.45 * cell, "text-anchor": "middle" });
    const arrows = shape("g", {});

    function line(x1, y1, x2, y2, colour) {
      strands.append(shape("path", { d: `M${x1} ${y1} L${x2} ${y2}`, stroke: inkOf(colour) }));
    }

    function arrow(at, level, dx, dy, colour) {
      const s = 0.13 * cell;
      const corners = [[at + dx * s, level + dy * s], [at - dx * s - dy * s, level - dy * s + dx * s], [at - dx * s + dy * s, level - dy * s - dx * s]];
      arrows.append(shape("path", { d: `M${corners.map(corner => corner.join(" ")).join(" L")} Z`, fill: inkOf(colour) }));
    }

    while (svg.lastChild) svg.lastChild.remove();
    svg.setAttribute("viewBox", `0 0 ${(room + 1) * cell} ${(room + 1.2) * cell}`);
    if (band) {
      svg.append(shape("rect", { x: x(band[0]) - cell / 2, y: y(band[2] + band[3] - 1) - cell / 2, width: band[1] * cell, height: band[3] * cell, fill: "#fff2b3" }));
    }
    for (let row = 0; row < size; row++) {
      const found = pieces(xs, os, colours, row), first = found[0][0], last = found[found.length - 1][1];
      for (const [start, end, colour] of found) {
        line(x(start) + (start === first ? 0 : gap), y(row), x(end) - (end === last ? 0 : gap), y(row), colour);
      }
      const middle = Math.floor((first + last) / 2);
      const colour = found.find(piece => piece[0] <= middle && middle < piece[1])[2];
      arrow(x(middle + 0.5), y(row), os[first] === row ? 1 : -1, 0, colour);
    }
    for (let column = 0; column < size; column++) {
      const colour = colours ? colours[column] : null, up = xs[column] < os[column];
      line(x(column), y(xs[column]), x(column), y(os[column]), colour);
      arrow(x(column), y(Math.floor((xs[column] + os[column]) / 2) + 0.5), 0, up ? -1 : 1, colour);
      if (colours) words.append(shape("text", { x: x(column), y: foot + 0.55 * cell, fill: inkOf(colour) }, colour));
    }
    svg.append(strands, arrows, words);
  }

  // ---- moves
  function walk() {
    const frames = data.frames, svg = document.getElementById("walk"), slider = document.getElementById("frame");
    const said = document.getElementById("now"), play = document.getElementById("play");
    const room = frames.reduce((most, frame) => Math.max(most, frame[2].length), 0);
    const items = new Map(Array.from(document.querySelectorAll("ol button"), item => [Number(item.dataset.place), item]));
    let at = 0, timer = null;

    function show(place) {
      at = Math.max(0, Math.min(frames.length - 1, place));
      const [number, caption, xs, os, colours, band] = frames[at];
      drawInto(svg, xs, os, colours, band, room);
      slider.value = at;
      const text = `Frame ${number} of ${frames[frames.length - 1][0]}${caption ? `: ${caption}` : ", the first diagram"}. ${xs.length} columns, Xs in rows ${xs.join(" ")}, `
        + `Os in rows ${os.join(" ")}${colours ? `, colours ${colours.join(" ")}` : ""}.`;
      said.textContent = text;
      slider.setAttribute("aria-valuetext", caption || "the first diagram");
      document.querySelectorAll("ol button[aria-current]").forEach(item => item.removeAttribute("aria-current"));
      if (items.has(at)) items.get(at).setAttribute("aria-current", "true");
    }

    function stop() {
      clearInterval(timer);
      timer = null;
      play.textContent = "Play";
      said.setAttribute("aria-live", "polite");
    }

    function toggle() {
      if (timer !== null) { stop(); return; }
      if (at === frames.length - 1) show(0);
      play.textContent = "Pause";
      said.setAttribute("aria-live", "off");
      timer = setInterval(() => { show(at + 1); if (at === frames.length - 1) stop(); }, 700);
    }

    function go(place) { stop(); show(place); }

    slider.addEventListener("input", () => go(Number(slider.value)));
    document.getElementById("first").addEventListener("click", () => go(0));
    document.getElementById("back").addEventListener("click", () => go(at - 1));
    document.getElementById("on").addEventListener("click", () => go(at + 1));
    document.getElementById("last").addEventListener("click", () => go(frames.length - 1));
    play.addEventListener("click", toggle);
    items.forEach((item, place) => item.addEventListener("click", () => go(place)));
    document.addEventListener("keydown", event => {
      const isOn = kinds => event.target instanceof Element && event.target.matches(kinds);
      if (event.altKey || event.ctrlKey || event.metaKey || isOn("input")) return;
      const keys = { ArrowRight: () => go(at + 1), ArrowLeft: () => go(at - 1), Home: () => go(0), End: () => go(frames.length - 1) };
      if (event.key === " " && !isOn("button, summary")) { event.preventDefault(); toggle(); }
      else if (keys[event.key]) { event.preventDefault(); keys[event.key](); }
    });
    // An address that ends with #frame-4 leads to this frame.
    const asked = /^#frame-(\d+)$/.exec(location.hash);
    const found = asked ? frames.findIndex(frame => frame[0] >= Number(asked[1])) : 0;
    show(found < 0 ? frames.length - 1 : found);
    if (asked) document.getElementById("moves-head").scrollIntoView();
  }

  // ---- lists of colourings
  function list(number) {
    const slider = document.getElementById(`list-${number}`);
    if (!slider) return;
    const svg = document.getElementById(`picture-${number}`), [xs, os] = data.grids[number];
    const room = Math.min(Math.max(...data.grids.map(grid => grid[0].length)), 2 * xs.length + 1);

    function show() {
      const line = data.lists[number][Number(slider.value) - 1], colours = line.slice(0, xs.length);
      const title = svg.querySelector("title").cloneNode(true);
      for (const name of ["width", "height", "style"]) svg.removeAttribute(name);
      drawInto(svg, xs, os, colours, null, room);
      svg.prepend(title);
      document.getElementById(`which-${number}`).textContent = slider.value;
      const text = `Colours ${colours.join(" ")}${data.weighs ? `, of weight ${line[xs.length]}` : ""}.`;
      document.getElementById(`said-${number}`).textContent = text;
      slider.setAttribute("aria-valuetext", text);
    }

    slider.addEventListener("input", show);
    show();
  }

  if (data.frames.length) walk();
  data.lists.forEach((_, number) => list(number));
})();
