"use strict";
// Draws the pictures of the page's data by d3, and lets a reader sort the tables. All texts are set as texts.
(function () {
  const data = JSON.parse(document.getElementById("data").textContent);
  const bytes = (value) => {
    const units = ["bytes", "kB", "MB", "GB", "TB"];
    let unit = 0;
    while (value >= 1000 && unit + 1 < units.length) {
      value /= 1000;
      unit += 1;
    }
    return `${d3.format(unit ? ".3~g" : "d")(value)} ${units[unit]}`;
  };

  // A text of an SVG that is cut where it is wider than its room; where nothing of it fits it goes.
  function fit(node, room) {
    const whole = node.textContent;
    let kept = Math.min(whole.length, Math.floor(room / 3));
    while (kept > 0 && node.getComputedTextLength() > room) {
      kept = Math.min(kept - 1, Math.floor(kept * room / node.getComputedTextLength()));
      node.textContent = kept > 2 ? `${whole.slice(0, kept)}\u2026` : "";
      if (kept <= 2) {
        break;
      }
    }
  }

  // An empty picture of this width and height, with a title and a description for those who do not see it.
  function frame(figure, width, height, about) {
    const name = figure.dataset.picture;
    const canvas = d3.select(figure).select(".canvas");
    canvas.selectAll("*").remove();
    const svg = canvas.append("svg").attr("class", name).attr("viewBox", `0 0 ${width} ${height}`).attr("width", width).attr("height", height)
      .attr("role", "group").attr("aria-labelledby", `${name}-name ${name}-about`);
    svg.append("title").attr("id", `${name}-name`).text(figure.dataset.title);
    svg.append("desc").attr("id", `${name}-about`).text(about);
    return svg;
  }

  // What a mark says when it is pointed at or reached, and how the arrow keys go from one to the next.
  function speak(figure, marks) {
    const line = figure.querySelector(".line");
    const nodes = marks.nodes();
    const rest = nodes.length > 1 ? `${nodes.length} parts: point at one, or go through them with the arrow keys.` : "";
    const say = (text) => {
      line.textContent = text;
    };
    say(rest);
    marks.classed("mark", true).attr("role", "img").attr("aria-label", (row) => row.what)
      .attr("tabindex", (row, index) => (index ? -1 : 0))
      .on("mouseenter", (row) => say(row.what)).on("focus", (row) => say(row.what))
      .on("mouseleave", () => say(rest)).on("blur", () => say(rest));
    marks.each(function (row, index) {
      this.addEventListener("keydown", (event) => {
        const steps = { ArrowRight: index + 1, ArrowDown: index + 1, ArrowLeft: index - 1, ArrowUp: index - 1, Home: 0, End: nodes.length - 1 };
        const next = nodes[steps[event.key]];
        if (next) {
          event.preventDefault();
          this.setAttribute("tabindex", -1);
          next.setAttribute("tabindex", 0);
          next.focus();
        }
      });
    });
  }

  // Names at both ends of an axis stay inside of the picture.
  function inside(axis, x, width) {
    axis.selectAll(".tick text").attr("text-anchor", (value) => (x(value) < 24 ? "start" : x(value) > width - 28 ? "end" : "middle"));
  }

  function drawStrip(figure, rows, width) {
    const svg = frame(figure, width, 150, `${rows.lost.length} places of lost bytes, ${rows.broken.length} places of what is broken.`);
    const x = d3.scaleLinear().domain([0, Math.max(rows.length, 1)]).range([1, width - 1]);
    let from = 0;
    const parts = rows.parts.map((row) => ({ ...row, from, to: (from += row.bytes) }));
    const places = [...rows.lost.map((row) => ({ ...row, kind: "lost" })), ...rows.broken.map((row) => ({ ...row, kind: "broken" }))];
    svg.append("text").attr("x", 1).attr("y", 14).text(parts.length ? "How much" : "");
    svg.append("text").attr("x", 1).attr("y", 76).text("Where");
    svg.append("rect").attr("class", "shape free").attr("x", 1).attr("y", 84).attr("width", width - 2).attr("height", 30);
    const marks = svg.selectAll(".mark").data([...parts, ...places]).enter().append("g");
    marks.append("rect").attr("class", (row) => `shape ${row.kind}`)
      .attr("x", (row) => (row.bytes === undefined ? Math.min(x(row.at), width - 4) : x(row.from)))
      .attr("y", (row) => (row.bytes === undefined ? (row.kind === "broken" ? 80 : 90) : 22))
      .attr("width", (row) => (row.bytes === undefined ? Math.max(x(row.to) - x(row.at), 3) : Math.max(x(row.to) - x(row.from), 1)))
      .attr("height", (row) => (row.bytes === undefined ? (row.kind === "broken" ? 38 : 24) : 30));
    svg.append("g").attr("class", "axis").attr("transform", "translate(0,122)").attr("aria-hidden", "true")
      .call(d3.axisBottom(x).ticks(Math.max(2, Math.floor(width / 130))).tickFormat(bytes))
      .call(inside, x, width);
    return marks;
  }

  function tree(rows) {
    return d3.stratify().id((row) => row.id).parentId((row) => row.in)(rows)
      .sum((row) => row.bytes).sort((one, other) => other.value - one.value);
  }

  // The colours of the largest parts: those below the last folder that holds nearly all.
  function branches(root) {
    let top = root;
    while (top.children && top.children[0].children && top.children[0].value > 0.9 * top.value) {
      top = top.children[0];
    }
    return new Map((top.children || [top]).map((child, index) => [child.id, index % 5]));
  }

  function drawTiles(figure, rows, width) {
    const height = Math.max(220, Math.min(440, Math.round(width * 0.6)));
    const svg = frame(figure, width, height, `${rows.length} areas; the tables of this page have the same numbers.`);
    const root = d3.treemap().size([width, height]).paddingInner(2).paddingOuter(3).paddingTop((at) => (at.children ? 22 : 0)).round(true)(tree(rows));
    const branch = branches(root);
    const colour = (at) => {
      const top = at.ancestors().find((above) => branch.has(above.id));
      return `shape tile ${at.children ? "above" : at.data.verdict ? `is-${at.data.verdict}` : `tile${top ? branch.get(top.id) : 5}`}`;
    };
    const marks = svg.selectAll(".mark").data(root.descendants().map((at) => Object.assign(at, { what: at.data.what }))).enter().append("g")
      .attr("transform", (at) => `translate(${at.x0},${at.y0})`);
    marks.append("rect").attr("class", colour).attr("width", (at) => at.x1 - at.x0).attr("height", (at) => at.y1 - at.y0);
    const label = (y, text) => marks.filter((at) => at.x1 - at.x0 > 30 && at.y1 - at.y0 > y + 4)
      .append("text").attr("x", 5).attr("y", y).attr("aria-hidden", "true").text(text).each(function (at) {
        fit(this, at.x1 - at.x0 - 10);
      });
    label(15, (at) => (at.children ? `${at.data.name} \u00b7 ${at.data.size}` : at.data.name));
    label(31, (at) => (at.children ? "" : at.data.size));
    return marks;
  }

  function drawTimes(figure, rows, width) {
    const height = 240, left = 56, below = 30;
    const svg = frame(figure, width, height, `${rows.bars.length} bars, from ${rows.bars[0].when} to ${rows.bars[rows.bars.length - 1].when}.`);
    const start = (name) => new Date(Date.UTC(+name.slice(0, 4), name.length > 4 ? +name.slice(5, 7) - 1 : 0));
    const end = (name) => (rows.unit === "month" ? d3.utcMonth : d3.utcYear).offset(start(name), 1);
    const first = rows.bars[0].when, last = rows.bars[rows.bars.length - 1].when;
    const band = d3.scaleBand().domain(rows.bars.map((row) => row.when)).range([left, width - 1]).paddingInner(0.15);
    const x = d3.scaleUtc().domain([start(first), end(last)]).range([left, width - 1]);
    const y = d3.scaleLinear().domain([0, d3.max(rows.bars, (row) => row.count)]).nice(4).range([height - below, 12]);
    const from = (row) => (rows.sparse ? band(row.when) : x(start(row.when)));
    const wide = (row) => (rows.sparse ? band.bandwidth() : Math.max(x(end(row.when)) - x(start(row.when)), 1));
    svg.append("g").attr("class", "axis").attr("transform", `translate(${left},0)`).attr("aria-hidden", "true")
      .call(d3.axisLeft(y).tickValues(y.ticks(4).filter((value) => value > 0 && Number.isInteger(value))).tickSize(left - width).tickFormat(d3.format(",")))
      .call((axis) => axis.selectAll(".tick line").attr("class", "rule")).call((axis) => axis.select(".domain").remove());
    const marks = svg.selectAll(".mark").data(rows.bars).enter().append("g");
    const thick = (row) => Math.max(wide(row) > 4 ? Math.min(wide(row) - 1, 80) : wide(row), 0.5);
    marks.append("rect").attr("class", "shape bar").attr("x", (row) => from(row) + (wide(row) - thick(row)) / 2).attr("width", thick)
      .attr("y", (row) => Math.min(y(row.count), height - below - 1)).attr("height", (row) => Math.max(height - below - y(row.count), 1));
    svg.append("g").attr("class", "axis").attr("transform", `translate(0,${height - below})`).attr("aria-hidden", "true")
      .call(rows.sparse ? sparseAxis(band, rows.bars, width) : timeAxis(x, start(first), end(last), width))
      .call(inside, rows.sparse ? band : x, width);
    return marks;
  }

  // Names of months stand below the middle of their bars, years where they begin.
  function timeAxis(x, first, last, width) {
    const months = d3.utcMonth.count(first, last), most = Math.max(2, Math.floor(width / 90));
    if (months <= 60) {
      const step = Math.ceil(months / most);
      const middles = d3.utcMonth.range(first, last).filter((month, index) => index % step === 0).map((month) => d3.utcDay.offset(month, 15));
      return d3.axisBottom(x).tickValues(middles).tickFormat(d3.utcFormat("%b %Y"));
    }
    const years = x.ticks(d3.utcYear.every(Math.max(1, Math.ceil(months / 12 / most)))).filter((year) => x(year) < width - 20);
    return d3.axisBottom(x).tickValues(years).tickFormat(d3.utcFormat("%Y"));
  }

  function sparseAxis(band, bars, width) {
    const step = Math.max(1, Math.ceil(bars.length / Math.max(2, Math.floor(width / 90))));
    return d3.axisBottom(band).tickValues(bars.map((row) => row.when).filter((name, index) => index % step === 0));
  }

  function drawKinds(figure, rows, width) {
    const step = 28, left = Math.min(220, Math.round(width * 0.4));
    const svg = frame(figure, width, rows.length * step + 4, `${rows.length} bars.`);
    const x = d3.scaleLinear().domain([0, d3.max(rows, (row) => row.count)]).range([0, width - left - 70]);
    const marks = svg.selectAll(".mark").data(rows).enter().append("g").attr("transform", (row, index) => `translate(0,${index * step + 2})`);
    marks.append("rect").attr("class", (row) => `shape bar ${row.kind}`).attr("x", left).attr("y", 3).attr("height", step - 8)
      .attr("width", (row) => Math.max(x(row.count), 1));
    marks.append("text").attr("x", left - 8).attr("y", 17).attr("text-anchor", "end").attr("aria-hidden", "true").text((row) => row.name)
      .each(function () {
        fit(this, left - 12);
      });
    marks.append("text").attr("x", (row) => left + x(row.count) + 6).attr("y", 17).attr("aria-hidden", "true").text((row) => d3.format(",")(row.count));
    return marks;
  }

  const drawers = { strip: drawStrip, folders: drawTiles, sizes: drawTiles, times: drawTimes, kinds: drawKinds };

  // Draws a picture where its width has changed; on paper the width is that of a page.
  function draw(figure, given) {
    const width = Math.max(280, given || Math.round(figure.querySelector(".canvas").clientWidth));
    const rows = data[figure.dataset.picture];
    if (figure.dataset.width !== String(width)) {
      figure.dataset.width = width;
      speak(figure, drawers[figure.dataset.picture](figure, rows, width));
    }
  }

  // The key of a cell: the number that it was given, or its text.
  function keyOf(row, column) {
    const cell = row.cells[column];
    const key = cell.dataset.key;
    return key !== undefined && key !== "" && !Number.isNaN(Number(key)) ? Number(key) : cell.textContent;
  }

  function sort(table, column, isDown) {
    const body = table.tBodies[0];
    const order = (one, other) => (typeof one === "number" && typeof other === "number" ? one - other : String(one).localeCompare(String(other), "en"));
    const keyed = Array.from(body.rows, (row) => [keyOf(row, column), row]);
    keyed.sort((one, other) => (isDown ? order(other[0], one[0]) : order(one[0], other[0])));
    body.append(...keyed.map(([, row]) => row));
    Array.from(table.tHead.rows[0].cells).forEach((head, index) => {
      if (index === column) {
        head.setAttribute("aria-sort", isDown ? "descending" : "ascending");
      } else {
        head.removeAttribute("aria-sort");
      }
    });
  }

  function letSort(table) {
    Array.from(table.tHead.rows[0].cells).forEach((head, column) => {
      const button = document.createElement("button");
      button.type = "button";
      button.textContent = head.textContent;
      head.replaceChildren(button);
      button.addEventListener("click", () => {
        const is = head.getAttribute("aria-sort");
        sort(table, column, is ? is === "ascending" : head.classList.contains("number"));
      });
    });
  }

  const figures = document.querySelectorAll("figure[data-picture]");
  const observer = new ResizeObserver((seen) => seen.forEach((it) => draw(it.target.parentElement)));
  figures.forEach((figure) => {
    figure.hidden = false;
    draw(figure);
    observer.observe(figure.querySelector(".canvas"));
  });
  window.addEventListener("beforeprint", () => figures.forEach((figure) => draw(figure, 690)));
  window.addEventListener("afterprint", () => figures.forEach((figure) => draw(figure)));
  document.querySelectorAll("table").forEach(letSort);
  document.documentElement.dataset.ready = "yes";
})();
