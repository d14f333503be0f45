// What is looked for on a page in the browser: each function gives a list of what is wrong, or what was asked.
globalThis.look = (() => {
  const all = (selector, within = document) => Array.from(within.querySelectorAll(selector));
  const data = JSON.parse(document.getElementById("data").textContent);
  const rowsOf = { strip: (rows) => [...rows.parts, ...rows.lost, ...rows.broken], times: (rows) => rows.bars };

  // As many marks in each picture as its data has rows, each with the words of its row.
  function marks() {
    return all("figure[data-picture]").flatMap((figure) => {
      const name = figure.dataset.picture;
      const rows = (rowsOf[name] || ((it) => it))(data[name]);
      const drawn = all(".mark", figure);
      const words = (list) => [...list].sort().join("\n");
      const isSame = words(rows.map((row) => row.what)) === words(drawn.map((mark) => mark.getAttribute("aria-label")));
      return drawn.length === rows.length && isSame ? [] : [`${name} has ${drawn.length} marks for ${rows.length} rows`];
    });
  }

  // No two labels of a picture lie on one another, and none leaves the picture.
  function labels() {
    return all("figure[data-picture] svg").flatMap((svg) => {
      const frame = svg.getBoundingClientRect();
      const boxes = all("text", svg).filter((text) => text.textContent).map((text) => [text.textContent, text.getBoundingClientRect()]);
      const out = boxes.filter(([, box]) => box.left < frame.left - 2 || box.right > frame.right + 2 || box.bottom > frame.bottom + 2);
      const on = boxes.filter(([, one], at) => boxes.slice(at + 1).some(([, other]) => one.left + 1 < other.right && other.left + 1 < one.right
        && one.top + 3 < other.bottom && other.top + 3 < one.bottom));
      return [...out.map(([text]) => `${text} leaves the picture`), ...on.map(([text]) => `${text} lies on another label`)];
    });
  }

  const linear = (part) => (part / 255 <= 0.04045 ? part / 255 / 12.92 : ((part / 255 + 0.055) / 1.055) ** 2.4);
  const light = ([red, green, blue]) => 0.2126 * linear(red) + 0.7152 * linear(green) + 0.0722 * linear(blue);
  const parts = (colour) => colour.match(/[\d.]+/g).map(Number);
  const isClear = (colour) => colour === "transparent" || colour === "none" || parts(colour)[3] === 0;

  // The colour behind an element; of a text in a picture, that of the shape of its mark.
  function behind(element) {
    const shape = element.closest(".mark") && element.closest(".mark").querySelector(".shape");
    if (shape && !shape.closest(".kinds")) {
      return getComputedStyle(shape).fill;
    }
    for (let at = element; at; at = at.parentElement) {
      const colour = getComputedStyle(at).backgroundColor;
      if (!isClear(colour)) {
        return colour;
      }
    }
    return "rgb(255, 255, 255)";
  }

  // Each text has a contrast of 4.5 or more.
  function contrast() {
    const found = new Set();
    all("body *").filter((it) => Array.from(it.childNodes).some((node) => node.nodeType === 3 && node.data.trim())).forEach((it) => {
      if (it.closest("script, style, title, desc") || !it.getClientRects().length || it.closest(".skip")) {
        return;
      }
      const style = getComputedStyle(it);
      const [one, other] = [light(parts(it instanceof SVGElement ? style.fill : style.color)), light(parts(behind(it)))].sort((a, b) => b - a);
      const ratio = (one + 0.05) / (other + 0.05);
      if (ratio < 4.5) {
        found.add(`contrast ${ratio.toFixed(2)}: ${it.tagName} ${it.className.baseVal ?? it.className} ${it.textContent.slice(0, 30)}`);
      }
    });
    return [...found];
  }

  // What a reader who sees no pictures needs: names, captions, headings in order, identifiers that are there once.
  function names() {
    const wrong = [];
    const say = (list, text) => list.forEach((it) => wrong.push(`${text}: ${it.outerHTML.slice(0, 80)}`));
    const named = (it) => (it.getAttribute("aria-labelledby") || "").split(" ").map((id) => document.getElementById(id))
      .map((at) => (at ? at.textContent : "")).join("") || it.getAttribute("aria-label") || it.textContent.trim();
    say(all("svg").filter((it) => !it.querySelector("title") || !it.querySelector("desc") || !named(it)), "a picture without a title");
    say(all("table").filter((it) => !it.caption || all("th", it.tHead).some((head) => head.scope !== "col")), "a table without caption or scope");
    say(all("a, button, [tabindex], section, nav").filter((it) => !named(it)), "without a name");
    say(all("[tabindex]").filter((it) => it.tabIndex > 0), "out of order");
    say(all("[id]").filter((it) => all(`[id="${CSS.escape(it.id)}"]`).length > 1), "an identifier that is there twice");
    say(all("a[href^='#']").filter((it) => !document.getElementById(it.hash.slice(1))), "leads nowhere");
    const levels = all("h1, h2, h3, h4").map((it) => Number(it.tagName[1]));
    if (levels.filter((it) => it === 1).length !== 1 || levels.some((it, at) => at && it > levels[at - 1] + 1)) {
      wrong.push(`headings ${levels}`);
    }
    if (!document.documentElement.lang || !document.title || all("main").length !== 1) {
      wrong.push("no language, title or main");
    }
    return wrong;
  }

  // Each column of each table, sorted by its button up and down.
  function sorting() {
    return all("table").flatMap((table) => all("thead button", table).flatMap((button, column) => [1, 2].flatMap(() => {
      button.click();
      const is = button.closest("th").getAttribute("aria-sort");
      const cells = Array.from(table.tBodies[0].rows, (row) => row.cells[column]);
      const isNumeric = cells.every((cell) => cell.dataset.key !== undefined && cell.dataset.key !== "");
      const keys = cells.map((cell) => (isNumeric ? Number(cell.dataset.key) : cell.textContent));
      const order = (one, other) => (isNumeric ? one - other : one.localeCompare(other, "en"));
      const isSorted = keys.every((key, at) => !at || (is === "ascending" ? order(keys[at - 1], key) : order(key, keys[at - 1])) <= 0);
      const count = all("th[aria-sort]", table).length;
      return isSorted && count === 1 && cells.length === Number(table.dataset.rows) ? [] : [`${table.id}, column ${column}, ${is}`];
    })));
  }

  // Nothing is wider than the page.
  function width() {
    const page = document.documentElement;
    return page.scrollWidth > page.clientWidth ? [`the page is ${page.scrollWidth} wide in ${page.clientWidth}`] : [];
  }

  return { data, marks, labels, contrast, names, sorting, width, all };
})();
