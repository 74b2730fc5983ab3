// Draws a range's list as a lane of items on a canvas, and only what is in view, so that long lists scroll.
"use strict";

const Lanes = (() => {
  const WIDTH = 18;
  const HEIGHT = 46;

  const style = (name) => getComputedStyle(document.documentElement).getPropertyValue(name).trim();

  /** The colour of a client: hues far apart for neighbours. */
  const clientColour = (client) => `hsl(${(client * 137.5) % 360} 62% ${style("--client-lightness") || "52%"})`;

  const drawSplit = (context, left) => {
    context.fillStyle = style("--ink");
    context.beginPath();
    context.moveTo(left + 5, 30);
    context.lineTo(left + 9, 38);
    context.lineTo(left + 13, 30);
    context.fill();
  };

  const drawItem = (context, item, left) => {
    const top = 8;
    if (item.kind === "pass") {
      context.fillStyle = style("--passed");
      context.fillRect(left + 2, top + 12, WIDTH - 4, 8);
      return;
    }
    if (item.kind === "lease") {
      context.strokeStyle = style("--lease");
      context.lineWidth = 2.5;
      context.strokeRect(left + 4, top + 6, WIDTH - 8, 18);
      return;
    }
    context.fillStyle = clientColour(item.of.client);
    context.fillRect(left + 2, top, WIDTH - 4, 30);
    if (item.kind === "split") drawSplit(context, left);
  };

  const drawMark = (context, left, colour, width) => {
    context.strokeStyle = colour;
    context.lineWidth = width;
    context.strokeRect(left + 1, 4, WIDTH - 2, HEIGHT - 10);
  };

  /** Sizes a canvas for the screen's pixels and gives its context. */
  const prepared = (canvas, width) => {
    const ratio = window.devicePixelRatio || 1;
    if (canvas.width !== Math.round(width * ratio)) {
      canvas.width = Math.round(width * ratio);
      canvas.height = Math.round(HEIGHT * ratio);
      canvas.style.width = `${width}px`;
      canvas.style.height = `${HEIGHT}px`;
    }
    const context = canvas.getContext("2d");
    context.setTransform(ratio, 0, 0, ratio, 0, 0);
    context.clearRect(0, 0, width, HEIGHT);
    return context;
  };

  /**
   * A lane for a list. `choose(item)` is called where an item is clicked, or reached with the arrow keys.
   * `show(item)` of the result marks an item and brings it into view; `fault` holds items drawn in red.
   */
  const make = (list, choose, faults) => {
    const scroller = document.createElement("div");
    scroller.className = "lane";
    scroller.tabIndex = 0;
    scroller.setAttribute("role", "listbox");
    scroller.setAttribute("aria-label", `${list.length} records; arrow keys go from one to the next`);
    const canvas = document.createElement("canvas");
    const space = document.createElement("div");
    space.style.width = `${list.length * WIDTH}px`;
    space.className = "space";
    scroller.append(canvas, space);
    let chosen = -1;

    const draw = () => {
      const width = scroller.clientWidth;
      if (width === 0) return;
      const context = prepared(canvas, width);
      const first = Math.floor(scroller.scrollLeft / WIDTH);
      const last = Math.min(list.length, first + Math.ceil(width / WIDTH) + 1);
      for (let place = first; place < last; place += 1) {
        const left = place * WIDTH - scroller.scrollLeft;
        drawItem(context, list[place], left);
        if (faults.has(list[place])) drawMark(context, left, style("--fault"), 3);
        if (place === chosen) drawMark(context, left, style("--ink"), 2);
      }
      scroller.dataset.drawn = String(last - first);
    };

    const reveal = (place) => {
      const left = place * WIDTH;
      if (left < scroller.scrollLeft || left + WIDTH > scroller.scrollLeft + scroller.clientWidth) {
        scroller.scrollLeft = Math.max(0, left - scroller.clientWidth / 2);
      }
    };

    const select = (place) => {
      if (place < 0 || place >= list.length) return;
      chosen = place;
      reveal(place);
      draw();
      choose(list[place]);
    };

    scroller.addEventListener("scroll", () => requestAnimationFrame(draw));
    const placeAt = (event) => Math.floor(
      (event.clientX - scroller.getBoundingClientRect().left + scroller.scrollLeft) / WIDTH);
    scroller.addEventListener("click", (event) => select(placeAt(event)));
    scroller.addEventListener("mousemove", (event) => {
      const item = list[placeAt(event)];
      scroller.title = item ? `${item.index}: ${item.text}` : "";
    });
    scroller.addEventListener("keydown", (event) => {
      const step = { ArrowRight: 1, ArrowLeft: -1, PageDown: 25, PageUp: -25 }[event.key];
      if (step === undefined) return;
      event.preventDefault();
      select(Math.max(0, Math.min(list.length - 1, chosen + step)));
    });
    new ResizeObserver(draw).observe(scroller);

    const show = (item) => {
      chosen = list.indexOf(item);
      if (chosen >= 0) reveal(chosen);
      draw();
    };
    const clear = () => {
      chosen = -1;
      draw();
    };
    return { element: scroller, draw, show, clear };
  };

  return { make, clientColour };
})();
