/**
 * The strip of time. It shows the battle as a picture, address by time, or as curves: above, the stacked cells of the
 * warriors; below, their processes; between them, splits and ends of processes. Each death has a cross. A slider lies
 * over the strip. A part that is zoomed is painted or sampled again, so it is exact too.
 */
import { BREAK } from "./core.js";
import { drawCurves, drawScale } from "./curves.js";
import { clamp, debounce } from "./dom.js";
import { Picture } from "./picture.js";

/** @typedef {import("../battle/overview.js").Overview} Overview */
/** @typedef {import("./palette.js").Palette} Palette */
/** @typedef {{turn: number, warrior: number}} Death */

/** The least number of turns that are shown, and the height of the scale in pixels. */
const MIN_LENGTH = 12;
const FOOT = 17;

export class Track {
  first = 0;
  last = 0;
  #end = 0;
  #warriors = 0;
  /** @type {Overview | null} */
  #overview = null;
  /** @type {Death[]} */
  #deaths = [];
  /** @type {number[]} */
  #edits = [];
  /**
   * The most processes of each warrior, and the turn in which it had them, which samples may miss.
   * @type {{turn: number, count: number}[]}
   */
  #peaks = [];
  /** @type {number[]} */
  #hits = [];
  /** @type {import("../worker/desk.js").Opened | null} */
  opened = null;
  #request = 0;
  #film = document.createElement("canvas");
  /** @type {unknown[]} */
  #drawn = [];
  /** Where the line of the turn was drawn last, in pixels from the left edge. */
  #line = 0;
  /** Whether curves are shown in place of the picture. */
  hasCurves = false;
  #paint = debounce(() => this.paint(), 90);

  /**
   * @param {HTMLCanvasElement} canvas
   * @param {HTMLInputElement} slider
   * @param {import("./session.js").Session} session
   * @param {() => void} changed
   */
  constructor(canvas, slider, session, changed) {
    this.canvas = canvas;
    this.slider = slider;
    this.ask = (/** @type {number} */ first, /** @type {number} */ last) =>
      session.ofThisBattle(session.desk.overview(session.future, first, last));
    this.changed = changed;
    this.picture = new Picture((frame, from) => session.desk.paint(session.future, frame, from), changed);
  }

  /** @param {boolean} hasCurves */
  showCurves(hasCurves) {
    this.hasCurves = hasCurves;
    this.#drawn = [];
    this.paint();
    this.changed();
    this.#sample();
  }

  /** Paints the turns that are shown, with at most one point for each pixel of the screen. */
  paint() {
    const { clientWidth: width, clientHeight: height } = this.canvas;
    const { opened, first, last } = this;
    if (this.hasCurves || !opened || !width || last === first) return;
    const columns = Math.min(last - first, Math.round(width * devicePixelRatio));
    const rows = Math.min(opened.core, Math.round((height - FOOT) * devicePixelRatio));
    this.picture.paint(`${opened.future} ${opened.end}`, { first, last, columns, rows });
  }

  /** @param {import("../worker/desk.js").Opened} opened */
  open(opened) {
    const { end, deaths, edits, order } = opened;
    this.opened = opened;
    this.#hits = [];
    this.#peaks = [];
    this.#overview = null;
    this.#end = this.last = end;
    this.#deaths = deaths;
    this.#edits = edits.map(({ turn }) => turn);
    this.#warriors = order.length;
    this.first = 0;
    this.picture.clear();
    // The picture is requested later than the turn that is shown first.
    this.#paint();
    this.#sample();
  }

  /**
   * Shows the most processes of each warrior.
   * @param {import("../battle/story.js").Event[]} events
   */
  showPeaks(events) {
    this.#peaks = events.filter(({ kind }) => kind === "most");
    this.#drawn = [];
  }

  /**
   * Marks turns at which playing stops.
   * @param {number[]} hits
   */
  showHits(hits) {
    this.#hits = hits;
  }

  get isWhole() {
    return this.first === 0 && this.last === this.#end;
  }

  /**
   * Shows the turns from one to another.
   * @param {number} first
   * @param {number} last
   */
  async show(first, last) {
    const length = clamp(last - first, Math.min(MIN_LENGTH, this.#end), this.#end);
    this.first = Math.round(clamp(first, 0, this.#end - length));
    this.last = Math.round(this.first + length);
    this.changed();
    this.#paint();
    await this.#sample();
  }

  /** Reads the samples of the turns that are shown, if curves are shown. The old samples stay until then. */
  async #sample() {
    const request = ++this.#request;
    if (!this.hasCurves || !this.opened) return;
    const overview = await this.ask(this.first, this.last);
    if (!overview || request !== this.#request) return;
    this.#overview = overview;
    this.changed();
  }

  /**
   * Shows fewer or more turns than before, around a turn that stays in its place.
   * @param {number} factor by which the number of turns changes: below 1 zooms in
   * @param {number} turn
   */
  zoom(factor, turn) {
    const length = clamp((this.last - this.first) * factor, Math.min(MIN_LENGTH, this.#end), this.#end);
    const first = turn - ((turn - this.first) * length) / Math.max(1, this.last - this.first);
    return this.show(first, first + length);
  }

  /** @param {number} turn */
  #isShown(turn) {
    return turn >= this.first && turn <= this.last;
  }

  /**
   * Moves the part that is shown if a turn is outside of it.
   * @param {number} turn
   */
  follow(turn) {
    if (this.#isShown(turn)) return;
    const length = this.last - this.first;
    const first = turn - length * (turn < this.first ? 0.9 : 0.1);
    this.show(first, first + length);
  }

  /**
   * Returns the turn at the place of an event.
   * @param {MouseEvent} event
   */
  turnAt(event) {
    const { left, width } = this.canvas.getBoundingClientRect();
    return Math.round(this.first + clamp((event.clientX - left) / width, 0, 1) * (this.last - this.first));
  }

  /**
   * Draws the strip with a line at a turn. What has not changed is drawn again only where that line moves.
   * @param {Palette} palette
   * @param {number} turn
   */
  draw(palette, turn) {
    const { clientWidth: width, clientHeight: height } = this.canvas;
    if (!this.opened || !width) return;
    const size = [width, height, devicePixelRatio];
    const film = [...size, palette, this.#overview, this.#hits, this.first, this.last];
    const what = [...film, this.picture.frame, this.picture.painted];
    const isOther = (/** @type {unknown[]} */ some) => some.some((value, index) => value !== this.#drawn[index]);
    const isWhole = isOther(what);
    if (isOther(size)) this.#paint();
    if (isOther(film)) this.#drawFilm(palette, width, height);
    this.#drawn = what;
    const [before, now] = [this.#line, Math.round(this.#across(turn, width))];
    this.#line = now;
    if (isWhole) this.#drawPart(palette, now, 0, width);
    else if (now !== before) this.#drawPart(palette, now, Math.min(before, now) - 1, Math.max(before, now) + 1);
  }

  /**
   * Draws the strip from one column to another, with the line at `now`.
   * @param {Palette} palette
   * @param {number} now
   * @param {number} left
   * @param {number} right
   */
  #drawPart(palette, now, left, right) {
    const { canvas } = this;
    const { clientWidth: width, clientHeight: height } = canvas;
    const context = /** @type {CanvasRenderingContext2D} */ (canvas.getContext("2d"));
    const wide = Math.ceil((right - left) * devicePixelRatio) + 1;
    context.save();
    context.beginPath();
    // A part has whole pixels, so that its edges cannot be seen.
    context.rect(Math.floor(left * devicePixelRatio), 0, wide, canvas.height);
    context.clip();
    context.setTransform(devicePixelRatio, 0, 0, devicePixelRatio, 0, 0);
    context.clearRect(0, 0, width, height);
    if (!this.hasCurves) this.#drawPicture(context, palette, width, height - FOOT);
    context.fillStyle = "rgba(8,10,14,.5)";
    context.fillRect(now, 0, width - now, height - FOOT);
    context.drawImage(this.#film, 0, 0, width, height);
    context.fillStyle = "#fff";
    context.fillRect(now - 1, 0, 2, height - FOOT + 4);
    context.restore();
  }

  /** @param {number} turn */
  moveSlider(turn) {
    this.slider.min = String(this.first);
    this.slider.max = String(this.last);
    this.slider.value = String(turn);
  }

  /**
   * Draws the picture, or, until it is painted, the old one with its turns in their places.
   * @param {CanvasRenderingContext2D} context
   * @param {Palette} palette
   * @param {number} width
   * @param {number} bottom
   */
  #drawPicture(context, palette, width, bottom) {
    const { picture } = this;
    picture.draw(palette);
    if (!picture.frame) return;
    const { first, last, columns, rows } = picture.frame;
    const [left, right] = [first, last].map((turn) => this.#across(turn, width));
    context.imageSmoothingEnabled = columns * devicePixelRatio > right - left;
    context.drawImage(picture.canvas, 0, 0, columns, rows, left, 0, right - left, bottom);
  }

  /**
   * Returns how far a turn is from the left edge, in pixels.
   * @param {number} turn
   * @param {number} width
   */
  #across(turn, width) {
    return 1.5 + ((turn - this.first) / Math.max(1, this.last - this.first)) * (width - 3);
  }

  /**
   * Draws what lies over the picture: curves, the scale, edits, deaths, and where playing stops.
   * @param {Palette} palette
   * @param {number} width
   * @param {number} height
   */
  #drawFilm(palette, width, height) {
    for (const one of [this.canvas, this.#film]) {
      one.width = width * devicePixelRatio;
      one.height = height * devicePixelRatio;
    }
    const context = /** @type {CanvasRenderingContext2D} */ (this.#film.getContext("2d"));
    context.setTransform(devicePixelRatio, 0, 0, devicePixelRatio, 0, 0);
    const bottom = height - FOOT;
    const x = (/** @type {number} */ turn) => this.#across(turn, width);
    const middle = Math.round(bottom * 0.56);
    const drawing = { context, palette, warriors: this.#warriors, width, middle, bottom, x };
    const overview = this.hasCurves && this.#overview;
    if (overview) drawCurves({ ...drawing, overview }, this.#peaks.filter(({ turn }) => this.#isShown(turn)));
    context.fillStyle = "#8793a2";
    drawScale(context, { first: this.first, last: this.last, width, bottom, x });
    this.#drawMoments(drawing);
  }

  /**
   * Draws a line at each edit and each death, and a mark at each turn at which playing stops.
   * @param {import("./curves.js").Drawing} drawing
   */
  #drawMoments({ context, palette, width, bottom, x }) {
    const isShown = (/** @type {number} */ turn) => this.#isShown(turn);
    context.fillStyle = BREAK;
    for (const turn of this.#hits.filter(isShown)) context.fillRect(x(turn) - 1, bottom - 2, 2, 6);
    const line = (/** @type {number} */ turn, /** @type {string} */ colour, /** @type {number[]} */ dash) => {
      context.setLineDash(dash);
      context.strokeStyle = colour;
      context.lineWidth = 1.5;
      context.stroke(new Path2D(`M${x(turn)} 13V${bottom}`));
    };
    for (const turn of this.#edits.filter(isShown)) line(turn, "rgba(255,255,255,.6)", [2, 3]);
    for (const { turn, warrior } of this.#deaths.filter((death) => isShown(death.turn))) {
      line(turn, palette.mark[warrior], []);
      context.lineWidth = 2;
      context.stroke(new Path2D(`M${clamp(x(turn), 5, width - 6) - 4} 3l8 8m0-8l-8 8`));
    }
  }
}
