const MOST_HEIGHT = 8000000;     // a browser does not lay out much higher elements

/** Maps the place of a scroll bar to that in a table which is higher than a browser lays out, exactly for small moves. */
class Heights {
  constructor(box) {
    this.box = box;
    this.set(0);
  }

  /** The whole height changes. */
  set(height) {
    this.full = height;
    this.laid = Math.min(height, MOST_HEIGHT);
    this.part = this.laid / 100;
    this.parts = Math.max(1, Math.ceil(height / this.part) || 1);
    this.jump = this.parts > 1 ? (height - this.laid) / (this.parts - 1) : 0;
    this.at = this.offset = this.last = 0;
  }

  /** The place in the whole height. */
  top() {
    const now = this.box.scrollTop, view = this.box.clientHeight;
    if (this.jump && now !== this.last) {
      const near = Math.abs(now - this.last) < view;
      const at = near ? Math.floor((now + this.offset) / this.part)
        : Math.floor(now * (this.full - view) / (this.laid - view) / this.part);
      this.last = now;
      this.move(Math.min(Math.max(at, 0), this.parts - 1), near);
    }
    return this.box.scrollTop + this.offset;
  }

  /** Takes another part; near moves keep the place, so the scroll bar is set back by what the part adds. */
  move(at, near) {
    const offset = Math.round(at * this.jump);
    if (near && offset !== this.offset) {
      this.last = this.box.scrollTop = this.last + this.offset - offset;
    }
    this.at = at;
    this.offset = offset;
  }

  /** Goes to a place in the whole height. */
  to(place) {
    this.at = Math.min(Math.max(Math.floor(place / this.part) || 0, 0), this.parts - 1);
    this.offset = Math.round(this.at * this.jump);
    this.box.scrollTop = place - this.offset;
    this.last = this.box.scrollTop;
  }
}
