/** A run that goes on: its lines come from the server, and the page grows with them. Nothing is sent to the server. */
import * as Dom from "./dom.js";
import * as Trace from "./trace.js";

const { byId } = Dom;

class Live {
  /** Asks for the lines of the run from the first one on. A connection that breaks is taken up where it was. */
  constructor(page, run, reader) {
    Object.assign(this, { page, run, reader, isFollowing: true, waiting: "" });
    byId("live").hidden = false;
    this.show("waiting");
    this.take = Dom.eachFrame(() => this.readOn());
    this.source = new EventSource("events");
    this.source.addEventListener("open", () => this.show("live"));
    this.source.addEventListener("error", () => this.show("waiting"));
    this.source.addEventListener("message", (event) => {
      this.waiting += `${event.data}\n`;
      this.take();
    });
    this.source.addEventListener("end", (event) => this.end(JSON.parse(event.data)));
  }

  /** Reads the lines that came since the last frame. */
  readOn() {
    const text = this.waiting;
    this.waiting = "";
    if (text === "" || this.isBroken) return;
    this.run.append(text);
    try {
      this.reader.readOn();
    } catch (fault) {
      if (!(fault instanceof Trace.TraceFault)) throw fault;
      this.isBroken = true;
      this.source.close();
      return this.page.misfit(fault, { trace: this.run.text });
    }
    this.page.grown();
  }

  /** Shows with which status the command ended, and what of a last line was there. */
  end({ exit, cut }) {
    this.source.close();
    this.readOn();
    this.show("ended");
    if (this.isBroken) return;
    if (cut !== "") this.run.cut = cut;
    this.page.showCut();
    if (exit !== null) this.page.showNames({ ...this.page.data, exit });
  }

  close() {
    this.source.close();
    this.isBroken = true;
    byId("live").hidden = true;
  }

  show(state) {
    byId("live").dataset.state = state;
    byId("live-word").textContent = { waiting: "Waiting", live: "Live", ended: "Ended" }[state];
  }

  /** Whether the page goes on to each new event. */
  setFollowing(isFollowing) {
    this.isFollowing = isFollowing;
    byId("live").setAttribute("aria-pressed", String(isFollowing));
  }
}

export { Live };
