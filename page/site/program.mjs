// The program: its module is compiled once, and called in workers, so that the page stays alive and a call can be
// stopped.

/** A worker that calls the program. Calls wait for each other. */
export class Caller {
  constructor(module, workerText) {
    this.module = module;
    this.address = URL.createObjectURL(new Blob([workerText], { type: "text/javascript" }));
    this.last = 0;
    this.begin();
  }

  begin() {
    this.pendingCalls = new Map();
    this.worker = new Worker(this.address);
    this.worker.onmessage = ({ data }) => this.finish(data.id, data);
    this.worker.onerror = (event) => {
      event.preventDefault();
      const failed = event.message || "the worker ended";
      for (const id of [...this.pendingCalls.keys()]) this.finish(id, { failed });
    };
    this.worker.postMessage({ module: this.module });
  }

  finish(id, result) {
    const done = this.pendingCalls.get(id);
    this.pendingCalls.delete(id);
    if (done) done(result);
  }

  /** Calls the program on words, files (an object of names to bytes) and input (bytes). What comes back is as from
   * callProgram, or has `failed` with the browser's own words, or `stopped`. */
  call(words, files = {}, input = new Uint8Array()) {
    const id = ++this.last;
    return new Promise((done) => {
      this.pendingCalls.set(id, done);
      this.worker.postMessage({ id, words, files: Object.entries(files), input });
    });
  }

  get isAtWork() {
    return this.pendingCalls.size > 0;
  }

  /** Ends all calls at once. The next one is made by a new worker. */
  stop() {
    this.worker.terminate();
    const callbacks = [...this.pendingCalls.values()];
    this.begin();
    for (const done of callbacks) done({ stopped: true });
  }
}
