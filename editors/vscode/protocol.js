// The Language Server Protocol over the standard input and output of a server, which is started again when it ends.
"use strict";
const { spawn } = require("child_process");

const MOST_STARTS = 5;

class Server {
  // `told(method, params)` is called for each notification, `begun()` after each start, `failed(words)` if none helps.
  constructor(command, told, begun, failed) {
    Object.assign(this, { command, told, begun, failed, starts: 0, count: 0, waiting: new Map(), isEnded: false });
    this.start();
  }

  start() {
    this.starts += 1;
    this.held = Buffer.alloc(0);
    this.child = spawn(this.command, [], { stdio: ["pipe", "pipe", "ignore"] });
    this.child.on("error", (error) => this.lost(error.message));
    this.child.on("exit", (status) => this.lost(`it ended with status ${status}`));
    this.child.stdin.on("error", () => {});
    this.child.stdout.on("data", (data) => this.take(data));
    const capabilities = {
      textDocument: {
        hover: { contentFormat: ["markdown"] },
        documentSymbol: { hierarchicalDocumentSymbolSupport: true },
      },
    };
    this.request("initialize", { processId: process.pid, rootUri: null, capabilities }).then(() => {
      this.notify("initialized", {});
      this.begun();
    }, () => {});
  }

  lost(why) {
    const child = this.child;
    if (child === null) return;
    this.child = null;
    for (const { refuse } of this.waiting.values()) refuse(new Error(why));
    this.waiting.clear();
    if (this.isEnded) return;
    if (this.starts < MOST_STARTS) setTimeout(() => this.isEnded || this.start(), 500 * this.starts);
    else this.failed(`${this.command}: ${why}`);
  }

  take(data) {
    this.held = Buffer.concat([this.held, data]);
    for (;;) {
      const end = this.held.indexOf("\r\n\r\n");
      if (end < 0) return;
      const length = Number(/Content-Length: *(\d+)/i.exec(this.held.toString("ascii", 0, end))[1]);
      if (this.held.length < end + 4 + length) return;
      const message = JSON.parse(this.held.toString("utf8", end + 4, end + 4 + length));
      this.held = this.held.subarray(end + 4 + length);
      this.answer(message);
    }
  }

  answer(message) {
    if (message.method !== undefined) {
      this.told(message.method, message.params);
      return;
    }
    const asked = this.waiting.get(message.id);
    this.waiting.delete(message.id);
    if (asked === undefined) return;
    if (message.error) asked.refuse(new Error(message.error.message));
    else asked.give(message.result);
  }

  send(message) {
    if (this.child === null) return;
    const body = Buffer.from(JSON.stringify({ jsonrpc: "2.0", ...message }));
    this.child.stdin.write(`Content-Length: ${body.length}\r\n\r\n`);
    this.child.stdin.write(body);
  }

  notify(method, params) {
    this.send({ method, params });
  }

  request(method, params) {
    if (this.child === null) return Promise.reject(new Error("the server does not run"));
    this.count += 1;
    const id = this.count;
    this.send({ id, method, params });
    return new Promise((give, refuse) => this.waiting.set(id, { give, refuse }));
  }

  end() {
    this.isEnded = true;
    this.request("shutdown", null).then(() => this.notify("exit", null), () => {});
    const child = this.child;
    if (child !== null) setTimeout(() => child.kill(), 2000).unref();
  }
}

module.exports = { Server };
