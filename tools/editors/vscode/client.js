"use strict";
// A client of the language server: JSON-RPC over the standard input and output of a process.
const { spawn } = require("child_process");

class Client {
  // Starts the server. `notified` gets the method and the parameters of each notification, `ended` why it has ended.
  constructor(command, notified, ended) {
    this.notified = notified;
    this.waiting = new Map();
    this.number = 0;
    this.data = Buffer.alloc(0);
    this.process = spawn(command[0], command.slice(1), { stdio: ["pipe", "pipe", "inherit"] });
    this.process.on("error", (why) => this.end(why.message, ended));
    this.process.on("exit", (status) => this.end(`status ${status}`, ended));
    this.process.stdin.on("error", () => undefined);
    this.process.stdout.on("data", (data) => this.take(data));
  }

  end(why, ended) {
    for (const { reject } of this.waiting.values()) reject(new Error(why));
    this.waiting.clear();
    ended(why);
  }

  send(message) {
    const data = Buffer.from(JSON.stringify({ jsonrpc: "2.0", ...message }));
    this.process.stdin.write(`Content-Length: ${data.length}\r\n\r\n`);
    this.process.stdin.write(data);
  }

  notify(method, params) {
    this.send({ method, params });
  }

  ask(method, params) {
    this.number += 1;
    const id = this.number;
    return new Promise((resolve, reject) => {
      this.waiting.set(id, { resolve, reject });
      this.send({ id, method, params });
    });
  }

  take(data) {
    this.data = Buffer.concat([this.data, data]);
    for (;;) {
      const head = this.data.indexOf("\r\n\r\n");
      const length = head < 0 ? null : /content-length: *(\d+)/i.exec(this.data.toString("latin1", 0, head));
      if (!length || this.data.length < head + 4 + Number(length[1])) return;
      const end = head + 4 + Number(length[1]);
      const message = JSON.parse(this.data.toString("utf8", head + 4, end));
      this.data = this.data.subarray(end);
      this.handle(message);
    }
  }

  handle(message) {
    const asked = this.waiting.get(message.id);
    if (message.method) {
      this.notified(message.method, message.params);
    } else if (asked) {
      this.waiting.delete(message.id);
      if (message.error) asked.reject(new Error(message.error.message.replace(/^\S+: \w+: /, "")));
      else asked.resolve(message.result);
    }
  }

  async stop() {
    await this.ask("shutdown", {}).catch(() => undefined);
    this.notify("exit", {});
  }
}

module.exports = { Client };
