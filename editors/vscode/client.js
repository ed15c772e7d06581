// A client of the Language Server Protocol: a server's frames over its standard input and output,
// requests and their answers. It knows nothing of an editor.
'use strict';

const { spawn } = require('child_process');

// What an error's code says where nobody waits for the answer any more.
const OUTDATED = [-32800, -32801, -32802];
const UNKNOWN = -32601;

class Client {
  // Starts a server by its words. `on` has calls for what comes from it: `notification(method,
  // params)`, `request(method, params)`, which gives the answer or undefined, `said(text)` for what
  // it writes to standard error, and `end(reason)` where it ends without being asked to.
  constructor(words, folder, on) {
    this.on = on;
    this.waiting = new Map();
    this.count = 0;
    this.rest = Buffer.alloc(0);
    this.hasEnded = this.isStopped = false;
    this.process = spawn(words[0], words.slice(1), { cwd: folder });
    this.ended = new Promise((resolve) => {
      this.tellEnd = resolve;
    });
    this.process.on('error', (error) => this.end(error.message));
    this.process.on('exit', (status, signal) => this.end(`it ended with ${signal || status}`));
    this.process.stdin.on('error', () => {}); // (the process tells its end)
    this.process.stdout.on('data', (data) => this.take(data));
    this.process.stderr.on('data', (data) => on.said(data.toString()));
  }

  end(reason) {
    if (this.hasEnded) {
      return;
    }
    this.hasEnded = true;
    this.waiting.forEach(({ reject }) => reject(new Error(reason)));
    this.waiting.clear();
    this.tellEnd();
    if (!this.isStopped) {
      this.on.end(reason);
    }
  }

  // Ends a server that doesn't speak the protocol.
  refuse(reason) {
    this.end(reason);
    this.process.kill();
  }

  // Takes the frames that have come as a whole.
  take(data) {
    this.rest = Buffer.concat([this.rest, data]);
    while (!this.hasEnded) {
      const end = this.rest.indexOf('\r\n\r\n');
      if (end < 0) {
        return;
      }
      const length = /^Content-Length: *(\d+)/im.exec(this.rest.toString('latin1', 0, end));
      if (!length) {
        this.refuse('it wrote what is no frame');
        return;
      }
      const last = end + 4 + Number(length[1]);
      if (this.rest.length < last) {
        return;
      }
      const body = this.rest.toString('utf8', end + 4, last);
      this.rest = this.rest.subarray(last);
      let message;
      try {
        message = JSON.parse(body);
      } catch (error) {
        this.refuse(error.message);
        return;
      }
      this.receive(message);
    }
  }

  async receive({ id, method, params, result, error }) {
    if (method === undefined) {
      const asked = this.waiting.get(id);
      this.waiting.delete(id);
      if (asked && error) {
        asked.reject(Object.assign(new Error(error.message), { code: error.code }));
      } else if (asked) {
        asked.resolve(result);
      }
    } else if (id === undefined) {
      this.on.notification(method, params);
    } else {
      const given = await this.on.request(method, params);
      const unknown = { code: UNKNOWN, message: `there is no ${method} here` };
      this.send(given === undefined ? { id, error: unknown } : { id, result: given });
    }
  }

  send(message) {
    if (!this.hasEnded && this.process.stdin.writable) {
      const body = JSON.stringify({ jsonrpc: '2.0', ...message });
      this.process.stdin.write(`Content-Length: ${Buffer.byteLength(body)}\r\n\r\n${body}`);
    }
  }

  notify(method, params) {
    this.send({ method, params });
  }

  // The answer to a request; undefined where the token cancels it, or what it asks about is gone.
  async request(method, params, token) {
    if (this.hasEnded) {
      throw new Error('the server has ended');
    }
    const id = ++this.count;
    const answer = new Promise((resolve, reject) => this.waiting.set(id, { resolve, reject }));
    this.send({ id, method, params });
    const cancelled =
      token && token.onCancellationRequested(() => this.notify('$/cancelRequest', { id }));
    try {
      return await answer;
    } catch (error) {
      if (!OUTDATED.includes(error.code)) {
        throw error;
      }
      return undefined;
    } finally {
      if (cancelled) {
        cancelled.dispose();
      }
    }
  }

  // Asks the server to end, and ends it where it doesn't within two seconds.
  async stop() {
    this.isStopped = true;
    if (this.hasEnded) {
      return;
    }
    const late = setTimeout(() => this.process.kill(), 2000);
    await this.request('shutdown').catch(() => {});
    this.notify('exit');
    await this.ended;
    clearTimeout(late);
  }
}

module.exports = { Client };
