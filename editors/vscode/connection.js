'use strict';

/** The messages of the Language Server Protocol 3.17, over the standard streams of a server. */
class Connection {
  /** `received` is called with the method and the parameters of each notification of the server. */
  constructor(server, received) {
    this.output = server.stdin;
    this.received = received;
    this.waiting = new Map();
    this.lastId = 0;
    this.chunks = [];
    this.size = 0;
    this.needed = 0;
    server.stdout.on('data', (chunk) => this.read(chunk));
  }

  send(message) {
    const body = Buffer.from(JSON.stringify({ jsonrpc: '2.0', ...message }));
    this.output.write(Buffer.concat([Buffer.from(`Content-Length: ${body.length}\r\n\r\n`), body]));
  }

  notify(method, params) {
    this.send({ method, params });
  }

  /** Returns a promise of the result. It is rejected if the server reports an error, or ends before. */
  request(method, params) {
    const id = ++this.lastId;
    return new Promise((resolve, reject) => {
      this.waiting.set(id, { resolve, reject });
      this.send({ id, method, params });
    });
  }

  /** Rejects what still waits. */
  end(error) {
    for (const { reject } of this.waiting.values()) {
      reject(error);
    }
    this.waiting.clear();
  }

  // Collects bytes, and handles each message that is complete.
  read(chunk) {
    this.chunks.push(chunk);
    this.size += chunk.length;
    while (this.size > 0 && this.size >= this.needed) {
      const bytes = Buffer.concat(this.chunks);
      const start = bytes.indexOf('\r\n\r\n') + 4;
      const length = /^content-length: *(\d+)/im.exec(bytes.toString('latin1', 0, Math.max(start, 0)));
      this.needed = length ? start + Number(length[1]) : this.size + 1;
      this.chunks = [bytes];
      if (bytes.length < this.needed) {
        return;
      }
      const message = JSON.parse(bytes.toString('utf8', start, this.needed));
      this.chunks = [bytes.subarray(this.needed)];
      this.size = bytes.length - this.needed;
      this.needed = 0;
      this.accept(message);
    }
  }

  accept(message) {
    if (message.method !== undefined) {
      this.received(message.method, message.params);
      return;
    }
    const waiting = this.waiting.get(message.id);
    this.waiting.delete(message.id);
    if (waiting && message.error) {
      waiting.reject(new Error(message.error.message));
    } else if (waiting) {
      waiting.resolve(message.result);
    }
  }
}

module.exports = { Connection };
