// Messages with their lengths before them, as the Language Server Protocol has them: lines of a head, of which `Content-Length` says how
// many bytes are after the empty line.

// How many bytes a message and its head have at most.
const MOST = 2 ** 24, MOST_HEAD = 2 ** 12;
const END = Buffer.from('\r\n\r\n');
const LENGTH = /^content-length[ \t]*:[ \t]*([0-9]{1,15})[ \t]*$/i, FIELD = /^[!-9;-~]+[ \t]*:[^\r\n]*$/;

/** What comes is no message. If it is the last one, it is not known where the next one begins. */
export class FrameError extends Error {
  constructor(reason, isLast) {
    super(reason);
    this.isLast = isLast;
  }
}

/** The messages of a stream. No more is kept than one of them, and what came with it. */
export class Frames {
  #chunks;
  #came = Buffer.alloc(0);
  // How many bytes of a message are left that is too long.
  #skipped = 0;

  constructor(stream) {
    this.#chunks = stream[Symbol.asyncIterator]();
  }

  /** Whether something of the next message came. */
  get hasMore() { return this.#came.length > 0; }

  /** Returns the next message, or null at the end. */
  async next() {
    await this.#skip();
    const head = await this.#head();
    if (head === null) return null;
    const length = lengthOf(head);
    if (length <= MOST) return this.#body(length);
    this.#skipped = length;
    throw new FrameError(`a message has more than ${MOST} bytes`, false);
  }

  /** Reads on. Returns whether something came. */
  async #more() {
    const { value, done } = await this.#chunks.next();
    if (!done) this.#came = this.#came.length > 0 ? Buffer.concat([this.#came, value]) : value;
    return !done;
  }

  async #expectMore() {
    if (!await this.#more()) throw new FrameError('the input ends in a message', true);
  }

  /** Takes at most so many bytes of what came. */
  #taken(most) {
    const found = this.#came.subarray(0, most);
    this.#came = this.#came.subarray(found.length);
    return found;
  }

  /** Leaves out the rest of a message that is too long. */
  async #skip() {
    while (this.#skipped > 0) {
      if (!this.hasMore) await this.#expectMore();
      this.#skipped -= this.#taken(this.#skipped).length;
    }
  }

  /** Returns the lines of the next head, or null at the end. */
  async #head() {
    if (!this.hasMore && !await this.#more()) return null;
    for (;;) {
      const end = this.#came.subarray(0, MOST_HEAD).indexOf(END);
      if (end >= 0) return this.#taken(end + END.length).toString('latin1', 0, end);
      if (this.#came.length >= MOST_HEAD) throw new FrameError(`a head has more than ${MOST_HEAD} bytes`, true);
      await this.#expectMore();
    }
  }

  /** Returns a message of this length. */
  async #body(length) {
    const data = Buffer.alloc(length);
    for (let at = 0; ;) {
      at += this.#taken(length - at).copy(data, at);
      if (at === length) return data;
      await this.#expectMore();
    }
  }
}

/** Returns the length that a head says. */
function lengthOf(head) {
  const lines = head.split('\r\n');
  if (!lines.every(line => FIELD.test(line))) throw new FrameError('a line of a head is not `name: value`', true);
  const found = lines.map(line => LENGTH.exec(line)).filter(match => match !== null);
  if (found.length !== 1) throw new FrameError('a head has one `Content-Length`, which is a number', true);
  return Number(found[0][1]);
}

/** Returns a message with its head. */
export function framed(message) {
  const data = Buffer.from(JSON.stringify(message));
  return Buffer.concat([Buffer.from(`Content-Length: ${data.length}\r\n\r\n`), data]);
}
