/** The machine: a session that stays in the memory of the WebAssembly module, and the calls to it. */

/** The numbers of the calls, as docs/EMBEDDING.md has them. */
export const FINE = 0, MEMORY = 8, BUFFER = 9, LINE_TOO_LONG = 14, NO_SESSION = 17, NO_FUNCTION = 18, LINE_FEED = 19;
const MOST = 1n << 30n;         // bytes of memory, at most
const PIECE = 1 << 18;          // bytes that are taken at once
const encoder = new TextEncoder();

/** Memory was refused before a call was made. */
export class OutOfMemory extends Error {}

export class Machine {
    /** The module's exports. */
    calls;
    #rooms = new Map();
    #place;
    #size;

    constructor(module, most = MOST) {
        this.calls = new WebAssembly.Instance(module).exports;
        this.calls.apl_most(most);
        this.#place = this.calls.apl_place();
        this.#size = this.#room('size', 8);
        if (this.#place === 0n) throw new OutOfMemory();
    }

    /** The bytes at an address. To be asked anew after each call, which may have made the memory larger. */
    #view(at, size) {
        return new Uint8Array(this.calls.memory.buffer, Number(at), size);
    }

    /** A room of at least this size, which stays its name's. */
    #room(name, size) {
        const had = this.#rooms.get(name);
        if (had && had.size >= size) return had.at;
        if (had) this.calls.apl_free(had.at);
        this.#rooms.delete(name);
        const at = this.calls.apl_room(BigInt(size));
        if (at === 0n) throw new OutOfMemory();
        this.#rooms.set(name, { at, size });
        return at;
    }

    /** Lays bytes into the memory, and returns their address and their number. */
    #lay(bytes) {
        const at = this.#room('in', Math.max(bytes.length, 2000));
        this.#view(at, bytes.length).set(bytes);
        return [at, BigInt(bytes.length)];
    }

    #told() {
        return Number(new DataView(this.calls.memory.buffer, Number(this.#size), 8).getBigUint64(0, true));
    }

    /** Makes a call that lays bytes into a buffer, again with a larger one where that is asked for. */
    #filled(call) {
        for (let size = PIECE; ;) {
            const at = this.#room('out', size), number = call(at, BigInt(size), this.#size);
            if (number === BUFFER) size = this.#told();
            else return { number, bytes: number === FINE ? this.#view(at, this.#told()).slice() : null };
        }
    }

    #text(call) {
        const { number, bytes } = this.#filled(call);
        return { number, text: bytes && new TextDecoder().decode(bytes) };
    }

    /** Opens a workspace's file, or a clear workspace where there are no bytes. */
    open(bytes) {
        return this.calls.page_open(...this.#lay(bytes), this.#place);
    }

    /** Types a line, whose steps are still to be made. */
    type(line) {
        return this.typeBytes(encoder.encode(line));
    }

    typeBytes(bytes) {
        return this.calls.page_type(this.#place, ...this.#lay(bytes));
    }

    advance(steps) {
        return this.calls.page_advance(this.#place, BigInt(steps));
    }

    interrupt() {
        return this.calls.page_interrupt(this.#place);
    }

    isIdle() {
        return this.calls.page_is_idle(this.#place) !== 0;
    }

    /** The number of the next line of the definition that is open, or 0. */
    nextLine() {
        return Number(this.calls.page_next_line(this.#place));
    }

    /** The number of the fault that what was typed has ended with, as long as its report isn't gathered, or 0. */
    fault() {
        return this.calls.page_fault(this.#place);
    }

    /** Spells what was written since, to be taken. */
    gather() {
        return this.calls.page_gather(this.#place, this.#size);
    }

    /** Takes what waits, a piece after the other. A piece may end within a character. */
    *pieces() {
        for (;;) {
            const at = this.#room('out', PIECE), count = Number(this.calls.page_take(this.#place, at, BigInt(PIECE)));
            if (count > 0) yield this.#view(at, count).slice();
            if (count < PIECE) return;
        }
    }

    /** The file of the workspace. */
    save() {
        return this.#filled((...buffer) => this.calls.page_save(this.#place, ...buffer));
    }

    /** A line for each name that has a value: `∇ ` and the header of a function; or the name, N or C, and the lengths of the axes. */
    names() {
        return this.#text((...buffer) => this.calls.page_names(this.#place, ...buffer));
    }

    /** The lines of )SI. */
    levels() {
        return this.#text((...buffer) => this.calls.page_levels(this.#place, ...buffer));
    }

    /** The header and the lines of a function. */
    listing(name) {
        return this.#text((...buffer) => this.calls.page_listing(this.#place, ...this.#lay(encoder.encode(name)), ...buffer));
    }
}
