// Pandrwyg for JavaScript, around pandrwyg.wasm: spaces of rows over a small field as numbers, and back.
//
//     const pandrwyg = await load(fetch('pandrwyg.wasm'));               in a browser
//     const pandrwyg = await load(readFileSync('pandrwyg.wasm'));        under Node
//     const matrix = new Uint8Array(3 * 6);
//     const refusal = pandrwyg.draw(2, 6, 3, EXTENDED, 928, matrix);
//
// pandrwyg.h tells what goes into a call, what the call refuses, and what it leaves; it answers 0 for done or the number of a refusal, which is
// to be looked at before any buffer is. Here
// - a number is a Number or a BigInt. One that is no whole number from 0 to 2^64 - 1, or a Number above 2^53 - 1, which may have lost digits,
//   counts as 2^64 - 1, and that is refused as a setting, a numbering, an index or a row count;
// - a buffer is a Uint8Array and a list of indexes a BigUint64Array, outside the library's memory; null is an empty one. They are copied to
//   the library's memory and back. What is of another type is a TypeError.
//
// A program that keeps its buffers in the library's memory, from `firstAddress` on, makes the same calls as `at.draw`, `at.drawBatch` and
// `at.receive`, with an address and a length in the place of each buffer. A null address with a length, an address that is not the program's
// and a length that ends beyond the memory count as a buffer of a wrong length, which the library refuses in its own order.

export const EXTENDED = 1;
export const FERRERS = 2;
export const ANSWER_SIZE = 11;

const viewOf = (answer) => new DataView(answer.buffer, answer.byteOffset, ANSWER_SIZE);

// What an answer holds after Receive was done, or was refused 8 or 9: the index, a BigInt, the dimension and the identifying vector.
export const answerIndex = (answer) => viewOf(answer).getBigUint64(0, true);
export const answerDimension = (answer) => viewOf(answer).getUint8(8);
export const answerVector = (answer) => viewOf(answer).getUint16(9, true);

const PAGE = 65536;
const GREATEST = 2n ** 64n - 1n;

// The number as 64 bits.
function whole(number) {
    if (typeof number !== 'number' && typeof number !== 'bigint') throw new TypeError('a number is a Number or a BigInt');
    if (typeof number === 'number' && !Number.isSafeInteger(number)) return GREATEST;
    const wide = BigInt(number);
    return wide >= 0n && wide <= GREATEST ? wide : GREATEST;
}

// Loads the library from the bytes of pandrwyg.wasm, from a response that brings them, or from a promise of either.
export async function load(source) {
    const given = await source;
    const bytes = typeof given.arrayBuffer === 'function' ? await given.arrayBuffer() : given;
    const { instance } = await WebAssembly.instantiate(bytes);
    return new Pandrwyg(instance.exports);
}

// The calls over addresses. An unusable buffer is handed on as a spare byte, with a length that is wrong whenever the library comes to it.
class Addresses {
    #raw;
    #spare;
    #first;

    constructor(raw, spare, first) {
        this.#raw = raw;
        this.#spare = spare;
        this.#first = first;
    }

    // The address and the length as the library takes them, of a buffer with `size` bytes a place; null where it is unusable.
    #usable(address, length, size = 1) {
        if (address === null) return length === 0 ? [this.#spare, 0n] : null;
        if (!Number.isSafeInteger(address) || !Number.isSafeInteger(length) || address < this.#first || length < 0) return null;
        return address + length * size <= this.#raw.memory.buffer.byteLength ? [address, BigInt(length)] : null;
    }

    draw(q, n, k, numbering, index, matrix, length) {
        const numbers = [q, n, k, numbering, index].map(whole);
        const lent = this.#usable(matrix, length) ?? [this.#spare, numbers[2] === 0n ? 1n : 0n];
        return this.#raw.pandrwyg_draw_raw(...numbers, ...lent);
    }

    drawBatch(q, n, k, numbering, indexes, indexCount, matrices, matricesLength, answers, answersLength) {
        const numbers = [q, n, k, numbering].map(whole);
        const lent = [this.#usable(indexes, indexCount, 8), this.#usable(matrices, matricesLength), this.#usable(answers, answersLength)];
        // A list of no indexes needs no answers, so one answer is wrong.
        const wrong = [[this.#spare, 0n], [this.#spare, 0n], [this.#spare, 1n]];
        return this.#raw.pandrwyg_draw_batch_raw(...numbers, ...(lent.includes(null) ? wrong : lent).flat());
    }

    receive(q, n, k, numbering, rowCount, rows, rowsLength, answer, answerLength) {
        const numbers = [q, n, k, numbering, rowCount].map(whole);
        const lent = this.#usable(rows, rowsLength) ?? [this.#spare, numbers[4] === 0n ? 1n : 0n];
        const told = this.#usable(answer, answerLength) ?? [this.#spare, 0n];
        return this.#raw.pandrwyg_receive_raw(...numbers, ...lent, ...told);
    }
}

class Pandrwyg {
    constructor(raw) {
        const spare = raw.__heap_base.value;
        this.memory = raw.memory;
        this.firstAddress = Math.ceil((spare + 1) / 16) * 16;
        this.at = new Addresses(raw, spare, this.firstAddress);
    }

    draw(q, n, k, numbering, index, matrix) {
        return this.#lend([[matrix, Uint8Array]], (...lent) => this.at.draw(q, n, k, numbering, index, ...lent));
    }

    drawBatch(q, n, k, numbering, indexes, matrices, answers) {
        return this.#lend([[indexes, BigUint64Array], [matrices, Uint8Array], [answers, Uint8Array]], (...lent) =>
            this.at.drawBatch(q, n, k, numbering, ...lent));
    }

    receive(q, n, k, numbering, rowCount, rows, answer) {
        return this.#lend([[rows, Uint8Array], [answer, Uint8Array]], (...lent) => this.at.receive(q, n, k, numbering, rowCount, ...lent));
    }

    // Copies arrays of these types to the memory, calls with the address and the length of each, and copies them back.
    #lend(typed, call) {
        const buffers = typed.map(([array, type]) => this.#bytesOf(array, type));
        let end = this.firstAddress;
        for (const buffer of buffers) {
            buffer.address = buffer.bytes && end;
            end += Math.ceil(buffer.bytes?.length / 8 || 0) * 8;
        }
        this.#growTo(end);
        const memory = new Uint8Array(this.memory.buffer);
        const held = buffers.filter(({ address, bytes }) => bytes && address + bytes.length <= memory.length);
        for (const { address, bytes } of held) memory.set(bytes, address);
        const refusal = call(...buffers.flatMap(({ address, length }) => [address, length]));
        for (const { address, bytes } of held) bytes.set(memory.subarray(address, address + bytes.length));
        return refusal;
    }

    #bytesOf(array, type) {
        if (array === null) return { bytes: null, length: 0 };
        if (!(array instanceof type) || array.buffer === this.memory.buffer)
            throw new TypeError(`a buffer is null or a ${type.name} outside the library's memory`);
        return { bytes: new Uint8Array(array.buffer, array.byteOffset, array.byteLength), length: array.length };
    }

    // Where no memory is that large, it stays as it is, and what ends beyond it has a wrong length.
    #growTo(end) {
        const pages = Math.ceil((end - this.memory.buffer.byteLength) / PAGE);
        try {
            if (pages > 0) this.memory.grow(pages);
        } catch (error) {
            if (!(error instanceof RangeError)) throw error;
        }
    }
}
