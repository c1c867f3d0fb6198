// Tests the JavaScript module where it differs from C: numbers that no 64 bits hold, arrays, and addresses and lengths beyond the memory. The
// library refuses in its own order, and nothing else is touched.
//     node javascript.mjs FOLDER      with FOLDER/pandrwyg.mjs and FOLDER/pandrwyg.wasm
import { readFileSync } from 'node:fs';
import { resolve } from 'node:path';
import { pathToFileURL } from 'node:url';

const folder = process.argv[2];
const { load, EXTENDED, FERRERS, ANSWER_SIZE, answerIndex, answerDimension, answerVector } =
    await import(pathToFileURL(resolve(folder, 'pandrwyg.mjs')));
const wasm = readFileSync(resolve(folder, 'pandrwyg.wasm'));
const pandrwyg = await load(wasm);
const PAINT = 0xa5;
let passed = 0;
let failed = 0;
let wrong = 0;

function check(came, should, words) {
    if (came === should) return;
    wrong++;
    console.log(`  failed: ${words}: ${came} instead of ${should}`);
}

function group(name, body) {
    wrong = 0;
    body();
    if (wrong === 0) passed++;
    else {
        failed++;
        console.log(`  failed: ${name}`);
    }
}

function throwsTypeError(call, words) {
    try {
        call();
    } catch (error) {
        check(error instanceof TypeError, true, words);
        return;
    }
    check('nothing', 'a TypeError', words);
}

const painted = (length) => new Uint8Array(length).fill(PAINT);
const isPainted = (bytes) => bytes.every((byte) => byte === PAINT);

group('the module', () => {
    const module = new WebAssembly.Module(wasm);
    check(WebAssembly.Module.imports(module).length, 0, 'it imports nothing');
    const raw = WebAssembly.Module.exports(module).map(({ name }) => name).filter((name) => name.startsWith('pandrwyg_')).sort();
    check(raw.join(), 'pandrwyg_draw_batch_raw,pandrwyg_draw_raw,pandrwyg_receive_raw', 'what it exports');
});

group('Draw and Receive', () => {
    const matrix = painted(18);
    for (const index of [928, 928n]) check(pandrwyg.draw(2, 6, 3, EXTENDED, index, matrix), 0, 'Example 4');
    check(matrix.join(''), '011001000100000011', 'its rows');
    const answer = painted(ANSWER_SIZE);
    check(pandrwyg.receive(2, 6, 3, FERRERS, 3, matrix, answer), 0, 'received');
    check(answerIndex(answer), 1323n, 'index');
    check(answerDimension(answer), 3, 'dimension');
    check(answerVector(answer), 22, 'identifying vector');
    check(pandrwyg.receive(2, 6, 3, EXTENDED, 1, matrix.subarray(6, 12), answer.subarray(0)), 8, 'a part of an array');
    check(answerDimension(answer), 1, 'its dimension');
});

group('a great index', () => {
    const matrix = painted(30);
    const last = 10729268895402608264n;
    check(pandrwyg.draw(8, 10, 3, EXTENDED, last, matrix), 0, 'the last of 8,10,3');
    const answer = painted(ANSWER_SIZE);
    check(pandrwyg.receive(8, 10, 3, EXTENDED, 3, matrix, answer), 0, 'received');
    check(answerIndex(answer), last, 'index');
    check(pandrwyg.draw(8, 10, 3, EXTENDED, last + 1n, matrix), 5, 'one more');
});

group('a batch', () => {
    const matrices = painted(9), answers = painted(3);
    check(pandrwyg.drawBatch(2, 3, 1, EXTENDED, new BigUint64Array([5n, 7n, 2n]), matrices, answers), 0, 'done');
    check(matrices.join(), [0, 1, 1, PAINT, PAINT, PAINT, 0, 1, 0].join(), 'matrices');
    check(answers.join(), '0,5,0', 'answers');
    check(pandrwyg.drawBatch(2, 3, 1, EXTENDED, null, null, null), 0, 'nothing is asked');
});

// Each number that 64 bits do not hold, in each place: never cut down to one that they hold.
group('numbers', () => {
    const numbers = [-1, -1n, 0.5, 2.5, NaN, Infinity, 2 ** 53, 2 ** 64, 2n ** 64n, 2n ** 64n + 2n, 2n ** 65n + 1n, -(2n ** 64n) + 2n];
    const matrix = painted(18), answer = painted(ANSWER_SIZE), rows = new Uint8Array(18);
    for (const number of numbers) {
        check(pandrwyg.draw(number, 6, 3, 1, 0, matrix), 1, `q = ${number}`);
        check(pandrwyg.draw(2, number, 3, 1, 0, matrix), 2, `n = ${number}`);
        check(pandrwyg.draw(2, 6, number, 1, 0, matrix), 2, `k = ${number}`);
        check(pandrwyg.draw(2, 6, 3, number, 0, matrix), 10, `numbering ${number}`);
        check(pandrwyg.draw(2, 6, 3, 1, number, matrix), 5, `index ${number}`);
        check(pandrwyg.receive(2, 6, 3, 1, number, rows, answer), 13, `row count ${number}`);
    }
    check(isPainted(matrix) && isPainted(answer), true, 'nothing is touched');
});

group('types', () => {
    const matrix = painted(18);
    for (const number of [undefined, null, '2', true, {}]) {
        throwsTypeError(() => pandrwyg.draw(number, 6, 3, 1, 0, matrix), `q = ${number}`);
        throwsTypeError(() => pandrwyg.draw(2, 6, 3, 1, number, matrix), `index ${number}`);
    }
    for (const buffer of [undefined, 18, [], new Uint16Array(9), new ArrayBuffer(18)])
        throwsTypeError(() => pandrwyg.draw(2, 6, 3, 1, 0, buffer), `buffer ${buffer}`);
    throwsTypeError(() => pandrwyg.draw(2, 6, 3, 1, 0, new Uint8Array(pandrwyg.memory.buffer, 20000, 18)), "of the library's memory");
    throwsTypeError(() => pandrwyg.drawBatch(2, 3, 1, 1, new Uint8Array(8), painted(3), painted(1)), 'indexes of bytes');
    check(isPainted(matrix), true, 'nothing is touched');
});

// The guards over addresses, in the order of the refusals.
const { at, memory, firstAddress } = pandrwyg;
const size = () => memory.buffer.byteLength;
const refused = [[6, 6, 3, 1, 1], [2, 17, 3, 1, 2], [2, 16, 7, 1, 3], [2, 6, 3, 3, 10], [2, 6, 3, 1, 4], [2, 6, 0, 1, 4]];
const unusable = () => [
    [null, 18], [0, 18], [firstAddress - 1, 18], [-18, 18], [1.5, 18], [NaN, 18], ['0', 18], [2 ** 32 + firstAddress, 18], [2 ** 60, 18],
    [firstAddress, -1], [firstAddress, 0.5], [firstAddress, 2 ** 32 + 18], [firstAddress, 2 ** 60], [firstAddress, size()],
    [size() - 17, 18], [size(), 1], [size() + 1, 0],
];

group('addresses and lengths beyond the memory', () => {
    const bytes = new Uint8Array(memory.buffer);
    const before = bytes.slice();
    for (const [q, n, k, numbering, refusal] of refused)
        for (const [address, length] of unusable()) {
            const words = `${refusal}, address ${address}, length ${length}`;
            check(at.draw(q, n, k, numbering, 0, address, length), refusal, `Draw ${words}`);
            for (const rowCount of [0, 3])
                check(at.receive(q, n, k, numbering, rowCount, address, length, firstAddress, ANSWER_SIZE), refusal, `Receive ${words}`);
            const rows = firstAddress + 64;
            check(at.receive(q, n, k, numbering, 3, rows, 18, address, length), refusal, `Receive to ${words}`);
            check(at.drawBatch(q, n, k, numbering, address, length, firstAddress, 0, firstAddress, 0), refusal, `batch from ${words}`);
            check(at.drawBatch(q, n, k, numbering, address, length, null, 0, null, 0), refusal, `batch from ${words}, to null`);
            check(at.drawBatch(q, n, k, numbering, null, 0, address, length, null, 0), refusal, `batch to ${words}`);
            check(at.drawBatch(q, n, k, numbering, null, 0, null, 0, address, length), refusal, `batch's answers ${words}`);
        }
    const eighth = Math.floor(size() / 8);
    check(at.drawBatch(2, 6, 0, 1, firstAddress, eighth, null, 0, firstAddress, eighth), 4, 'a list of eight bytes an index');
    check(bytes.every((byte, place) => place < firstAddress || byte === before[place]), true, 'nothing is touched');
});

group('addresses in the memory', () => {
    const place = size() - 18;
    new Uint8Array(memory.buffer).fill(PAINT, place - 8);
    check(at.draw(2, 6, 3, 1, 928, place, 18), 0, 'the last 18 bytes');
    check(new Uint8Array(memory.buffer, place).join(''), '011001000100000011', 'its rows');
    check(isPainted(new Uint8Array(memory.buffer, place - 8, 8)), true, 'what stands before them');
    check(at.receive(2, 6, 3, 1, 3, place, 18, firstAddress, ANSWER_SIZE), 0, 'received');
    check(answerIndex(new Uint8Array(memory.buffer, firstAddress, ANSWER_SIZE)), 928n, 'index');
    check(at.draw(2, 6, 0, 1, 0, null, 0), 0, 'the empty matrix');
    check(at.receive(2, 6, 0, 1, 0, null, 0, firstAddress, ANSWER_SIZE), 0, 'no rows');
});

group('a batch that the memory grows for', () => {
    const count = 20000, matrices = painted(count * 3), answers = painted(count);
    const indexes = BigUint64Array.from({ length: count }, (_, place) => BigInt(place % 8));
    check(pandrwyg.drawBatch(2, 3, 1, EXTENDED, indexes, matrices, answers), 0, 'done');
    const one = new Uint8Array(3);
    for (let place = 0; place < count; place++) {
        check(answers[place], pandrwyg.draw(2, 3, 1, EXTENDED, place % 8, one), `answer ${place}`);
        const part = matrices.subarray(3 * place, 3 * place + 3);
        check(answers[place] === 0 ? part.join() === one.join() : isPainted(part), true, `part ${place}`);
    }
});

// Two buffers of half as many bytes as there are addresses.
group('buffers that no memory holds', () => {
    const rows = new Uint8Array(2 ** 31), answer = new Uint8Array(2 ** 31), few = new BigUint64Array(1);
    check(pandrwyg.receive(2, 6, 3, 1, 3, rows, answer), 4, 'Receive');
    check(pandrwyg.receive(2, 6, 3, 0, 3, rows, answer), 10, 'Receive in the order of refusals');
    check(pandrwyg.drawBatch(2, 6, 3, 1, few, rows, answer), 4, 'a batch');
    check(pandrwyg.drawBatch(6, 6, 3, 1, few, rows, answer), 1, 'a batch in the order of refusals');
    check(rows[0] === 0 && answer[0] === 0, true, 'nothing is touched');
});

console.log(`javascript: ${passed} passed, ${failed} failed`);
process.exitCode = failed === 0 ? 0 : 1;
