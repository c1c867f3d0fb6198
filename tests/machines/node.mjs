// The list of calls under Node, through the library's JavaScript module: the list is a WebAssembly module of its own, with its own memory, whose
// calls of the library come here.
//     node node.mjs FOLDER LIST      with FOLDER/pandrwyg.mjs, FOLDER/pandrwyg.wasm and the list's module
import { readFileSync } from 'node:fs';
import { resolve } from 'node:path';
import { pathToFileURL } from 'node:url';

const [folder, listFile] = process.argv.slice(2);
const { load } = await import(pathToFileURL(resolve(folder, 'pandrwyg.mjs')));
const pandrwyg = await load(readFileSync(resolve(folder, 'pandrwyg.wasm')));
let memory;

const bytes = (address, length) => new Uint8Array(memory.buffer, address, Number(length));
const unsigned = (numbers) => numbers.map((number) => BigInt.asUintN(64, number));

const { instance } = await WebAssembly.instantiate(readFileSync(listFile), {
    env: {
        say(address) {
            const text = bytes(address, memory.buffer.byteLength - address);
            process.stdout.write(Buffer.from(text.subarray(0, text.indexOf(0))));
        },
        pandrwyg_draw_raw(q, n, k, numbering, index, matrix, length) {
            return pandrwyg.draw(...unsigned([q, n, k, numbering, index]), bytes(matrix, length));
        },
        pandrwyg_draw_batch_raw(q, n, k, numbering, indexes, count, matrices, matricesLength, answers, answersLength) {
            const list = new BigUint64Array(memory.buffer, indexes, Number(count));
            return pandrwyg.drawBatch(...unsigned([q, n, k, numbering]), list, bytes(matrices, matricesLength), bytes(answers, answersLength));
        },
        pandrwyg_receive_raw(q, n, k, numbering, rowCount, rows, rowsLength, answer, answerLength) {
            return pandrwyg.receive(...unsigned([q, n, k, numbering, rowCount]), bytes(rows, rowsLength), bytes(answer, answerLength));
        },
    },
});
memory = instance.exports.memory;
process.exitCode = instance.exports.make_calls() === 0 ? 0 : 1;
