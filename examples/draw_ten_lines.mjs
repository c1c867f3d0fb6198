import { readFileSync } from 'node:fs';
import { load, EXTENDED, ANSWER_SIZE, answerIndex } from '../target/wasm32/pandrwyg.mjs';

const pandrwyg = await load(readFileSync(new URL('../target/wasm32/pandrwyg.wasm', import.meta.url)));
const matrix = new Uint8Array(3 * 6), answer = new Uint8Array(ANSWER_SIZE); // k rows of n bytes
let refusal = pandrwyg.draw(2, 6, 3, EXTENDED, 928, matrix);
if (refusal === 0) console.log(matrix.join('').match(/.{6}/g).join('\n'));
if (refusal === 0) refusal = pandrwyg.receive(2, 6, 3, EXTENDED, 3, matrix, answer);
if (refusal === 0) console.log(`index ${answerIndex(answer)}`);
process.exitCode = refusal;
