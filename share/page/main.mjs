/** The one script of the page and of its worker: which it is, the place where it runs tells. */
import { show } from './apl.mjs';
import { work } from './worker.mjs';

/** What stands in an element of the page as base64 of gzip. */
function unpacked(element) {
    const packed = Uint8Array.from(atob(element.textContent.trim()), character => character.charCodeAt(0));
    return new Response(new Blob([packed]).stream().pipeThrough(new DecompressionStream('gzip')));
}

async function fetched() {
    const answer = await fetch('apl.wasm');
    if (!answer.ok) throw new Error(`apl.wasm: ${answer.status}`);
    return answer;
}

if (typeof document === 'undefined') {
    work(globalThis);
} else {
    const script = document.currentScript, inside = document.getElementById('module');
    const source = script.src || URL.createObjectURL(new Blob([script.textContent], { type: 'text/javascript' }));
    const module = async () => WebAssembly.compile(await (await (inside ? unpacked(inside) : fetched())).arrayBuffer());
    show(source, module, () => unpacked(document.getElementById('content')).json());
}
