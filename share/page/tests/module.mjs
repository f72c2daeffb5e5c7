/** What the tests share: a module from its file, and whether a script is the one that was begun. */
import fs from 'node:fs';
import { pathToFileURL } from 'node:url';

export function moduleOf(path) {
    return new WebAssembly.Module(fs.readFileSync(path));
}

export function isMain(url) {
    return url === pathToFileURL(process.argv[1]).href;
}
