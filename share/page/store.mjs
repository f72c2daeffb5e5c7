/** The workspaces that the browser keeps, in IndexedDB, and a lock for each that one tab at a time has.
 *
 * Of each workspace there are its file, and what the page knows beside it: how often both were written, the end of the transcript, the lines of the
 * history, those of a definition that is open, those that were typed since the file was made, and the step of the guide. */

const DATABASE = 'apl', FILES = 'files', NOTES = 'notes';

/** What was to be written was written by another page since it was read. */
export class Overtaken extends Error {}

function finished(request) {
    return new Promise((done, failed) => {
        request.onsuccess = () => done(request.result);
        request.onerror = () => failed(request.error);
    });
}

export class Store {
    static async open() {
        const request = indexedDB.open(DATABASE, 1);
        request.onupgradeneeded = () => {
            request.result.createObjectStore(FILES);
            request.result.createObjectStore(NOTES);
        };
        const store = new Store();
        store.database = await finished(request);
        return store;
    }

    #begin(mode) {
        return this.database.transaction([FILES, NOTES], mode, { durability: 'strict' });
    }

    names() {
        return finished(this.#begin('readonly').objectStore(NOTES).getAllKeys());
    }

    /** The file and the notes of a workspace, both undefined where there is none of this name. */
    async get(name) {
        const both = this.#begin('readonly');
        const [file, notes] = await Promise.all([finished(both.objectStore(FILES).get(name)), finished(both.objectStore(NOTES).get(name))]);
        return { file, notes };
    }

    /** Writes the notes of a workspace, and its file where there is a new one, if what stands there is what they follow. */
    async put(name, notes, file) {
        const both = this.#begin('readwrite');
        const stands = await finished(both.objectStore(NOTES).get(name));
        if ((stands?.written ?? 0) !== notes.written - 1) throw new Overtaken();
        if (file) both.objectStore(FILES).put(file, name);
        both.objectStore(NOTES).put(notes, name);
        await new Promise((done, failed) => {
            both.oncomplete = done;
            both.onabort = () => failed(both.error);
        });
    }

    async remove(name) {
        const both = this.#begin('readwrite');
        both.objectStore(FILES).delete(name);
        await finished(both.objectStore(NOTES).delete(name));
    }
}

/** Takes the lock of a workspace for as long as this page lives, and tells whether that went at once. Where it didn't, `later` is called when it
 * is had. A browser without locks always says yes: that a workspace was written by another page is told all the same. */
export function lock(name, later) {
    if (!navigator.locks) return Promise.resolve(true);
    const forever = () => new Promise(() => { });
    return new Promise(done => {
        navigator.locks.request(`apl ${name}`, { ifAvailable: true }, had => {
            done(!!had);
            if (had) return forever();
            navigator.locks.request(`apl ${name}`, () => {
                later();
                return forever();
            });
        });
    });
}
