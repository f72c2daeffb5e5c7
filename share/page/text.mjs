/** What the page knows of the language's texts: reports, names, headers. All of it is of strings, and is tried by tests/text.test.mjs. */

const NAME = /[A-Za-z∆⍙_][A-Za-z∆⍙_0-9]*/;
const ALONE = [9, 11, 12];      // the numbers of DEFN ERROR, CHARACTER ERROR and INCORRECT COMMAND, whose report is their name alone
const COMMANDS = [')CLEAR', ')ERASE', ')FNS', ')SI', ')VARS'], SYSTEM = ['⎕IO', '⎕LC', '⎕NC', '⎕STOP', '⎕TRACE'];
const PROMPT = 6, LONGEST = 500, SAID = 600;   // characters: of a prompt, of a line at most, and of what is read aloud

/** Parts of what a line wrote: what comes before the report of the fault that it ended with, and the report. `fault` is the fault's number, or 0. */
export function parts(text, fault) {
    const lines = text.split(/(?<=\n)/), from = lines.length - (fault ? ALONE.includes(fault) ? 1 : 3 : 0);
    return [{ text: lines.slice(0, from).join(''), isFault: false }, { text: lines.slice(from).join(''), isFault: true }].filter(it => it.text);
}

/** What stands before a typed line: six blanks, or its number in the definition that is open. */
export function prompt(number) {
    return number ? `[${number}]`.padEnd(PROMPT) : ' '.repeat(PROMPT);
}

/** The name of the function with this header. */
export function functionName(header) {
    const words = header.split(';')[0].replace(/^.*←/, '').trim().split(/ +/);
    return words.length === 3 ? words[1] : words[0];
}

/** What stands for each line of the machine's names: functions with their headers, variables with their type and shape. */
export function names(text) {
    const functions = [], variables = [];
    for (const line of text.split('\n').filter(Boolean)) {
        if (line.startsWith('∇ ')) {
            functions.push({ name: functionName(line.slice(2)), header: line.slice(2) });
        } else {
            const [name, kind, ...shape] = line.split(' ');
            variables.push({ name, kind: { N: 'numbers', C: 'characters' }[kind] ?? '', shape });
        }
    }
    return { functions, variables };
}

/** What a person reads of a variable's type and shape. */
export function described({ kind, shape }) {
    return shape.length ? `${kind}, ${shape.join(' by ')}` : kind ? `a ${kind.slice(0, -1)}` : 'no value';
}

/** The lines of )SI: a function's name and number, and whether it is suspended. */
export function levels(text) {
    const found = text.split('\n').map(line => /^(.*)\[(\d+)\]( \*)?$/.exec(line));
    return found.filter(Boolean).map(([, name, number, star]) => ({ name, number: Number(number), isSuspended: !!star }));
}

/** How a line goes on: the word before the cursor, what is behind it in all completions, and these. */
export function completion(before, known) {
    const word = /(?:^ *\)|⎕|[A-Za-z∆⍙_])?[A-Za-z∆⍙_0-9]*$/.exec(before)[0].trimStart();
    if (!word) return { word, rest: '', found: [] };
    const all = word[0] === ')' ? COMMANDS : word[0] === '⎕' ? SYSTEM : known;
    const wanted = word[0] === ')' ? word.toUpperCase() : word;
    const found = [...new Set(all)].filter(it => it.startsWith(wanted)).sort();
    let most = found[0] ?? wanted;
    for (const it of found) while (!it.startsWith(most)) most = most.slice(0, -1);
    return { word, rest: most.slice(wanted.length), found };
}

/** The lines that define a function whose header and lines stand in a text, or why it can't be defined so. */
export function definition(text) {
    const [header, ...body] = text.replace(/\n+$/, '').split('\n').map(it => it.trim());
    if (!NAME.test(header)) return { why: 'The first line must be a header, as Z←MEAN V.', at: 0 };
    const begins = [header, ...body].findIndex(it => it.startsWith('∇')), long = [header, ...body].findIndex(it => it.length > LONGEST);
    if (begins >= 0) return { why: 'No line may begin with ∇: the page types the first one and the last one.', at: begins };
    if (long >= 0) return { why: `${lineName(long)} has over ${LONGEST} characters.`, at: long };
    return { lines: [`∇${header}`, ...body, '∇'] };
}

function lineName(number) {
    return number ? `Line ${number}` : 'The header';
}

/** What a person reads of a definition that is refused. */
export function refusedText({ at, report, number, why }) {
    if (why) return `It is not defined: ${why}.`;
    if (number) return `It is not defined: ${meaning(number)}.`;
    const more = at ? '' : ': it is none, or its name is a variable\u2019s';
    return `DEFN ERROR. ${lineName(at)} is refused${more}.${report && `\n\n${report}`}`;
}

/** The lines of a text that is pasted, the last one apart: it stays to be edited. */
export function pasted(text) {
    const lines = text.split(/\r\n|\n|\r/), last = lines.pop();
    return { lines, last };
}

/** The line that sets the stops or the traces of a function to these lines, or null where it would be too long for one. */
export function vectorLine(word, name, lines) {
    const line = `${lines.length ? lines.join(' ') : '(⍳0)'} ⎕${word} '${name}'`;
    return line.length <= LONGEST ? line : null;
}

/** The lines that go on to the next line of a function that is suspended: all its lines stop meanwhile, and then those of before. */
export function stepLines(name, count, stop) {
    if (stop.length === count) return ['→⎕LC'];
    // One number more than there are lines, which is passed over: so it is right for both origins.
    const back = vectorLine('STOP', name, stop);
    return back && [`(⍳${count + 1}) ⎕STOP '${name}'`, '→⎕LC', back];
}

/** The word that the reference has an entry of, at a place of a line: a system name, a command, or a character; a digit and a letter stand for all
 * others. Behind the last one it is the one before. */
export function symbolAt(line, at) {
    const words = [...line.matchAll(/⎕[A-Za-z]+|^ *\)[A-Za-z]*|\S/g)].map(it => ({ from: it.index, to: it.index + it[0].length, word: it[0].trim() }));
    const word = (words.find(it => it.from <= at && at < it.to) ?? words.findLast(it => it.to <= at) ?? words[0])?.word ?? '';
    if (word.length > 1) return word.toUpperCase();
    return /[0-9]/.test(word) ? '¯' : /[A-Za-z]/.test(word) ? '_' : word;
}

/** What is read aloud of parts of what was written: in a report, the character at the caret by its meaning. */
export function spoken(wrote, meanings) {
    const said = wrote.map(it => {
        const [name, line, caret] = it.text.split('\n');
        if (!it.isFault || !caret) return it.text.trim();
        const character = line[caret.length - 1] ?? '';
        return `${name}: ${line.trim()}, at ${character} ${meanings[character] ?? ''}`.trim();
    }).filter(Boolean).join('\n');
    return said.length <= SAID ? said : `${said.slice(0, SAID)} … ${(said.length - SAID).toLocaleString('en')} characters more`;
}

/** What a number of the machine means to a person. */
export function meaning(number) {
    return {
        1: 'it is no JSON', 2: 'it has not the form of a workspace', 3: 'an array in it is none', 4: 'a function in it is none',
        5: 'a context in it is none', 6: 'code in it is none', 7: 'it is over a limit', 8: 'memory has run out',
        14: 'a line has at most 2,000 bytes', 16: 'the session runs', 19: 'a line has no line feed',
    }[number] ?? `the number is ${number}`;
}
