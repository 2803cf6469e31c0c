// Records what a JavaScript engine says of template texts, words and string literals.
//
//   node tools/record.js OUTDIR
//
// writes raw.txt, words.txt and strings.txt to OUTDIR; the files in data/ are the output
// of Node v20.20.2. The script asks only the engine it runs in, and its random cases come
// from a fixed seed, so a second run writes the same bytes.
//
// Each file is ASCII, one case a line, fields separated by one space. A line that begins
// with `#` is a comment. A text is written as its 16-bit units, four lower-case
// hexadecimal digits each and nothing between them; `-` is the empty text.
//
//   raw RAW ok COOKED     RAW is a raw part of a template literal, COOKED its value
//   raw RAW no            RAW is no raw part, or has no value
//   word WORD yes|no      whether WORD is a reserved word
//   string UNITS BYTES    BYTES (two digits each) is the UTF-8 of the literal of UNITS

'use strict';
const fs = require('fs');
const path = require('path');

const hex = (n, digits) => n.toString(16).padStart(digits, '0');
const unit = n => String.fromCharCode(n);
const hexUnits = s => s === '' ? '-' : Array.from({ length: s.length }, (_, i) => hex(s.charCodeAt(i), 4)).join('');
const isLead = u => u >= 0xd800 && u <= 0xdbff;
const isTrail = u => u >= 0xdc00 && u <= 0xdfff;

// Whether the unit at i is half of no pair.
function isLoneAt(s, i) {
    const u = s.charCodeAt(i);
    if (isLead(u)) return !(i + 1 < s.length && isTrail(s.charCodeAt(i + 1)));
    if (isTrail(u)) return !(i > 0 && isLead(s.charCodeAt(i - 1)));
    return false;
}

function hasLone(s) {
    for (let i = 0; i < s.length; i++) if (isLoneAt(s, i)) return true;
    return false;
}

// A generator of numbers below n, the same in each run (mulberry32).
function numbers(seed) {
    let state = seed >>> 0;
    return n => {
        state = (state + 0x6d2b79f5) >>> 0;
        let t = state;
        t = Math.imul(t ^ (t >>> 15), t | 1);
        t ^= t + Math.imul(t ^ (t >>> 7), t | 61);
        return ((t ^ (t >>> 14)) >>> 0) % n;
    };
}

// ---- raw parts of templates ----

// The value of `raw` as the one raw part of a tagged template, or null where it is none.
// The engine decides, but for two rules of ours: a raw part here has no carriage return
// (an engine would read a line feed) and no lone surrogate (UTF-8 cannot hold one).
function cooked(raw) {
    if (raw.includes('\r') || hasLone(raw)) return null;
    let seen = null;
    const tag = strings => {
        if (seen === null) seen = strings;
        return '';
    };
    try {
        new Function('t', 't`' + raw + '`')(tag);
    } catch (_) {
        // A syntax error, or what the code after an early backtick did.
    }
    // The tag saw another text where a backtick ended the template or `${` cut it.
    if (seen === null || seen.raw.length !== 1 || seen.raw[0] !== raw) return null;
    // undefined: an escape that is not valid.
    return seen[0] === undefined ? null : seen[0];
}

function rawTexts() {
    const texts = new Set();
    const add = (...all) => all.forEach(s => texts.add(s));

    add('', 'a', 'abc', 'two words', '"', "'", '//', '/* */', '#', '\t', '\n', 'a\nb', '\n\n', '\u0000', '\u007f');
    add('\r', 'a\rb', '\r\n', 'a\r\nb', '\\\r', '\\\r\n', '\\\n\r');
    add('\u00e9', '\u20ac', '\u2028', '\u2029', '\ufeff', '\uffff', '\ud83d\ude00', 'x\ud83d\ude00y');
    add('\ud83d', '\ude00', '\ude00\ud83d', 'a\ud83db', '\\\ud83d', '\\\ude00', '\ud83d\\\ude00');

    // Every unit of Latin-1 after a backslash, alone and with more text.
    for (let u = 0; u <= 0xff; u++) add('\\' + unit(u));
    for (let u = 0x20; u <= 0x7e; u++) add('a\\' + unit(u) + 'b');

    // \0 and the digits: `\0` is the null character unless a digit follows.
    for (const d of '0123456789') add('\\0' + d, '\\' + d + 'x', 'x\\' + d);
    add('\\0', '\\0a', '\\0\\0', '\\0x1', '\\00', '\\08', '\\0 1', '\\0\\1', '\\0-', '\\\\0', '\\\\1', '\\0\u0660');

    // \x with two digits.
    for (const d of ['00', '0a', '0A', '0d', '41', '60', '7f', '7F', '80', 'aF', 'Fa', 'fF', 'ff', 'FF', '5c', '24'])
        add('\\x' + d, '\\x' + d + '0');
    add('\\x', '\\x4', '\\x4g', '\\xg4', '\\x 41', '\\xgg', '\\x4\\x41', '\\X41', '\\x4`', '\\x{41}', '\\x\u0661\u0661');

    // \u with four digits.
    for (const d of ['0000', '000a', '000A', '000d', '0041', '0060', '00e9', '20ac', '20AC', '2028', '2029',
        'd7ff', 'd800', 'D83D', 'dbff', 'dc00', 'DFFF', 'e000', 'fffe', 'ffff', 'FFFF', 'aBcD'])
        add('\\u' + d, '\\u' + d + '0');
    add('\\u', '\\u0', '\\u00', '\\u004', '\\u004g', '\\ug041', '\\u 041', '\\u-041', '\\U0041', '\\u004\\u0041', '\\u004\n');
    add('\\ud83d\\ude00', '\\uD83D\\uDE00', '\\ude00\\ud83d', '\\ud83d\ud83d\ude00', '\\ud83dx', '\\u{d83d}\\u{de00}', '\\ud83d\\u{de00}');

    // \u{..}: a code point of any number of digits up to 10FFFF.
    for (const d of ['0', '00', '000000', '1', '9', 'a', 'A', 'f', 'F', '41', '041', '0041', '00000041', '000000000000000000000041',
        '7f', '80', 'ff', '100', '7ff', '800', '2028', '20ac', 'd7ff', 'd800', 'D83D', 'dfff', 'e000', 'fFfF', 'ffff', '10000',
        '1f600', '1F600', '01f600', 'fffff', '100000', '10ffff', '10FFFF', '10fFfF', '010ffff', '000000000010ffff',
        '110000', '0110000', '10fffff', '200000', 'fffffff', '7fffffff', '80000000', 'ffffffff', '100000000', '100000041',
        'ffffffffffffffff', '10000000000000041', '00000000000000110000'])
        add('\\u{' + d + '}');
    add('\\u{', '\\u{}', '\\u{4', '\\u{41', '\\u{g}', '\\u{4g}', '\\u{g4}', '\\u{ 41}', '\\u{41 }', '\\u{-1}', '\\u{+41}', '\\u{0x41}',
        '\\u{4_1}', '\\u{41}}', '\\u{{41}}', '\\u{41}41', '\\u{41}\\u{42}', '\\u {41}', '\\u{4\n1}', '\\u{110000', '\\u{${', '\\u{41}$',
        '\\u}', '\\u{\\u0041}');

    // Escapes that stand for one character, in rows, and characters that stand for themselves.
    add('\\b\\f\\n\\r\\t\\v', "\\'\\\"\\\\", '\\a\\c\\d\\e', '\\B\\F\\N\\R\\T\\V', '\\\\n', '\\\\\\n', '\\\\\\\\', '\\ \\ ', '\\-', '\\/\\.\\[');
    add('\\\u00e9', '\\\u20ac', '\\\ufeff', '\\\uffff', '\\\u0085', '\\\u00a0', '\\\u2027', '\\\u202a');
    add('\\\ud83d\ude00', 'a\\\ud83d\ude00b', '\\\udbff\udfff', '\\\ud800\udc00');

    // Line continuations.
    for (const end of ['\n', '\u2028', '\u2029'])
        add('\\' + end, 'a\\' + end + 'b', '\\' + end + '\\' + end, '\\' + end + end, '\\\\' + end, 'a' + end + 'b', '\\0\\' + end + '1', '\\u00\\' + end + '41');

    // Dollar signs, braces and backticks.
    add('$', '$$', '$$$', '{', '}', '{}', '$ {', '${', '$${', '${}', '${1}', '${a}', 'a${1}b', '${1}${2}', '\\${', '\\${}', '\\${1}', '$\\{', '$\\{1}',
        '$\\\\{', '\\\\${', '\\\\${1}', '\\$\\{', '\\$${', '$\\${', '\\$$', '$$\\{', '\\\\\\${', '$\\\n{', '\\x24{', '\\u0024{', '\\u{24}{', '$\\u007b', '$\\x7b', '}${', '{$', '{$}');
    add('`', '``', 'a`', '`a', 'a`b', '\\`', '\\``', '\\\\`', '\\\\\\`', 'a\\`b', '\\`\\`', '`+`', '`;`', '`//', '`,t`', 'a`+t`b', '`.length+`', '`/*', '\\');
    add('a\\', '\\\\\\', 'a\\\\', '$\\', '\\$', '\\{', '\\}', '{\\', '\\x24\\', '\\u{24}\\');

    // Random mixes of pieces of all these kinds.
    const below = numbers(20240917);
    const pieces = ['a', 'Z', '0', '1', '7', '9', ' ', '"', "'", '$', '{', '}', '${', '`', '\\', '\\\\', '\\`', '\\$', '\\{', '\n', '\\\n', '\u2028',
        '\\\u2029', '\\b', '\\f', '\\n', '\\r', '\\t', '\\v', '\\0', '\\8', '\\x', '\\x4', '\\x41', '\\xfF', '\\u', '\\u00', '\\u0041', '\\ud83d',
        '\\ude00', '\\u{', '\\u{41', '\\u{41}', '\\u{1F600}', '\\u{10ffff}', '\\u{110000}', 'f', 'F', 'x', 'u', '\u00e9', '\u20ac', '\ud83d\ude00',
        '\\\ud83d\ude00', '\ud83d', '\r', '\u0000', '\\a', '\\"', "\\'"];
    // Half of the mixes leave out what most often makes a text no raw part.
    const rare = new Set(['${', '`', '\\', '\\8', '\\x', '\\x4', '\\u', '\\u00', '\\u{', '\\u{41', '\\u{110000}', '\ud83d', '\r']);
    const mild = pieces.filter(p => !rare.has(p));
    for (let n = 0; n < 240; n++) {
        const from = n % 2 === 0 ? mild : pieces;
        let s = '';
        for (let k = 2 + below(7); k > 0; k--) s += from[below(from.length)];
        add(s);
    }
    return [...texts];
}

function rawLines() {
    return rawTexts().map(raw => {
        const value = cooked(raw);
        return value === null ? `raw ${hexUnits(raw)} no` : `raw ${hexUnits(raw)} ok ${hexUnits(value)}`;
    });
}

// ---- reserved words ----

// ECMA-262, 12.7.2, ReservedWord.
const reserved = ('await break case catch class const continue debugger default delete do else enum export extends false finally for '
    + 'function if import in instanceof new null return super switch this throw true try typeof var void while with yield').split(' ');

const otherWords = ('let static async of get set as from target meta accessor using undefined NaN Infinity eval arguments implements interface '
    + 'package private protected public a b x y _ $ __ $$ _a $a a1 a_b abstract boolean byte char double final float goto int long native short '
    + 'synchronized throws transient volatile Await Break CASE Catch iN In IN If DO Do New nul nulll tru truee fals falsee thi thiss typeo typeoff '
    + 'voi voidd va vars instance instanceOf instanceoff fo fore i d e el els elsee functio functions constructor prototype __proto__ Object Symbol '
    + 'awaits yields yiel enums importt export1 with_ $with del deletes debug debugge name length window').split(' ');

// Whether the engine refuses the word as a variable's name, in sloppy code.
function refused(word) {
    try {
        new Function('var ' + word);
        return false;
    } catch (_) {
        return true;
    }
}

function wordLines() {
    // `await` and `yield` are in the standard's list, though a sloppy script may use them as names: yes by rule.
    const byRule = new Set(['await', 'yield']);
    return [...reserved, ...otherWords].map(word => {
        const yes = byRule.has(word) || refused(word);
        if (yes !== reserved.includes(word)) throw new Error('the standard says otherwise of ' + word);
        return `word ${word} ${yes ? 'yes' : 'no'}`;
    });
}

// ---- string literals ----

// The literal that a printer writes: only what has to be is escaped.
function literal(s) {
    let text = '"';
    for (let i = 0; i < s.length; i++) {
        const c = s[i];
        if (c === '"' || c === '\\') text += '\\' + c;
        else if (c === '\n') text += '\\n';
        else if (c === '\r') text += '\\r';
        else if (isLoneAt(s, i)) text += '\\u' + hex(s.charCodeAt(i), 4);
        else text += c;
    }
    return text + '"';
}

function stringTexts() {
    const texts = new Set();
    const add = (...all) => all.forEach(s => texts.add(s));
    add('', 'abc', 'two words', 'use strict', '</script>', '<!--', '-->', '//', '/*', '${a}', '`', "'", "it's", '\u00e9t\u00e9', 'na\u00efve');
    for (let u = 0; u <= 0x7f; u++) add(unit(u));
    add('"', '""', 'a"b', '\\', '\\\\', 'a\\b', '\\"', '"\\', '\\n', '\n', '\r', '\r\n', '\n\r', 'a\nb', 'a\rb', '\\\n', '\\\r', '\t', '\v', '\f', '\b', '\0', '\x001', '\0\0');
    // The first and the last character of each length in UTF-8, and their neighbours.
    for (const u of [0x80, 0xff, 0x7ff, 0x800, 0xfff, 0x1000, 0x2027, 0x2028, 0x2029, 0x202a, 0xd7ff, 0xe000, 0xfeff, 0xfffd, 0xfffe, 0xffff]) add(unit(u), 'a' + unit(u) + 'b');
    for (const c of [0x10000, 0x1f600, 0x3ffff, 0x40000, 0xfffff, 0x100000, 0x10ffff]) add(String.fromCodePoint(c), 'a' + String.fromCodePoint(c) + 'b');
    // Surrogates alone, in the wrong order and beside pairs.
    for (const u of [0xd800, 0xd83d, 0xdbff, 0xdc00, 0xde00, 0xdfff]) add(unit(u), 'a' + unit(u), unit(u) + 'a', unit(u) + unit(u), unit(u) + '\ud83d\ude00', '\ud83d\ude00' + unit(u));
    add('\ude00\ud83d', '\ud83d\ud83d\ude00', '\ud83d\ude00\ude00', '\ud83d\ude00\ud83d\ude00', '\ud83d\n\ude00', '\ud83d"\ude00', '\\\ud83d', '\ud83d\\', '\\\ud83d\ude00');
    const below = numbers(8128);
    const pieces = ['a', 'Z', '0', ' ', '"', '\\', '\n', '\r', '\t', '\0', '\u007f', '\u00e9', '\u20ac', '\u2028', '\u2029', '\ud83d\ude00', '\ud83d', '\ude00', '\ud800', '\udfff', '\uffff', '$', '{', '`', "'"];
    for (let n = 0; n < 80; n++) {
        let s = '';
        for (let k = 2 + below(8); k > 0; k--) s += pieces[below(pieces.length)];
        add(s);
    }
    return [...texts];
}

function stringLines() {
    return stringTexts().map(s => {
        const bytes = Buffer.from(literal(s), 'utf8');
        // The engine reads the string back from the bytes that are recorded.
        if ((0, eval)(bytes.toString('utf8')) !== s) throw new Error('not read back: ' + hexUnits(s));
        return `string ${hexUnits(s)} ${bytes.toString('hex')}`;
    });
}

// ---- the files ----

function main() {
    const out = process.argv[2];
    if (out === undefined) throw new Error('usage: node tools/record.js OUTDIR');
    fs.mkdirSync(out, { recursive: true });
    const files = { 'raw.txt': rawLines(), 'words.txt': wordLines(), 'strings.txt': stringLines() };
    for (const [name, lines] of Object.entries(files)) {
        const top = `# made by \`node tools/record.js OUTDIR\` with Node ${process.version}`;
        fs.writeFileSync(path.join(out, name), [top, ...lines].join('\n') + '\n');
        console.log(`${name}: ${lines.length} cases`);
    }
}

main();
